//! "From readings to symbols", worked out in double precision, where every single-precision float and every sum below is exact
//! or too far away to matter.

#[derive(Clone, Copy)]
pub enum FrontEnd {
    Gain(f32),
    Offset(f32, f32),
    Threshold(f32),
}

/// The paper's number and values. Values not named in its table are 0.
#[derive(Debug, PartialEq)]
pub struct Told {
    pub number: u32,
    pub count: usize,
    pub index: usize,
    pub lowest: f32,
    pub highest: f32,
}

/// The limit of a block.
const BLOCK: usize = 864;

/// The nearest whole number, halves away from zero, held within -127 to 127. A half is added to the distance from zero, and the
/// fraction dropped; distances from 2 to the 53rd on, and infinities, are held at 127 anyway.
pub fn symbol(product: f32) -> i8 {
    let whole = (f64::from(product).abs() + 0.5).floor().min(127.0) as i8;
    if product.is_sign_negative() {
        -whole
    } else {
        whole
    }
}

fn good_gain(gain: f32) -> bool {
    gain.is_finite() && gain > 0.0
}

fn good(front_end: FrontEnd) -> bool {
    match front_end {
        FrontEnd::Gain(gain) => good_gain(gain),
        FrontEnd::Offset(offset, gain) => offset.is_finite() && good_gain(gain),
        FrontEnd::Threshold(threshold) => threshold.is_finite(),
    }
}

fn convert(front_end: FrontEnd, reading: f32) -> i8 {
    match front_end {
        FrontEnd::Gain(gain) => symbol(reading * gain),
        FrontEnd::Offset(offset, gain) => symbol((reading - offset) * gain),
        FrontEnd::Threshold(threshold) => {
            if reading >= threshold {
                1
            } else {
                -1
            }
        }
    }
}

fn refused(number: u32, index: usize) -> Told {
    Told { number, count: 0, index, lowest: 0.0, highest: 0.0 }
}

pub fn front(front_end: FrontEnd, readings: &[f32], symbols: &mut [i8]) -> Told {
    if readings.is_empty() || readings.len() > BLOCK || symbols.len() < readings.len() {
        return refused(2, 0);
    }
    if !good(front_end) {
        return refused(6, 0);
    }
    if let Some(index) = readings.iter().position(|reading| !reading.is_finite()) {
        return refused(8, index);
    }
    for (place, &reading) in symbols.iter_mut().zip(readings) {
        *place = convert(front_end, reading);
    }
    // Of equal ones the first seen: no earlier reading is as low, and none lower follows.
    let first = |beats: fn(f32, f32) -> bool| {
        let mine = |&&x: &&f32| readings.iter().all(|&other| !beats(other, x));
        *readings.iter().find(mine).expect("a block of finite readings has a lowest and a highest")
    };
    Told {
        number: 0,
        count: readings.len(),
        index: 0,
        lowest: first(|a, b| a < b),
        highest: first(|a, b| a > b),
    }
}

#[cfg(test)]
mod tests {
    use super::*;

    #[test]
    fn case_15() {
        let mut symbols = [99; 6];
        let told = front(FrontEnd::Gain(2.0), &[0.25, -0.25, 63.0, 63.25, 1000.0], &mut symbols);
        assert_eq!(symbols, [1, -1, 126, 127, 127, 99]);
        assert_eq!(told, Told { number: 0, count: 5, index: 0, lowest: -0.25, highest: 1000.0 });
    }
}
