//! The table that the proved program `front_cases` must write: `crates/front_cases/stdout` is this program's output.
use second::front::{front, FrontEnd, Told};

const LARGEST: f32 = f32::MAX;
const SMALLEST: f32 = f32::from_bits(1);

fn float(x: f32) -> String {
    if x.is_nan() {
        "nan".to_string()
    } else {
        format!("{:08x}", x.to_bits())
    }
}

fn told(told: &Told) -> String {
    format!(
        "  out  {} count {} index {} lowest {} highest {}",
        told.number,
        told.count,
        told.index,
        float(told.lowest),
        float(told.highest)
    )
}

fn asked(front_end: FrontEnd) -> String {
    match front_end {
        FrontEnd::Gain(gain) => format!("gain {}", float(gain)),
        FrontEnd::Offset(offset, gain) => format!("offset {} gain {}", float(offset), float(gain)),
        FrontEnd::Threshold(threshold) => format!("threshold {}", float(threshold)),
    }
}

fn run(name: &str, front_end: FrontEnd, readings: &[f32]) {
    let mut symbols = [99i8; 8];
    let answer = front(front_end, readings, &mut symbols);
    println!("{name}");
    print!("  in   {}; readings", asked(front_end));
    readings.iter().for_each(|&reading| print!(" {}", float(reading)));
    print!("\n{}; symbols", told(&answer));
    symbols.iter().for_each(|symbol| print!(" {symbol}"));
    println!();
}

/// The float next nearer to zero.
fn nearer(x: f32) -> f32 {
    f32::from_bits(x.to_bits() - 1)
}

fn halves() {
    let above = [0.5, 1.5, 126.5, 127.5];
    run("gain 1: halves", FrontEnd::Gain(1.0), &above);
    run("gain 1: halves below zero", FrontEnd::Gain(1.0), &above.map(|x| -x));
    let short = above.map(nearer);
    run("gain 1: next nearer to zero than a half", FrontEnd::Gain(1.0), &short);
    run("gain 1: next nearer to zero than a half, below zero", FrontEnd::Gain(1.0), &short.map(|x| -x));
    let long = above.map(|x| f32::from_bits(x.to_bits() + 1));
    run("gain 1: next farther from zero than a half, below zero", FrontEnd::Gain(1.0), &long.map(|x| -x));
}

fn zeros() {
    run("gain 1: 0, -0", FrontEnd::Gain(1.0), &[0.0, -0.0]);
    run("gain 1: -0, 0", FrontEnd::Gain(1.0), &[-0.0, 0.0]);
    run("gain 1: 5, -0, 0, 5", FrontEnd::Gain(1.0), &[5.0, -0.0, 0.0, 5.0]);
}

fn extremes() {
    let largest = [LARGEST, -LARGEST];
    run("gain largest: largest, -largest", FrontEnd::Gain(LARGEST), &largest);
    run("gain smallest: smallest, -smallest", FrontEnd::Gain(SMALLEST), &[SMALLEST, -SMALLEST]);
    let low = FrontEnd::Offset(-LARGEST, SMALLEST);
    run("offset -largest, gain smallest: largest, -largest", low, &largest);
    let high = FrontEnd::Offset(LARGEST, SMALLEST);
    run("offset largest, gain smallest: largest, -largest", high, &largest);
}

fn offset_and_threshold() {
    let around_ten = [10.0, 10.25, 9.75, 73.5, -53.5];
    run("offset 10, gain 2: 10, 10.25, 9.75, 73.5, -53.5", FrontEnd::Offset(10.0, 2.0), &around_ten);
    let around_half = [1.5, nearer(1.5), f32::from_bits(1.5f32.to_bits() + 1), -3.0];
    run("threshold 1.5: 1.5, next below, next above, -3", FrontEnd::Threshold(1.5), &around_half);
    let around_zero = [-0.0, 0.0, SMALLEST, -SMALLEST];
    run("threshold 0: -0, 0, smallest, -smallest", FrontEnd::Threshold(0.0), &around_zero);
}

fn bad_front_ends() {
    let one = [1.0];
    run("gain NaN", FrontEnd::Gain(f32::NAN), &one);
    run("gain infinite", FrontEnd::Gain(f32::INFINITY), &one);
    run("gain 0", FrontEnd::Gain(0.0), &one);
    run("gain -0", FrontEnd::Gain(-0.0), &one);
    run("gain -1", FrontEnd::Gain(-1.0), &one);
    run("offset NaN, gain 1", FrontEnd::Offset(f32::NAN, 1.0), &one);
    run("offset 1, gain NaN", FrontEnd::Offset(1.0, f32::NAN), &one);
    run("offset 1, gain 0", FrontEnd::Offset(1.0, 0.0), &one);
    run("threshold NaN", FrontEnd::Threshold(f32::NAN), &one);
}

fn bad_readings() {
    let second = [1.0, f32::NAN, f32::INFINITY];
    run("gain 1: 1, NaN, infinite", FrontEnd::Gain(1.0), &second);
    let last = [1.0, 2.0, f32::NEG_INFINITY];
    run("threshold 0: 1, 2, -infinite", FrontEnd::Threshold(0.0), &last);
    run("gain NaN and a reading NaN: the front end first", FrontEnd::Gain(f32::NAN), &second);
}

fn bad_sizes() {
    let many = [1.0; 9];
    run("gain NaN, no reading: the size first", FrontEnd::Gain(f32::NAN), &many[..0]);
    run("gain 1, eight readings for eight places", FrontEnd::Gain(1.0), &many[..8]);
    run("gain 1, nine readings for eight places", FrontEnd::Gain(1.0), &many);
}

fn longest() {
    let readings = [1.0; 865];
    let mut symbols = [99i8; 865];
    for count in [864, 865] {
        let answer = front(FrontEnd::Gain(1.0), &readings[..count], &mut symbols);
        println!("gain 1, {count} readings\n{}", told(&answer));
    }
}

fn main() {
    let fifteen = [0.25, -0.25, 63.0, 63.25, 1000.0];
    run("case 15, gain 2: 0.25, -0.25, 63, 63.25, 1000", FrontEnd::Gain(2.0), &fifteen);
    halves();
    zeros();
    extremes();
    offset_and_threshold();
    bad_front_ends();
    bad_readings();
    bad_sizes();
    longest();
}
