//! From a case that fails to a smaller one that still fails.
use crate::cases::{Case, Question};
use crate::code::Code;
use crate::sheet::Sheet;

/// Takes the first simpler case that fails, and again from there, until none is left or patience ends.
pub fn shrunk(case: &Case, fails: &mut dyn FnMut(&Case) -> bool) -> Case {
    let mut smallest = case.clone();
    let mut patience = 20_000;
    loop {
        let found = simpler(&smallest).into_iter().filter(|other| *other != smallest).find(|other| {
            patience -= 1;
            patience > 0 && fails(other)
        });
        match found {
            Some(other) => smallest = other,
            None => return smallest,
        }
    }
}

/// Great steps before small ones.
fn simpler(case: &Case) -> Vec<Case> {
    match case {
        Case::Encode { code, message, out } => {
            let with = |message| Case::Encode { code: *code, message, out: *out };
            shorter(message, 1).into_iter().chain(zeroed(message)).map(with).collect()
        }
        Case::Decode { asked, message } => questions(asked)
            .into_iter()
            .map(|asked| (asked.length, asked))
            .map(|(length, asked)| Case::Decode { asked, message: (*message).min(length) })
            .collect(),
        Case::DecodeSheet { asked, message, sheet } => {
            let with = |asked| Case::DecodeSheet { asked, message: *message, sheet: *sheet };
            let buffers = [0, sheet / 2, sheet.saturating_sub(8), sheet.saturating_sub(1)];
            let smaller =
                buffers.map(|sheet| Case::DecodeSheet { asked: asked.clone(), message: *message, sheet });
            let plain = Case::Decode { asked: asked.clone(), message: *message };
            [plain].into_iter().chain(questions(asked).into_iter().map(with)).chain(smaller).collect()
        }
        Case::Check { code, length, symbols, sheet, message } => {
            let with_sheet = |sheet| Case::Check {
                code: *code,
                length: *length,
                symbols: symbols.clone(),
                sheet,
                message: *message,
            };
            let with_symbols = |symbols| Case::Check {
                code: *code,
                length: *length,
                symbols,
                sheet: sheet.clone(),
                message: *message,
            };
            sheets(code, *length, sheet)
                .into_iter()
                .map(with_sheet)
                .chain(zeroed(symbols).into_iter().map(with_symbols))
                .collect()
        }
        Case::Front { front_end, readings, symbols } => {
            let with = |readings| Case::Front { front_end: *front_end, readings, symbols: *symbols };
            let plain: Vec<Vec<u32>> = replaced(readings, &[0, 1f32.to_bits()]);
            shorter(readings, 1).into_iter().chain(plain).map(with).collect()
        }
    }
}

/// Without a half, a quarter and so on of its parts, from the end and from the start.
fn shorter<T: Clone>(items: &[T], part: usize) -> Vec<Vec<T>> {
    let mut all = Vec::new();
    let mut less = items.len() / part / 2;
    while less > 0 {
        all.push(items[..items.len() - less * part].to_vec());
        all.push(items[less * part..].to_vec());
        less /= 2;
    }
    if items.len() == part {
        all.push(Vec::new());
    }
    all
}

fn replaced<T: Clone + PartialEq>(items: &[T], by: &[T]) -> Vec<Vec<T>> {
    let mut all = Vec::new();
    for place in 0..items.len() {
        // What stands before in the list counts as simpler, so that there is an end.
        for value in by.iter().take_while(|&value| *value != items[place]) {
            let mut other = items.to_vec();
            other[place] = value.clone();
            all.push(other);
        }
    }
    all
}

fn zeroed<T: Clone + PartialEq + Default>(items: &[T]) -> Vec<Vec<T>> {
    replaced(items, &[T::default()])
}

fn questions(asked: &Question) -> Vec<Question> {
    let mut all = Vec::new();
    let outputs = asked.code.outputs as usize;
    let whole = asked.code.lawful()
        && asked.length <= 200
        && asked.symbols.len() == asked.code.block(asked.length as usize);
    if whole {
        for symbols in shorter(&asked.symbols, outputs) {
            let levels = (symbols.len() / outputs) as u32;
            if levels > asked.code.memory {
                all.push(Question { length: levels - asked.code.memory, symbols, ..asked.clone() });
            }
        }
        if asked.code.memory > 1 {
            let memory = asked.code.memory - 1;
            let generators = asked.code.generators.map(|generator| (generator & ((2 << memory) - 1)).max(1));
            let code = Code { memory, generators, ..asked.code };
            for symbols in [&asked.symbols[outputs..], &asked.symbols[..asked.symbols.len() - outputs]] {
                all.push(Question { code, symbols: symbols.to_vec(), ..asked.clone() });
            }
        }
    }
    for room in [asked.room / 2, asked.room.saturating_sub(1)] {
        all.push(Question { room, words: asked.words.min(3 * room.min(4096)), ..asked.clone() });
    }
    for allowance in [asked.allowance / 2, asked.allowance.saturating_sub(1)] {
        all.push(Question { allowance, ..asked.clone() });
    }
    all.extend(zeroed(&asked.symbols).into_iter().map(|symbols| Question { symbols, ..asked.clone() }));
    for place in 0..asked.symbols.len() {
        let mut symbols = asked.symbols.clone();
        symbols[place] /= 2;
        all.push(Question { symbols, ..asked.clone() });
    }
    all
}

/// Where the form is good, entry by entry; otherwise byte by byte.
fn sheets(code: &Code, length: u32, sheet: &[u8]) -> Vec<Vec<u8>> {
    if !code.lawful() || length > 200 {
        return shorter(sheet, 1);
    }
    let Some(parts) = Sheet::read(code, length as usize, sheet) else {
        return shorter(sheet, 1).into_iter().chain(zeroed(sheet)).collect();
    };
    let mut all: Vec<Sheet> = Vec::new();
    for place in 0..parts.entries.len() {
        let mut fewer = parts.clone();
        fewer.entries.remove(place);
        all.push(fewer);
        let mut cheaper = parts.clone();
        cheaper.entries[place].cost /= 2;
        all.push(cheaper);
    }
    all.iter().map(Sheet::bytes).collect()
}

#[cfg(test)]
mod tests {
    use super::*;
    use crate::code::house;
    use crate::random::Random;
    use crate::{draw, stored};

    #[test]
    fn a_case_shrinks_to_what_makes_it_fail() {
        let question = Question {
            code: house(1),
            length: 60,
            symbols: (0..132).map(|place| place as i8).collect(),
            room: 900,
            allowance: 70,
            words: 2700,
        };
        let case = Case::Decode { asked: question, message: 60 };
        let heavy =
            |case: &Case| matches!(case, Case::Decode { asked, .. } if asked.symbols.iter().any(|&s| s > 40));
        let Case::Decode { asked, .. } = shrunk(&case, &mut |case| heavy(case)) else {
            panic!("another operation")
        };
        assert_eq!((asked.code.memory, asked.length, asked.room, asked.allowance), (1, 1, 0, 0));
        assert_eq!(asked.symbols.iter().filter(|&&symbol| symbol != 0).count(), 1);
    }

    #[test]
    fn it_ends_for_every_operation() {
        let mut random = Random::new(5);
        for _ in 0..20 {
            let random = &mut random;
            let limits = &stored::LIMITS;
            let cases = [
                draw::encoding(random),
                draw::decoding(random, limits, true),
                draw::checking(random, limits),
                draw::fronting(random, limits),
            ];
            for case in cases {
                shrunk(&case, &mut |_| true);
            }
        }
    }
}
