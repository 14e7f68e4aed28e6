//! The proved decode, sheet writing and check against an ordinary linear scan, and against libosmocore's Viterbi where the
//! machine has it and the code's memory is at most 8. Same blocks for all, working memory cleared before each, clearing not timed.
//!
//! `bench [PICTURE [BLOCKS]]`: a table of ratios in Markdown; the picture is an SVG file, `speed.svg` unless named.
use second::blocks::{disturbed, random_message};
use second::brute;
use second::cases::Question;
use second::code::{codeword, house, Answer, Code};
use second::face;
use second::linear::{linear, Record};
use second::osmocom::{Library, Viterbi};
use second::random::Random;
use second::trellis::Block;
use std::fmt::Write;
use std::hint::black_box;
use std::time::{Duration, Instant};

const STRENGTH: u64 = 40;
/// Standard deviations, against symbols of strength 40.
const NOISES: [(&str, u64); 3] = [("light", 16), ("middle", 24), ("heavy", 30)];
const SWEEP: [u64; 7] = [12, 16, 20, 24, 28, 32, 36];
const LENGTHS: [usize; 2] = [40, 200];
const ROOM: u32 = 4096;
const LARGEST_SHEET: usize = 14 + 25 + 8 * ROOM as usize;

fn name(code: &Code) -> String {
    format!("{}, {}", code.generators[0], code.generators[1])
}

/// The signal per message bit over the noise, in decibels, as source 001 counts it.
fn decibels(code: &Code, length: usize, deviation: u64) -> f64 {
    let symbol = (STRENGTH * STRENGTH) as f64 / (2 * deviation * deviation) as f64;
    10.0 * (symbol * code.block(length) as f64 / length as f64).log10()
}

fn questions(code: Code, length: usize, deviation: u64, blocks: u64) -> Vec<Question> {
    let one = |index: u64| {
        let mut random = Random::new(deviation << 32 | index);
        let message = random_message(&mut random, length);
        // The draw's deviation is about its spread plus one.
        let symbols = disturbed(&mut random, &codeword(&code, &message), STRENGTH as i64, deviation - 1);
        Question { code, length: length as u32, symbols, room: ROOM, allowance: u32::MAX, words: 3 * ROOM }
    };
    (0..blocks).map(one).collect()
}

fn block(question: &Question) -> Block<'_> {
    Block { code: question.code, length: question.length as usize, symbols: &question.symbols }
}

/// All that the runs lend and fill.
struct Memory {
    work: Vec<u64>,
    records: Vec<Record>,
    message: Vec<u8>,
    sheet: Vec<u8>,
}

impl Memory {
    fn new() -> Memory {
        Memory {
            work: vec![0; 3 * ROOM as usize],
            records: vec![Record::default(); ROOM as usize],
            message: vec![0; 200],
            sheet: vec![0; LARGEST_SHEET],
        }
    }

    fn clear(&mut self) {
        self.work.fill(0);
        self.records.fill(Record::default());
        self.message.fill(0);
        self.sheet.fill(0);
    }

    fn linear(&mut self, question: &Question) -> Answer {
        linear(&block(question), question.allowance, &mut self.records, &mut self.message)
    }

    fn proved(&mut self, question: &Question) -> Answer {
        face::decode(question, &mut self.work, &mut self.message, None)
    }

    fn proved_sheet(&mut self, question: &Question) -> Answer {
        face::decode(question, &mut self.work, &mut self.message, Some(&mut self.sheet))
    }
}

/// The least time of each item over several rounds, added up: what else the machine does can only add to it.
fn timed<T, U>(memory: &mut Memory, items: &[T], mut run: impl FnMut(&mut Memory, &T) -> U) -> f64 {
    let mut least = vec![Duration::MAX; items.len()];
    let begin = Instant::now();
    let mut rounds = 0;
    while rounds < 5 || begin.elapsed() < Duration::from_millis(500) {
        for (item, least) in items.iter().zip(&mut least) {
            memory.clear();
            let start = Instant::now();
            black_box(run(memory, item));
            *least = start.elapsed().min(*least);
        }
        rounds += 1;
    }
    least.iter().sum::<Duration>().as_secs_f64()
}

/// Nothing is timed before all agree. Hands back the answers and, for the answered ones, their sheets.
fn agreed(memory: &mut Memory, questions: &[Question]) -> (Vec<Answer>, Vec<(Question, Vec<u8>)>) {
    let mut answers = Vec::new();
    let mut sheets = Vec::new();
    for question in questions {
        memory.clear();
        let expected = memory.linear(question);
        let message = memory.message.clone();
        memory.clear();
        assert_eq!((memory.proved(question), &memory.message), (expected, &message), "the searches differ");
        memory.clear();
        let with_sheet = memory.proved_sheet(question);
        assert_eq!(Answer { length: 0, ..with_sheet }, expected, "the decoder that writes a sheet differs");
        if expected.number == 0 {
            let sheet = memory.sheet[..with_sheet.length as usize].to_vec();
            let Question { code, length, symbols, .. } = question;
            memory.clear();
            let checked = face::check(code, *length as usize, symbols, &sheet, &mut memory.message);
            assert_eq!((checked.metric, &memory.message), (expected.metric, &message), "the check differs");
            sheets.push((question.clone(), sheet));
        }
        answers.push(expected);
    }
    (answers, sheets)
}

/// The library finds a message of least metric, or it is not asked for its time.
fn library_is_right(viterbi: &Viterbi, questions: &[(Question, Vec<u8>)], memory: &mut Memory) -> bool {
    questions.iter().all(|(question, _)| {
        memory.clear();
        let least = memory.linear(question).metric;
        viterbi.decode(&question.symbols, &mut memory.message);
        brute::metric(&block(question), &memory.message[..question.length as usize]) == u64::from(least)
    })
}

/// Two digits that tell something.
fn share(ratio: f64) -> String {
    let zeros = (-ratio.log10()).floor().max(0.0) as usize;
    format!("{ratio:.*}", zeros + 2)
}

fn mean_steps(answers: &[Answer]) -> f64 {
    answers.iter().map(|answer| f64::from(answer.steps)).sum::<f64>() / answers.len() as f64
}

fn row(
    memory: &mut Memory,
    library: Option<Library>,
    code: Code,
    length: usize,
    noise: (&str, u64),
    blocks: u64,
) {
    let questions = questions(code, length, noise.1, blocks);
    let (answers, sheets) = agreed(memory, &questions);
    let answered: Vec<Question> = sheets.iter().map(|(question, _)| question.clone()).collect();
    let base = timed(memory, &questions, |memory, question| memory.linear(question));
    let decode = timed(memory, &questions, |memory, question| memory.proved(question));
    let mut shares = vec![format!("{:.0}", decode * 1e6 / questions.len() as f64), share(decode / base)];
    if answered.is_empty() {
        shares.extend(["–".to_string(), "–".to_string(), "–".to_string()]);
    } else {
        let base = timed(memory, &answered, |memory, question| memory.linear(question));
        let sheet = timed(memory, &answered, |memory, question| memory.proved_sheet(question)) / base;
        let check = timed(memory, &sheets, |memory, (question, sheet)| {
            let Question { code, length, symbols, .. } = question;
            face::check(code, *length as usize, symbols, sheet, &mut memory.message)
        });
        shares.extend([share(sheet), share(check / base)]);
        let viterbi = library.and_then(|library| Viterbi::new(library, code, length));
        shares.push(match viterbi.filter(|viterbi| library_is_right(viterbi, &sheets, memory)) {
            None => "–".to_string(),
            Some(viterbi) => {
                let time = timed(memory, &answered, |memory, question| {
                    viterbi.decode(&question.symbols, &mut memory.message);
                });
                share(time / base)
            }
        });
    }
    println!(
        "| {} | {length} | {} ({:.1} dB) | {} of {} | {:.0} | {} |",
        name(&code),
        noise.0,
        decibels(&code, length, noise.1),
        answered.len(),
        questions.len(),
        mean_steps(&answers),
        shares.join(" | ")
    );
}

/// Time and nodes of one code at one noise.
struct Point {
    linear: f64,
    proved: f64,
    nodes: f64,
}

fn sweep(memory: &mut Memory, code: Code, blocks: u64) -> Vec<Point> {
    let point = |&deviation: &u64| {
        let questions = questions(code, 40, deviation, blocks);
        let (answers, _) = agreed(memory, &questions);
        Point {
            linear: timed(memory, &questions, |memory, question| memory.linear(question)),
            proved: timed(memory, &questions, |memory, question| memory.proved(question)),
            nodes: mean_steps(&answers),
        }
    };
    SWEEP.iter().map(point).collect()
}

const COLOURS: [&str; 4] = ["#1b6ca8", "#c1440e", "#3a7d44", "#7b2d8b"];

/// One panel: lines over the noise, powers of ten upwards.
fn panel(svg: &mut String, left: f64, title: &str, lines: &[(usize, bool, Vec<f64>)]) -> std::fmt::Result {
    let (top, width, height) = (50.0, 360.0, 300.0);
    let values = lines.iter().flat_map(|(_, _, line)| line.iter().map(|value| value.log10()));
    let lowest = values.clone().fold(f64::MAX, f64::min).floor();
    let highest = values.fold(f64::MIN, f64::max).ceil().max(lowest + 1.0);
    let x = |index: usize| left + width * index as f64 / (SWEEP.len() - 1) as f64;
    let y = |value: f64| top + height * (highest - value.log10()) / (highest - lowest);
    writeln!(svg, "<text x='{left}' y='30' font-size='15'>{title}</text>")?;
    for power in lowest as i32..=highest as i32 {
        let (at, end) = (y(10f64.powi(power)), left + width);
        writeln!(svg, "<line x1='{left}' x2='{end}' y1='{at:.1}' y2='{at:.1}' stroke='#ddd'/>")?;
        let label = if power < 0 {
            format!("1/{}", 10i64.pow(-power as u32))
        } else {
            10i64.pow(power as u32).to_string()
        };
        writeln!(svg, "<text x='{}' y='{:.1}' text-anchor='end'>{label}</text>", left - 6.0, at + 4.0)?;
    }
    for (index, deviation) in SWEEP.iter().enumerate() {
        writeln!(
            svg,
            "<text x='{:.1}' y='{}' text-anchor='middle'>{deviation}</text>",
            x(index),
            top + height + 18.0
        )?;
    }
    for (colour, dashed, line) in lines {
        let points: Vec<String> = line
            .iter()
            .enumerate()
            .map(|(index, &value)| format!("{:.1},{:.1}", x(index), y(value)))
            .collect();
        let dash = if *dashed { " stroke-dasharray='5 4'" } else { "" };
        let (stroke, points) = (COLOURS[*colour], points.join(" "));
        writeln!(svg, "<polyline fill='none' stroke='{stroke}' stroke-width='2'{dash} points='{points}'/>")?;
    }
    Ok(())
}

/// Times are shares of the linear scan's own time at the lowest noise, code by code: no clock of one machine is in the picture.
fn picture(sweeps: &[(Code, Vec<Point>)]) -> Result<String, std::fmt::Error> {
    let mut times = Vec::new();
    let mut nodes = Vec::new();
    for (colour, (_, points)) in sweeps.iter().enumerate() {
        let unit = points[0].linear;
        times.push((colour, false, points.iter().map(|point| point.proved / unit).collect()));
        times.push((colour, true, points.iter().map(|point| point.linear / unit).collect()));
        nodes.push((colour, false, points.iter().map(|point| point.nodes.max(1.0)).collect()));
    }
    let mut svg = String::new();
    writeln!(svg, "<svg xmlns='http://www.w3.org/2000/svg' width='900' height='450' font-family='sans-serif' font-size='12'>")?;
    writeln!(svg, "<rect width='900' height='450' fill='white'/>")?;
    panel(&mut svg, 70.0, "Time, the linear scan's at the lowest noise = 1", &times)?;
    panel(&mut svg, 510.0, "Nodes expanded, mean", &nodes)?;
    let below = "noise: standard deviation against symbols of strength 40; L = 40. Solid: proved; dashed: linear scan.";
    writeln!(svg, "<text x='70' y='400'>{below}</text>")?;
    for (colour, (code, _)) in sweeps.iter().enumerate() {
        let x = 70 + 150 * colour;
        writeln!(svg, "<text x='{x}' y='425' fill='{}'>{}</text>", COLOURS[colour], name(code))?;
    }
    writeln!(svg, "</svg>")?;
    Ok(svg)
}

fn main() -> Result<(), Box<dyn std::error::Error>> {
    let arguments: Vec<String> = std::env::args().skip(1).collect();
    let file = arguments.first().map_or("speed.svg", String::as_str);
    let blocks = arguments.get(1).map_or(Ok(30), |word| word.parse())?;
    let library = Library::found();
    if library.is_none() {
        println!("libosmocore is not on this machine: its column stays empty.\n");
    }
    println!("Times as shares of the linear scan's on the same blocks; R = {ROOM}, B the largest.");
    println!("Sheet, check and libosmocore over the answered blocks alone. Symbols of strength {STRENGTH}, noise nearly");
    println!("normal of standard deviation 16 (light), 24 (middle), 30 (heavy).\n");
    println!("| Code | L | Noise | Answered | Nodes expanded, mean | Decode, µs | Decode | Decode with sheet | Check | libosmocore |");
    println!("|---|---|---|---|---|---|---|---|---|---|");
    let memory = &mut Memory::new();
    for code in (0..4).map(house) {
        for length in LENGTHS {
            for noise in NOISES {
                row(memory, library, code, length, noise, blocks);
            }
        }
    }
    let sweeps: Vec<(Code, Vec<Point>)> =
        (0..4).map(house).map(|code| (code, sweep(memory, code, blocks))).collect();
    std::fs::write(file, picture(&sweeps)?)?;
    println!("\npicture: {file}");
    Ok(())
}
