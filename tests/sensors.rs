//! The proved sensor block, called from Rust, against the model written apart.
//! Without arguments: on the sheets that `sensors_main` has to print, and on
//! 100,000 random calls, bit for bit. With `speed`: both are timed, taking turns.

use motor_model::sensors::{answer, row, Answer, Row, Sensors};
use motor_model::story::Dice;
use std::hint::black_box;
use std::process::ExitCode;
use std::time::Instant;

extern "C" {
    // Of the library `sensors_c`, whose source says what the numbers are.
    fn sensors_combine(
        first: f32,
        second: f32,
        third: f32,
        limit: f32,
        marks: u32,
        options: u32,
        value: *mut f32,
        flags: *mut u32,
    ) -> u32;
}

/// What a call answers, and leaves in the places lent to it.
#[derive(Debug, PartialEq)]
struct Outcome {
    number: u32,
    value: u32,
    flags: u32,
}

/// What stands in the places before a call: no answer of the block.
const VALUE_BEFORE: f32 = -12_345_678.0;
const FLAGS_BEFORE: u32 = 0xA5A5_A5A5;

#[inline(never)]
fn proved(sensors: &Sensors, options: u32) -> Outcome {
    let [first, second, third] = sensors.readings;
    let marks = (0..3).map(|i| u32::from(sensors.marked[i]) << i).sum();
    let (mut value, mut flags) = (VALUE_BEFORE, FLAGS_BEFORE);
    let limit = sensors.limit;
    // SAFETY: the places are two variables of this function.
    let number =
        unsafe { sensors_combine(first, second, third, limit, marks, options, &mut value, &mut flags) };
    Outcome { number, value: value.to_bits(), flags }
}

/// The same of the model.
#[inline(never)]
fn expected(sensors: &Sensors, options: u32) -> Outcome {
    match answer(sensors, options) {
        Ok(Answer { value, flags }) => Outcome {
            number: 0,
            value: value.unwrap_or(VALUE_BEFORE).to_bits(),
            flags: (0..5).map(|k| u32::from(flags[k]) << k).sum::<u32>() + (u32::from(value.is_some()) << 5),
        },
        Err(number) => Outcome { number, value: VALUE_BEFORE.to_bits(), flags: 0 },
    }
}

fn compare(sensors: &Sensors, options: u32) -> Result<(), String> {
    let (found, expected) = (proved(sensors, options), expected(sensors, options));
    if found == expected {
        return Ok(());
    }
    Err(format!("{sensors:?}, options {options}: {found:x?}, not {expected:x?}"))
}

/// A special number of either sign, any bits, or one of some size.
fn reading(dice: &mut Dice) -> f32 {
    const SPECIAL: [f32; 12] = [
        0.0,
        1e-45,
        f32::MIN_POSITIVE,
        0.0078125,
        1.0,
        43.789787,
        131_072.0,
        999_999.94,
        1_000_000.0,
        1_000_000.06,
        f32::INFINITY,
        f32::NAN,
    ];
    let x = match dice.below(8) {
        0..=2 => dice.pick(&SPECIAL),
        3 => f32::from_bits(bits(dice)),
        4 => dice.below(5) as f32,
        _ => f32::from_bits(dice.within(107, 146) << 23 | bits(dice) >> 9),
    };
    if dice.percent(50) {
        x
    } else {
        -x
    }
}

fn bits(dice: &mut Dice) -> u32 {
    dice.within(0, u32::MAX)
}

/// Some steps up or down in the order of the bits.
fn near(dice: &mut Dice, x: f32) -> f32 {
    f32::from_bits(x.to_bits().wrapping_add(dice.within(0, 4)).wrapping_sub(2))
}

/// Readings of one size mostly, and a limit at or near one of their differences mostly.
fn sensors(dice: &mut Dice) -> Sensors {
    let base = reading(dice);
    let zeros = dice.below(16) == 0;
    let readings = [0; 3].map(|_| match dice.below(8) {
        _ if zeros => dice.pick(&[0.0, -0.0, 1.0]),
        0..=1 => reading(dice),
        2 => base,
        3..=4 => near(dice, base),
        _ => base + reading(dice) / (1 << dice.below(12)) as f32,
    });
    let difference = (dice.pick(&readings) - dice.pick(&readings)).abs();
    let limit = match dice.below(8) {
        0 => reading(dice),
        1 => reading(dice).abs(),
        2..=4 => difference,
        5..=6 => near(dice, difference),
        _ => difference / 2.0,
    };
    let marked = [0; 3].map(|_| dice.below(8) == 0);
    Sensors { readings, marked, limit }
}

/// Bits 0, 5, 6, 7 and 8.
const COUNTING_BITS: u32 = 0x1E1;

/// Random calls; how often each row of the table is met.
fn random_calls(calls: u32) -> Result<[u32; 7], String> {
    let mut dice = Dice::new(1, 0);
    let mut met = [0; 7];
    for _ in 0..calls {
        let sensors = sensors(&mut dice);
        met[row(&sensors) as usize] += 1;
        let options = bits(&mut dice);
        compare(&sensors, options)?;
        if proved(&sensors, options) != proved(&sensors, options & COUNTING_BITS) {
            return Err(format!("{sensors:?}: a bit counts that should not, options {options}"));
        }
    }
    Ok(met)
}

/// A line as `sensors_main` prints it, marked by the model.
fn marked_line(sensors: &Sensors, options: u32) -> String {
    let [a, b, c] = sensors.readings;
    let [x, y, z] = sensors.marked.map(u8::from);
    let limit = sensors.limit;
    let input = format!("readings {a} {b} {c}, limit {limit}, marks {x} {y} {z}, options {options}");
    match answer(sensors, options) {
        Ok(Answer { value, flags }) => {
            let value = value.map_or("none".to_string(), |v| format!("{v} ({:08x})", v.to_bits()));
            let flags: Vec<_> = flags.iter().map(|&f| if f { "1" } else { "0" }).collect();
            format!("{input}: value {value}, flags {}", flags.join(" "))
        }
        Err(number) => format!("{input}: refused by {number}"),
    }
}

/// The sensors and the option word that a printed line begins with.
fn read_line(line: &str) -> Option<(Sensors, u32)> {
    let (input, _) = line.split_once(": ")?;
    let fields: Vec<_> = input.split([' ', ',']).filter(|field| !field.is_empty()).collect();
    let ["readings", a, b, c, "limit", limit, "marks", x, y, z, "options", options] = fields[..] else {
        return None;
    };
    let number = |field: &str| field.parse::<f32>().ok();
    let readings = [number(a)?, number(b)?, number(c)?];
    let marked = [x, y, z].map(|mark| mark == "1");
    Some((Sensors { readings, marked, limit: number(limit)? }, options.parse().ok()?))
}

/// Each line that the program has to print is the model's, and so is what the library answers.
fn printed_lines(print: &str) -> Result<usize, String> {
    if print.is_empty() {
        return Err("sensors_main has nothing to print".to_string());
    }
    for line in print.lines() {
        let (sensors, options) = read_line(line).ok_or(format!("cannot be read: {line}"))?;
        let marked = marked_line(&sensors, options);
        if marked != line {
            return Err(format!("{line}\nis by the model\n{marked}"));
        }
        compare(&sensors, options)?;
    }
    Ok(print.lines().count())
}

fn test() -> Result<String, String> {
    const CALLS: u32 = 100_000;
    let print = std::fs::read_to_string("crates/sensors_main/stdout").map_err(|e| e.to_string())?;
    let lines = printed_lines(&print)?;
    let met = random_calls(CALLS)?;
    let rows = [Row::BothPass, Row::OneFails, Row::BothFail, Row::Two, Row::One, Row::None, Row::Refused];
    let met = rows.map(|r| (r, met[r as usize]));
    if let Some((row, times)) = met.iter().find(|(_, times)| *times < 1000) {
        return Err(format!("the random calls meet {row:?} {times} times only"));
    }
    Ok(format!("{lines} sheets, {CALLS} random calls {met:?}"))
}

/// Prints how long a call takes, the median over the rounds, with three trusted
/// readings whose differences mostly pass.
fn speed() {
    const ROUNDS: usize = 301;
    let mut dice = Dice::new(1, 0);
    let mut near = |n: u64| 60.0 + dice.below(n) as f32 / 64.0;
    let inputs: Vec<Sensors> = (0..4096)
        .map(|_| Sensors { readings: [near(64), near(64), near(80)], marked: [false; 3], limit: 1.0 })
        .collect();
    let runs: [(&str, fn(&Sensors, u32) -> Outcome); 2] = [("proved", proved), ("plain Rust", expected)];
    let mut times = [vec![], vec![]];
    for _ in 0..ROUNDS {
        for ((_, run), times) in runs.iter().zip(&mut times) {
            let start = Instant::now();
            for (k, input) in inputs.iter().enumerate() {
                black_box(run(black_box(input), (k as u32 & 1) << 5));
            }
            times.push(start.elapsed().as_secs_f64() / inputs.len() as f64);
        }
    }
    for ((name, _), times) in runs.iter().zip(&mut times) {
        times.sort_by(f64::total_cmp);
        println!("{name:10} {:6.1} ns a call", times[ROUNDS / 2] * 1e9);
    }
}

fn main() -> ExitCode {
    match std::env::args().nth(1).as_deref() {
        None => match test() {
            Ok(tested) => println!("ok: the sensor block, {tested}"),
            Err(fault) => {
                println!("the sensor block: {fault}");
                return ExitCode::from(1);
            }
        },
        Some("speed") => speed(),
        Some(_) => {
            eprintln!("usage: sensors [speed]");
            return ExitCode::from(2);
        }
    }
    ExitCode::SUCCESS
}
