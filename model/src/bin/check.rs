//! `check PROGRAM [--wave WAVE] [--files N] [--seed S]`: the program against the
//! model, on the sheets of the rule book and others, on files with line ends at each of the first
//! places, on files with each way of writing a word, and then on random files.
//! `WAVE` is the second program: its dumps of all these files are compared too, and
//! read back.

use motor_model::dump::{self, Outputs};
use motor_model::file::{run, run_watched};
use motor_model::outside::{legible, Outcome, Program, TOO_SLOW};
use motor_model::sheets::{dump_sheets, given_sheets, more_sheets};
use motor_model::shrink::shrink;
use motor_model::story;
use motor_model::tally::Tally;
use motor_model::{ends, words};
use std::process::ExitCode;
use std::sync::atomic::{AtomicU64, Ordering};
use std::sync::Mutex;
use std::thread;

const USAGE: &str = "usage: check PROGRAM [--wave WAVE] [--files N] [--seed S]";
/// Trials spent on making a file small.
const SHRINK_RUNS: u32 = 6_000;

struct Wish {
    program: String,
    wave: Option<String>,
    files: u64,
    seed: u64,
}

fn wish(args: impl Iterator<Item = String>) -> Result<Wish, String> {
    let mut args = args;
    let (mut program, mut wave, mut files, mut seed) = (None, None, 5_000, 1);
    while let Some(arg) = args.next() {
        let mut value = || -> Result<u64, String> {
            let text = args.next().ok_or(format!("{arg} needs a number\n{USAGE}"))?;
            text.parse().map_err(|_| format!("{arg} needs a number, not {text}\n{USAGE}"))
        };
        match arg.as_str() {
            "--files" => files = value()?,
            "--seed" => seed = value()?,
            "--wave" => wave = Some(args.next().ok_or(format!("--wave needs a program\n{USAGE}"))?),
            other if other.starts_with("--") => return Err(format!("unknown option {other}\n{USAGE}")),
            _ if program.is_none() => program = Some(arg),
            other => return Err(format!("one program only, not also {other}\n{USAGE}")),
        }
    }
    let program = program.ok_or(format!("no program given\n{USAGE}"))?;
    Ok(Wish { program, wave, files, seed })
}

/// A program under test and what it is held against.
struct Side {
    program: Program,
    /// What a run of it makes.
    work: &'static str,
    model: fn(&[u8]) -> Vec<u8>,
    /// Asks the work what it says of a file: how many answers were right, or which
    /// is wrong.
    read_back: fn(&[u8], &[u8]) -> Result<u64, String>,
}

impl Side {
    fn bench(program: Program) -> Side {
        Side { program, work: "print", model: run, read_back: |_, _| Ok(0) }
    }

    fn wave(program: Program) -> Side {
        Side { program, work: "dump", model: dump::run, read_back: dump::read_back }
    }

    /// What is wrong with a run, or the answers read back from it.
    fn fault_of(&self, file: &[u8], outcome: &Outcome) -> Result<u64, String> {
        let work = match outcome {
            Outcome::Print(work) => work,
            Outcome::Broken(how, _) => return Err(format!("the program {how}")),
        };
        let answers = (self.read_back)(file, work).map_err(|fault| format!("read back, {fault}"));
        let model = (self.model)(file);
        if *work != model {
            let same = work.iter().zip(&model).take_while(|(a, b)| a == b).count();
            let line = model[..same].iter().filter(|byte| **byte == b'\n').count() + 1;
            let more = answers.err().map_or(String::new(), |fault| format!("; {fault}"));
            return Err(format!("first difference in line {line} of the {}{more}", self.work));
        }
        answers
    }

    fn judge(&self, file: &[u8]) -> Result<u64, String> {
        self.fault_of(file, &self.program.run(file))
    }

    fn report(&self, title: &str, file: &[u8]) {
        let mut small = shrink(file, SHRINK_RUNS, &mut |trial| self.judge(trial).is_err());
        let mut outcome = self.program.run(&small);
        if self.fault_of(&small, &outcome).is_ok() {
            println!("(the difference does not show each time)");
            small = file.to_vec();
            outcome = self.program.run(&small);
        }
        println!("DIFFERENCE in the {} of {title}", self.work);
        println!("smallest file found, {} bytes:\n{}", small.len(), legible(&small));
        println!("the model prints:\n{}", legible(&(self.model)(&small)));
        println!("the program prints:\n{}", print_of(&outcome));
        if let Err(fault) = self.fault_of(&small, &outcome) {
            println!("{fault}");
        }
    }
}

fn print_of(outcome: &Outcome) -> String {
    match outcome {
        Outcome::Print(print) => legible(print),
        Outcome::Broken(how, print) => format!("  (the program {how})\n{}", legible(print)),
    }
}

/// What is said of a sheet, and whether all is well.
fn said(title: &str, file: &[u8], faults: &[String]) -> bool {
    if faults.is_empty() {
        println!("{title}: as worked out");
        return true;
    }
    println!("{title}: WRONG");
    faults.iter().for_each(|fault| println!("  {fault}"));
    print!("  file:\n{}", legible(file));
    false
}

/// The sheets, against both sides.
fn check_sheets(side: &Side) -> bool {
    let mut good = true;
    for sheet in given_sheets().into_iter().chain(more_sheets()) {
        let file = sheet.file.as_bytes();
        let mut faults = Vec::new();
        if let Err(fault) = sheet.judge(&run(file)) {
            faults.push(format!("the model: {fault}"));
        }
        match side.program.run(file) {
            Outcome::Print(print) => {
                if let Err(fault) = sheet.judge(&print) {
                    faults.push(format!("the program: {fault}"));
                } else if print != run(file) {
                    faults.push("the program prints otherwise than the model".to_string());
                }
            }
            Outcome::Broken(how, _) => faults.push(format!("the program {how}")),
        }
        good &= said(&format!("sheet {}", sheet.name), file, &faults);
        if faults.iter().any(|fault| fault.ends_with(TOO_SLOW)) {
            // The other sheets would take as long.
            break;
        }
    }
    good
}

/// The sheets with a dump, against both sides, and the dumps of the others.
fn check_dumps(side: &Side) -> bool {
    let mut good = true;
    for sheet in dump_sheets() {
        let file = sheet.file.as_bytes();
        let mut faults = Vec::new();
        if dump::run(file) != sheet.dump.as_bytes() {
            faults.push("the model's dump is another".to_string());
        }
        if let Err(fault) = side.judge(file) {
            faults.push(fault);
        }
        good &= said(&format!("dump {}", sheet.name), file, &faults);
        if faults.iter().any(|fault| fault.ends_with(TOO_SLOW)) {
            return false;
        }
    }
    let others: Vec<Vec<u8>> =
        given_sheets().into_iter().chain(more_sheets()).map(|sheet| sheet.file.into_bytes()).collect();
    good && check_dump_list(side, "sheets", &others)
}

/// Files made one by one, and whether all agree: tells how many there are and how
/// many of them have no refused line, or reports the first that differs.
fn check_list(side: &Side, title: &str, files: &[Vec<u8>]) -> bool {
    if let Some(file) = files.iter().find(|file| side.judge(file).is_err()) {
        side.report(&format!("a file of {title}"), file);
        return false;
    }
    let refused = |print: &[u8]| print.split(|byte| *byte == b'\n').any(|line| line.starts_with(b"E,"));
    let whole = files.iter().filter(|file| !refused(&run(file))).count();
    assert!(whole > 0, "every file of {title} is refused, so that none shows what was read");
    println!("{title}: {} files agree, {whole} of them without a refused line", files.len());
    true
}

/// The dumps of such files.
fn check_dump_list(side: &Side, title: &str, files: &[Vec<u8>]) -> bool {
    let mut values = 0;
    for file in files {
        match side.judge(file) {
            Ok(count) => values += count,
            Err(_) => {
                side.report(&format!("a file of {title}"), file);
                return false;
            }
        }
    }
    println!("{title}: {} dumps agree, {values} values read back from them", files.len());
    true
}

/// The random files, on all processors: tells how many values were read back, or
/// the first file that differs and on which side.
fn check_files(sides: &[Side], wish: &Wish, total: &mut Tally) -> Result<u64, (u64, usize)> {
    const NONE: (u64, usize) = (u64::MAX, 0);
    let next = AtomicU64::new(0);
    let values = AtomicU64::new(0);
    let found = Mutex::new(NONE);
    let sum = Mutex::new(Tally::default());
    let workers = thread::available_parallelism().map_or(2, |n| n.get());
    thread::scope(|scope| {
        for _ in 0..workers {
            scope.spawn(|| {
                let mut tally = Tally::default();
                loop {
                    let index = next.fetch_add(1, Ordering::Relaxed);
                    if index >= wish.files || index > found.lock().unwrap().0 {
                        break;
                    }
                    let file = story::file(wish.seed, index);
                    count(&mut tally, &file, story::is_long(index), sides.len() > 1);
                    for (place, side) in sides.iter().enumerate() {
                        match side.judge(&file) {
                            Ok(count) => drop(values.fetch_add(count, Ordering::Relaxed)),
                            Err(_) => {
                                let mut least = found.lock().unwrap();
                                *least = (*least).min((index, place));
                            }
                        }
                    }
                }
                sum.lock().unwrap().add(&tally);
            });
        }
    });
    total.add(&sum.into_inner().unwrap());
    match found.into_inner().unwrap() {
        NONE => Ok(values.into_inner()),
        first => Err(first),
    }
}

/// What happens in a file, and in its dump if that is compared.
fn count(tally: &mut Tally, file: &[u8], long: bool, dumped: bool) {
    let (print, books) = run_watched(file, |line, result| {
        if long {
            tally.refusal(result);
        } else {
            tally.line(line, result);
        }
    });
    tally.file(file.len(), &print, books.as_deref(), long);
    if let Some(outputs) = Outputs::of(file).filter(|_| dumped) {
        tally.dump(&outputs);
    }
}

fn sides(wish: &Wish) -> Result<Vec<Side>, String> {
    let mut sides = vec![Side::bench(Program::find(&wish.program)?)];
    if let Some(wave) = &wish.wave {
        sides.push(Side::wave(Program::find(wave)?));
    }
    Ok(sides)
}

/// Whether all sheets and lists agree.
fn check_known(sides: &[Side]) -> bool {
    let lists = [("line ends", ends::files(given_sheets()[0].file.as_bytes())), ("words", words::files())];
    let [bench, waves @ ..] = sides else { return true };
    if !check_sheets(bench) || !waves.iter().all(check_dumps) {
        println!("the sheets differ");
        return false;
    }
    lists.iter().all(|(title, files)| {
        check_list(bench, title, files) && waves.iter().all(|wave| check_dump_list(wave, title, files))
    })
}

fn main() -> ExitCode {
    let (wish, sides) = match wish(std::env::args().skip(1)).and_then(|w| sides(&w).map(|s| (w, s))) {
        Ok(pair) => pair,
        Err(message) => {
            eprintln!("check: {message}");
            return ExitCode::from(2);
        }
    };
    if !check_known(&sides) {
        return ExitCode::from(1);
    }
    let mut tally = Tally::default();
    match check_files(&sides, &wish, &mut tally) {
        Err((index, side)) => {
            let title = format!("file {index} of seed {}", wish.seed);
            sides[side].report(&title, &story::file(wish.seed, index));
            ExitCode::from(1)
        }
        Ok(values) => {
            print!("{tally}");
            println!("{} files agree", wish.files);
            if wish.wave.is_some() {
                println!("{} dumps agree, {values} values read back from them", wish.files);
            }
            ExitCode::SUCCESS
        }
    }
}
