//! `sheets DIR PROGRAM [--wave WAVE]`: every NAME.txt of a folder through the
//! program and through the model, each compared with NAME.print beside it. The
//! model's dump, and that of the second program `WAVE`, is compared with NAME.vcd,
//! which is read back too.

use motor_model::dump;
use motor_model::file::run;
use motor_model::outside::{Outcome, Program};
use std::fs;
use std::path::{Path, PathBuf};
use std::process::ExitCode;

fn texts(folder: &Path) -> Result<Vec<PathBuf>, String> {
    let entries =
        fs::read_dir(folder).map_err(|e| format!("cannot read the folder {}: {e}", folder.display()))?;
    let mut list = Vec::new();
    for entry in entries {
        let path = entry.map_err(|e| format!("cannot read the folder {}: {e}", folder.display()))?.path();
        if path.extension().is_some_and(|extension| extension == "txt") {
            list.push(path);
        }
    }
    list.sort();
    Ok(list)
}

/// Where two prints part, in words.
fn parting(expected: &[u8], got: &[u8]) -> String {
    let mut one = expected.split_inclusive(|byte| *byte == b'\n');
    let mut other = got.split_inclusive(|byte| *byte == b'\n');
    let show =
        |line: Option<&[u8]>| line.map_or("nothing".to_string(), |line| line.escape_ascii().to_string());
    for count in 1.. {
        let (a, b) = (one.next(), other.next());
        if a != b {
            return format!("line {count} should be {} and is {}", show(a), show(b));
        }
        if a.is_none() {
            break;
        }
    }
    "no difference".to_string()
}

/// What a program and the model should make of the sheets.
struct Side<'a> {
    extension: &'static str,
    work: &'static str,
    model: fn(&[u8]) -> Vec<u8>,
    program: Option<&'a Program>,
}

impl Side<'_> {
    /// The work that stands beside the sheet, and what differs from it.
    fn judge(&self, path: &Path, file: &[u8], faults: &mut Vec<String>) -> Option<Vec<u8>> {
        let work = self.work;
        let expected = match fs::read(path.with_extension(self.extension)) {
            Ok(expected) => expected,
            Err(e) => {
                faults.push(format!("its {work} cannot be read: {e}"));
                return None;
            }
        };
        let model = (self.model)(file);
        if model != expected {
            faults.push(format!("the model's {work}: {}", parting(&expected, &model)));
        }
        match self.program.map(|program| program.run(file)) {
            Some(Outcome::Print(print)) if print != expected => {
                faults.push(format!("the program's {work}: {}", parting(&expected, &print)));
            }
            Some(Outcome::Broken(how, _)) => faults.push(format!("the program for the {work} {how}")),
            Some(Outcome::Print(_)) | None => {}
        }
        Some(expected)
    }
}

fn judge(path: &Path, program: &Program, wave: Option<&Program>) -> Result<(), String> {
    let file = fs::read(path).map_err(|e| format!("cannot be read: {e}"))?;
    let prints = Side { extension: "print", work: "print", model: run, program: Some(program) };
    let dumps = Side { extension: "vcd", work: "dump", model: dump::run, program: wave };
    let mut faults = Vec::new();
    prints.judge(path, &file, &mut faults);
    if let Some(expected) = dumps.judge(path, &file, &mut faults) {
        if let Err(fault) = dump::read_back(&file, &expected) {
            faults.push(format!("its dump read back: {fault}"));
        }
    }
    if faults.is_empty() {
        Ok(())
    } else {
        Err(faults.join("; "))
    }
}

const USAGE: &str = "usage: sheets DIR PROGRAM [--wave WAVE]";

type Wish = (PathBuf, Program, Option<Program>);

fn wish(args: &[String]) -> Result<Wish, String> {
    let args: Vec<&str> = args.iter().map(String::as_str).collect();
    let (folder, program, wave) = match args[..] {
        [folder, program] => (folder, program, None),
        [folder, program, "--wave", wave] => (folder, program, Some(wave)),
        _ => return Err(USAGE.to_string()),
    };
    Ok((PathBuf::from(folder), Program::find(program)?, wave.map(Program::find).transpose()?))
}

fn main() -> ExitCode {
    let args: Vec<String> = std::env::args().skip(1).collect();
    let found = wish(&args).and_then(|wish| texts(&wish.0).map(|list| (list, wish)));
    let (list, (folder, program, wave)) = match found {
        Ok(found) => found,
        Err(message) => {
            eprintln!("sheets: {message}");
            return ExitCode::from(2);
        }
    };
    if list.is_empty() {
        eprintln!("sheets: no .txt files in {}", folder.display());
        return ExitCode::from(2);
    }
    let mut wrong = 0;
    for path in &list {
        let name = path.file_stem().unwrap_or_default().to_string_lossy();
        match judge(path, &program, wave.as_ref()) {
            Ok(()) => println!("{name}: agrees"),
            Err(fault) => {
                wrong += 1;
                println!("{name}: DIFFERS, {fault}");
            }
        }
    }
    let dumps = if wave.is_some() { " with their dumps" } else { "" };
    println!("{} sheets{dumps}, {wrong} differ", list.len());
    ExitCode::from(u8::from(wrong > 0))
}
