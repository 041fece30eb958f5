//! The bench program: a whole file in, the whole print out.

use crate::book::Book;
use crate::record::{Record, SETTING_LIMITS};
use crate::rules::{scan_table, Trace};
use crate::totals::Totals;

/// What the program holds between two lines.
#[derive(Clone, Debug, Default)]
pub struct Bench {
    pub motors: Vec<Record>,
    pub words: Vec<u32>,
    /// Word and period of each accepted scan, for each motor.
    pub histories: Vec<Vec<(u32, u32)>>,
    pub scans: u32,
    /// The periods of all accepted scans added up.
    pub time: u64,
}

/// What an accepted line did.
#[derive(Debug)]
pub enum Done {
    Motor,
    Word,
    /// Print and what happened, a trace for each motor.
    Scan(String, Vec<Trace>),
}

/// The greatest file that is read.
pub const FILE_LIMIT: usize = 65_536;

/// A number (rule 7.3): digits alone, up to 4,294,967,295, and no 0 in front of
/// another digit.
pub fn number(field: &[u8]) -> Option<u32> {
    match field {
        [] => None,
        [b'0'] => Some(0),
        [b'0', ..] => None,
        digits if digits.len() > 10 || !digits.iter().all(u8::is_ascii_digit) => None,
        digits => {
            let value = digits.iter().fold(0u64, |value, digit| 10 * value + u64::from(digit - b'0'));
            u32::try_from(value).ok()
        }
    }
}

/// A field for the bits of OPS_1, OPS_2 or an input word (rule 7.4): a
/// number as everywhere, or `0x` in just this writing and after it one to eight
/// of the digits 0 to 9 and A to F, with zeros in front or not.
pub fn word(field: &[u8]) -> Option<u32> {
    let Some(digits) = field.strip_prefix(b"0x") else {
        return number(field);
    };
    if digits.is_empty() || digits.len() > 8 {
        return None;
    }
    digits.iter().try_fold(0, |value, digit| {
        let place = b"0123456789ABCDEF".iter().position(|known| known == digit)?;
        Some(16 * value + place as u32)
    })
}

/// A line that refusal 5 lets through.
enum Line {
    M([u32; 5]),
    I([u32; 2]),
    S([u32; 1]),
}

fn read_line(line: &[u8], ends_in_lf: bool) -> Option<Line> {
    if line.is_empty() || line.len() > 80 || !ends_in_lf {
        return None;
    }
    let fields: Vec<&[u8]> = line.split(|byte| *byte == b',').collect();
    Some(match fields[..] {
        [b"M", motor, ops_1, ops_2, wait, pulse] => {
            Line::M([number(motor)?, word(ops_1)?, word(ops_2)?, number(wait)?, number(pulse)?])
        }
        [b"I", motor, input] => Line::I([number(motor)?, word(input)?]),
        [b"S", period] => Line::S([number(period)?]),
        _ => return None,
    })
}

impl Bench {
    /// Takes one line, given without its LF. The error is the refusal.
    pub fn take(&mut self, line: &[u8], ends_in_lf: bool) -> Result<Done, u32> {
        match read_line(line, ends_in_lf).ok_or(5u32)? {
            Line::M([number, settings @ ..]) => self.add_motor(number, settings),
            Line::I([number, word]) => self.set_word(number, word),
            Line::S([period]) => self.scan(period),
        }
    }

    /// Takes one line as [`lines`] gives it.
    pub fn take_raw(&mut self, raw: &[u8]) -> Result<Done, u32> {
        match raw.strip_suffix(b"\n") {
            Some(line) => self.take(line, true),
            None => self.take(raw, false),
        }
    }

    /// Order 4, 8, 7, 9.
    fn add_motor(&mut self, number: u32, settings: [u32; 4]) -> Result<Done, u32> {
        if settings.iter().zip(SETTING_LIMITS).any(|(value, limit)| *value > limit) {
            return Err(4);
        }
        if self.scans > 0 {
            return Err(8);
        }
        if self.motors.len() == 32 {
            return Err(7);
        }
        if u64::from(number) != self.motors.len() as u64 + 1 {
            return Err(9);
        }
        let [ops_1, ops_2, wait, pulse] = settings;
        self.motors.push(Record::fresh(ops_1, ops_2, wait, pulse));
        self.words.push(0);
        self.histories.push(Vec::new());
        Ok(Done::Motor)
    }

    /// Order 10, 3.
    fn set_word(&mut self, number: u32, word: u32) -> Result<Done, u32> {
        let place = (number as usize).checked_sub(1).ok_or(10u32)?;
        let held = self.words.get_mut(place).ok_or(10u32)?;
        if word > 131_071 {
            return Err(3);
        }
        *held = word;
        Ok(Done::Word)
    }

    fn scan(&mut self, period: u32) -> Result<Done, u32> {
        let traces = scan_table(&mut self.motors, &self.words, period)?;
        self.scans += 1;
        self.time += u64::from(period);
        for (history, word) in self.histories.iter_mut().zip(&self.words) {
            history.push((*word, period));
        }
        let mut print = String::new();
        for (place, m) in self.motors.iter().enumerate() {
            print += &format!(
                "R,{},{},{},{},{},{},{},{}\n",
                self.scans,
                place + 1,
                m.mode,
                m.position,
                m.command,
                m.end,
                m.output,
                m.flags
            );
        }
        Ok(Done::Scan(print, traces))
    }

    /// The book of each motor, from its history.
    pub fn books(&self) -> Vec<Book> {
        self.motors.iter().zip(&self.histories).map(|(m, history)| Book::kept(m, history)).collect()
    }
}

/// The lines of a file, each with its LF; the last may lack it.
pub fn lines(file: &[u8]) -> impl Iterator<Item = &[u8]> {
    file.split_inclusive(|byte| *byte == b'\n')
}

/// Runs a file and tells the watcher of every line, with its LF if it has one: what
/// it did, or why it was refused (no bytes for a file that is too long). Hands back
/// the print and, if nothing was refused, the books that its totals come from.
pub fn run_watched(
    file: &[u8],
    mut watch: impl FnMut(&[u8], &Result<Done, u32>),
) -> (Vec<u8>, Option<Vec<Book>>) {
    if file.len() > FILE_LIMIT {
        watch(b"", &Err(1));
        return (b"E,0,1\n".to_vec(), None);
    }
    let mut bench = Bench::default();
    let mut print = Vec::new();
    for (index, raw) in lines(file).enumerate() {
        let count = index as u32 + 1;
        let result = bench.take_raw(raw);
        watch(raw, &result);
        match result {
            Ok(Done::Scan(lines, _)) => print.extend_from_slice(lines.as_bytes()),
            Ok(_) => {}
            Err(refusal) => {
                print.extend_from_slice(format!("E,{count},{refusal}\n").as_bytes());
                return (print, None);
            }
        }
    }
    let books = bench.books();
    for (place, book) in books.iter().enumerate() {
        print.extend_from_slice(Totals::of(book).line(place + 1).as_bytes());
    }
    (print, Some(books))
}

/// The exact print of the bench program for any bytes.
pub fn run(file: &[u8]) -> Vec<u8> {
    run_watched(file, |_, _| {}).0
}
