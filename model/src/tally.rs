//! Counts of what happened in the files.

use crate::book::{Book, Entry};
use crate::dump::Outputs;
use crate::file::{word, Bench, Done, FILE_LIMIT};
use crate::record::SETTING_LIMITS;
use crate::rules::{Cause, Command, End, Mode, Reading, Sum, Trace, Way};
use crate::totals::Totals;
use std::fmt;

#[derive(Clone, Debug, Default)]
pub struct Tally {
    pub files: u64,
    /// Without refusal.
    pub whole: u64,
    /// Refused after the scan of a motor, which has its totals by then.
    pub cut_short: u64,
    /// Near the greatest length; of their lines only refusals are counted.
    pub long: u64,
    /// One byte below the greatest length, of just that, and one above: all of them,
    /// those without refusal, and of these the ones with commands.
    pub lengths: [[u64; 3]; 3],
    pub bytes: u64,
    pub scans: u64,
    pub motor_scans: u64,
    pub issued: [u64; 7],
    pub confirmed: [u64; 7],
    pub displaced: [u64; 7],
    pub overdue: [u64; 7],
    /// In files without refusal, by the number of commands: those whose last command
    /// was confirmed, and overdue.
    pub chains: [[u64; 7]; 2],
    /// Of commands under way, and of running pulses.
    pub sums: [AtLimit; 2],
    pub modes: [u64; 3],
    pub work_by_command: u64,
    pub acknowledged: [u64; 2],
    pub both_open: Unsure,
    pub both_closed: Unsure,
    /// Of motors whose switches are both read, by OPS_2 and in the order of [`READINGS`].
    pub readings: [[u64; READINGS.len()]; 32],
    pub pretended: u64,
    pub unsanctioned: u64,
    pub pulses: u64,
    pub held: u64,
    pub dropped: [u64; 3],
    pub barred: u64,
    pub lost: u64,
    pub idle_choice: u64,
    pub end_and_issue: u64,
    pub local: u64,
    pub reset: u64,
    pub no_supply: u64,
    pub refused: [u64; 11],
    pub hexadecimal: Hexadecimal,
    /// T lines by what they have to tell, in the order of [`KINDS`].
    pub told: [u64; KINDS.len()],
    /// Dumps by what they have to tell, in the order of [`DUMPS`].
    pub dumps: [u64; DUMPS.len()],
}

/// A T line with what it comes from.
pub struct Told<'a> {
    book: &'a Book,
    totals: Totals,
    /// Motors in the file.
    motors: usize,
}

impl Told<'_> {
    fn scanned(&self) -> bool {
        !self.book.history.is_empty()
    }

    /// A position On that no sure reading stands for.
    fn pretended_on(&self) -> bool {
        let pretends = |s: &Entry| s.reading.sure().is_none() && s.position == Some(Way::On);
        self.book.history.iter().any(pretends)
    }

    fn end_and_issue(&self, end: End) -> bool {
        self.book.history.iter().any(|s| s.end == Some(end) && s.issued.is_some())
    }
}

type Kind = (&'static str, fn(&Told) -> bool);

pub const KINDS: [Kind; 19] = [
    ("all", |_| true),
    ("of several motors", |t| t.motors > 1),
    ("of more than nine", |t| t.motors > 9),
    ("never scanned", |t| !t.scanned()),
    ("no command", |t| t.scanned() && t.totals.issued == 0),
    ("confirmed", |t| t.totals.confirmed > 0),
    ("displaced", |t| t.totals.displaced > 0),
    ("overdue", |t| t.totals.overdue > 0),
    ("under way", |t| t.totals.under_way > 0),
    ("all four", |Told { totals: t, .. }| {
        [t.confirmed, t.displaced, t.overdue, t.under_way].iter().all(|count| *count > 0)
    }),
    ("commands, none confirmed", |t| t.totals.issued > 0 && t.totals.confirmed == 0),
    ("confirmed as another is issued", |t| t.end_and_issue(End::Confirmed)),
    ("overdue as another is issued", |t| t.end_and_issue(End::Overdue)),
    ("one time to confirmation", |t| t.totals.best == t.totals.worst && t.totals.confirmed > 0),
    ("best below worst", |t| t.totals.best < t.totals.worst),
    ("no On reading", |t| t.scanned() && t.totals.on == 0),
    ("sure On", |t| t.totals.on > 0),
    ("pretended On", |t| t.pretended_on()),
    ("sure and pretended On", |t| t.totals.on > 0 && t.pretended_on()),
];

type DumpKind = (&'static str, fn(&Outputs) -> bool);

/// How many motors change their output in each scan, with its time.
fn changes(outputs: &Outputs) -> impl Iterator<Item = (u64, usize)> + '_ {
    outputs.steps().map(|(time, before, after)| {
        let changed = before.iter().zip(after).filter(|(before, after)| before != after);
        (time, changed.count())
    })
}

fn later_time(outputs: &Outputs) -> bool {
    changes(outputs).any(|(_, count)| count > 0)
}

/// An output that turns into this one from the opposite, so that both signals change.
fn turns(outputs: &Outputs, to: u32) -> bool {
    let turn = |(before, after): (&u32, &u32)| *before == 3 - to && *after == to;
    outputs.steps().any(|(_, before, after)| before.iter().zip(after).any(turn))
}

pub const DUMPS: [DumpKind; 15] = [
    ("all", |_| true),
    ("no motor", |o| o.fresh.is_empty()),
    ("no scan", |o| o.scans.is_empty()),
    ("refused before a scan", |o| o.refused && o.scans.is_empty()),
    ("scans, no later time", |o| !o.scans.is_empty() && !later_time(o)),
    ("later time", later_time),
    ("changes above 65,535 ms", |o| changes(o).any(|(time, count)| time > 65_535 && count > 0)),
    ("changes and scans without", |o| later_time(o) && changes(o).any(|(_, count)| count == 0)),
    ("On falls, Off rises", |o| turns(o, 2)),
    ("Off falls, On rises", |o| turns(o, 1)),
    ("several motors at one time", |o| changes(o).any(|(_, count)| count > 1)),
    ("refused after a change", |o| o.refused && later_time(o)),
    ("32 motors", |o| o.fresh.len() == 32),
    ("32 motors, later time", |o| o.fresh.len() == 32 && later_time(o)),
    ("change of motor 32", |o| o.steps().any(|(_, before, after)| before.get(31) != after.get(31))),
];

type ReadingKind = (&'static str, fn(Reading, Option<Way>) -> bool);

/// Readings with the last sure position before them.
pub const READINGS: [ReadingKind; 7] = [
    ("both open at first", |r, last| r == Reading::BothOpen && last.is_none()),
    ("both open after Off", |r, last| r == Reading::BothOpen && last == Some(Way::Off)),
    ("both open after On", |r, last| r == Reading::BothOpen && last == Some(Way::On)),
    ("both closed at first", |r, last| r == Reading::BothClosed && last.is_none()),
    ("both closed after Off", |r, last| r == Reading::BothClosed && last == Some(Way::Off)),
    ("both closed after On", |r, last| r == Reading::BothClosed && last == Some(Way::On)),
    ("sure", |r, _| r.sure().is_some()),
];

/// The place of a number in a list for one below its limit, the limit and one above.
fn beside<T>(list: &mut [T; 3], number: usize, limit: usize) -> Option<&mut T> {
    list.get_mut((number + 1).checked_sub(limit)?)
}

/// Sums that came to their limit or to one beside it.
#[derive(Clone, Copy, Debug, Default)]
pub struct AtLimit {
    /// In one scan, by its period alone.
    pub at_once: [u64; 3],
    /// In several scans.
    pub later: [u64; 3],
}

impl AtLimit {
    fn count(&mut self, sum: &Sum) {
        let list = if sum.before == 0 { &mut self.at_once } else { &mut self.later };
        beside(list, sum.after as usize, sum.limit as usize).into_iter().for_each(|count| *count += 1);
    }

    fn add(&mut self, other: &AtLimit) {
        each(&mut self.at_once, &other.at_once);
        each(&mut self.later, &other.later);
    }
}

/// Hexadecimal fields, and those that look like some.
#[derive(Clone, Copy, Debug, Default)]
pub struct Hexadecimal {
    /// Read in an accepted line, by field and number of digits.
    pub read: [[u64; 8]; WORDS.len()],
    /// Above the limit in a line refused for that.
    pub above: [u64; WORDS.len()],
    /// No word, and nothing else wrong with the text of the line, by field and in
    /// the order of [`WAYS`].
    pub wrong: [[u64; WAYS.len()]; WORDS.len()],
    /// Where only a number may stand, and nothing else wrong with the text.
    pub elsewhere: [u64; NUMBERS.len()],
}

/// A field by its name, first field of the line and place in it.
type Field = (&'static str, &'static [u8], usize);

pub const WORDS: [Field; 3] = [("OPS_1", b"M", 2), ("OPS_2", b"M", 3), ("word", b"I", 2)];
const WORD_LIMITS: [u32; WORDS.len()] = [SETTING_LIMITS[0], SETTING_LIMITS[1], 131_071];
pub const NUMBERS: [Field; 5] =
    [("number of M", b"M", 1), ("W", b"M", 4), ("U", b"M", 5), ("number of I", b"I", 1), ("period", b"S", 1)];

/// What stands after `0x`.
fn tail(field: &[u8]) -> &[u8] {
    field.strip_prefix(b"0x").unwrap_or_default()
}

fn has(field: &[u8], bytes: &[u8]) -> bool {
    field.iter().any(|byte| bytes.contains(byte))
}

/// Whether so many digits stand after `0x`, small ones or not, and nothing else.
fn digits(field: &[u8], count: std::ops::RangeInclusive<usize>) -> bool {
    count.contains(&tail(field).len()) && tail(field).iter().all(u8::is_ascii_hexdigit)
}

type WrongWay = (&'static str, fn(&[u8]) -> bool);

/// How a field with an x is no word.
pub const WAYS: [WrongWay; 12] = [
    ("all", |_| true),
    ("small letters", |f| digits(f, 1..=8) && !has(f, b"ABCDEF")),
    ("small and capital", |f| digits(f, 1..=8) && has(f, b"ABCDEF")),
    ("0X", |f| f.starts_with(b"0X")),
    ("no digit", |f| f == b"0x"),
    ("over eight digits", |f| digits(f, 9..=80) && !tail(f).starts_with(b"0")),
    ("over eight after a zero", |f| digits(f, 9..=80) && tail(f).starts_with(b"0")),
    ("sign", |f| has(f, b"+-")),
    ("blank", |f| has(f, b" ")),
    ("byte beside the digits", |f| has(tail(f), b"/:@G`g")),
    ("x at another place", |f| f.iter().position(|byte| b"xX".contains(byte)) != Some(1)),
    ("x twice", |f| f.iter().filter(|byte| b"xX".contains(byte)).count() > 1),
];

impl Hexadecimal {
    /// A line that was accepted or refused. One without LF is refused for that.
    fn count(&mut self, raw: &[u8], result: &Result<Done, u32>) {
        let Some(line) = raw.strip_suffix(b"\n") else { return };
        let fields: Vec<&[u8]> = line.split(|byte| *byte == b',').collect();
        let field = |(_, first, place): &Field| fields.get(*place).filter(|_| fields[0] == *first);
        // Whether the text of the line is good with another field there.
        let alone = |(_, _, place): &Field| {
            let mut mended = fields.clone();
            mended[*place] = b"0";
            !matches!(Bench::default().take(&mended.join(&b','), true), Err(5))
        };
        for (kind, place) in WORDS.iter().enumerate() {
            let Some(field) = field(place) else { continue };
            let value = word(field);
            match result {
                Ok(_) if field.starts_with(b"0x") => self.read[kind][tail(field).len() - 1] += 1,
                Err(3 | 4) if field.starts_with(b"0x") && value > Some(WORD_LIMITS[kind]) => {
                    self.above[kind] += 1;
                }
                Err(5) if has(field, b"xX") && value.is_none() && alone(place) => {
                    for (count, (_, shows)) in self.wrong[kind].iter_mut().zip(WAYS) {
                        *count += u64::from(shows(field));
                    }
                }
                _ => {}
            }
        }
        for (count, place) in self.elsewhere.iter_mut().zip(NUMBERS) {
            let wrong = |field: &&[u8]| field.starts_with(b"0x") && word(field).is_some() && alone(&place);
            *count += u64::from(field(&place).is_some_and(wrong));
        }
    }

    fn add(&mut self, other: &Hexadecimal) {
        each(self.read.as_flattened_mut(), other.read.as_flattened());
        each(&mut self.above, &other.above);
        each(self.wrong.as_flattened_mut(), other.wrong.as_flattened());
        each(&mut self.elsewhere, &other.elsewhere);
    }
}

/// Adds list to list.
fn each(sum: &mut [u64], more: &[u64]) {
    sum.iter_mut().zip(more).for_each(|(a, b)| *a += b);
}

/// Readings unsure in one way, by what step 5 meets.
#[derive(Clone, Copy, Debug, Default)]
pub struct Unsure {
    /// No command under way, outside local mode.
    pub idle: u64,
    /// The same in local mode, with flags formed and without.
    pub idle_local: [u64; 2],
    /// A command under way, outside local mode and in it.
    pub under_way: [u64; 2],
}

impl Unsure {
    fn count(&mut self, trace: &Trace) {
        match (trace.under_way, trace.local) {
            (false, false) => self.idle += 1,
            (false, true) => self.idle_local[usize::from(!trace.switch_fault)] += 1,
            (true, local) => self.under_way[usize::from(local)] += 1,
        }
    }

    fn add(&mut self, other: &Unsure) {
        self.idle += other.idle;
        for place in 0..2 {
            self.idle_local[place] += other.idle_local[place];
            self.under_way[place] += other.under_way[place];
        }
    }

    /// Those with flag 1.
    pub fn faults(&self) -> u64 {
        self.idle + self.idle_local[0]
    }

    pub fn all(&self) -> u64 {
        self.idle + self.idle_local.iter().chain(&self.under_way).sum::<u64>()
    }
}

impl Tally {
    pub fn motor_scan(&mut self, trace: &Trace) {
        self.motor_scans += 1;
        if let Some(command) = trace.issued {
            self.issued[command.number() as usize - 1] += 1;
        }
        if let Some((command, end)) = trace.ended {
            let list = match end {
                End::Confirmed => &mut self.confirmed,
                End::Displaced => &mut self.displaced,
                End::Overdue => &mut self.overdue,
            };
            list[command.number() as usize - 1] += 1;
            if trace.issued.is_some() && end != End::Displaced {
                self.end_and_issue += 1;
            }
        }
        match trace.mode_by_key {
            Some(Mode::Repair) => self.modes[0] += 1,
            Some(Mode::Reserve) => self.modes[1] += 1,
            Some(Mode::Work) => self.modes[2] += 1,
            None => {}
        }
        match trace.dropped {
            Some(Cause::Time) => self.dropped[0] += 1,
            Some(Cause::Overdue) => self.dropped[1] += 1,
            Some(Cause::Confirmed) => self.dropped[2] += 1,
            None => {}
        }
        match trace.reading {
            Some(Reading::BothOpen) => self.both_open.count(trace),
            Some(Reading::BothClosed) => self.both_closed.count(trace),
            Some(Reading::Off | Reading::On) | None => {}
        }
        if let (Some(ops_2), Some(reading)) = (trace.both_read, trace.reading) {
            for (count, (_, shows)) in self.readings[ops_2 as usize].iter_mut().zip(READINGS) {
                *count += u64::from(shows(reading, trace.last_sure));
            }
        }
        for (sums, sum) in self.sums.iter_mut().zip([&trace.time_sum, &trace.pulse_sum]) {
            sum.iter().for_each(|sum| sums.count(sum));
        }
        self.acknowledged[0] += u64::from(trace.acknowledged_off);
        self.acknowledged[1] += u64::from(trace.acknowledged_on);
        self.barred += u64::from(trace.barred);
        self.lost += u64::from(trace.lost);
        for (count, happened) in [
            (&mut self.work_by_command, trace.work_by_command),
            (&mut self.pretended, trace.pretended),
            (&mut self.unsanctioned, trace.unsanctioned),
            (&mut self.pulses, trace.raised_pulse),
            (&mut self.held, trace.raised_held),
            (&mut self.idle_choice, trace.idle_choice),
            (&mut self.local, trace.local),
            (&mut self.reset, trace.reset),
            (&mut self.no_supply, trace.no_supply),
        ] {
            *count += u64::from(happened);
        }
    }

    /// Counts the refusals only, for files whose many scans would drown the rest.
    pub fn refusal(&mut self, result: &Result<Done, u32>) {
        if let Err(refusal) = result {
            self.refused[*refusal as usize] += 1;
        }
    }

    /// A line as [`crate::file::run_watched`] tells of it.
    pub fn line(&mut self, line: &[u8], result: &Result<Done, u32>) {
        self.hexadecimal.count(line, result);
        match result {
            Ok(Done::Scan(_, traces)) => {
                self.scans += 1;
                traces.iter().for_each(|trace| self.motor_scan(trace));
            }
            _ => self.refusal(result),
        }
    }

    /// Counts a file, besides what its lines did: its print and, if nothing was
    /// refused, its books, as [`crate::file::run_watched`] hands them back.
    pub fn file(&mut self, bytes: usize, print: &[u8], books: Option<&[Book]>, long: bool) {
        self.files += 1;
        self.whole += u64::from(books.is_some());
        self.cut_short += u64::from(books.is_none() && print.starts_with(b"R"));
        self.long += u64::from(long);
        self.bytes += bytes as u64;
        if let Some(counts) = beside(&mut self.lengths, bytes, FILE_LIMIT) {
            let commands = books.unwrap_or_default().iter().any(|book| !book.chains.is_empty());
            each(counts, &[1, u64::from(books.is_some()), u64::from(commands)]);
        }
        let books = books.filter(|_| !long).unwrap_or_default();
        for book in books {
            for chain in &book.chains {
                let Some((_, end)) = chain.ended else { continue };
                self.chains[usize::from(end == End::Overdue)][chain.commands - 1] += 1;
            }
            let told = Told { book, totals: Totals::of(book), motors: books.len() };
            for (count, (_, shows)) in self.told.iter_mut().zip(KINDS) {
                *count += u64::from(shows(&told));
            }
        }
    }

    /// Counts the dump of a file.
    pub fn dump(&mut self, outputs: &Outputs) {
        for (count, (_, shows)) in self.dumps.iter_mut().zip(DUMPS) {
            *count += u64::from(shows(outputs));
        }
    }

    pub fn add(&mut self, other: &Tally) {
        each(&mut self.issued, &other.issued);
        each(&mut self.confirmed, &other.confirmed);
        each(&mut self.displaced, &other.displaced);
        each(&mut self.overdue, &other.overdue);
        each(self.chains.as_flattened_mut(), other.chains.as_flattened());
        self.sums.iter_mut().zip(&other.sums).for_each(|(a, b)| a.add(b));
        each(self.readings.as_flattened_mut(), other.readings.as_flattened());
        each(self.lengths.as_flattened_mut(), other.lengths.as_flattened());
        each(&mut self.modes, &other.modes);
        each(&mut self.acknowledged, &other.acknowledged);
        each(&mut self.dropped, &other.dropped);
        each(&mut self.refused, &other.refused);
        each(&mut self.told, &other.told);
        each(&mut self.dumps, &other.dumps);
        self.hexadecimal.add(&other.hexadecimal);
        self.files += other.files;
        self.whole += other.whole;
        self.cut_short += other.cut_short;
        self.long += other.long;
        self.bytes += other.bytes;
        self.scans += other.scans;
        self.motor_scans += other.motor_scans;
        self.work_by_command += other.work_by_command;
        self.both_open.add(&other.both_open);
        self.both_closed.add(&other.both_closed);
        self.pretended += other.pretended;
        self.unsanctioned += other.unsanctioned;
        self.pulses += other.pulses;
        self.held += other.held;
        self.barred += other.barred;
        self.lost += other.lost;
        self.idle_choice += other.idle_choice;
        self.end_and_issue += other.end_and_issue;
        self.local += other.local;
        self.reset += other.reset;
        self.no_supply += other.no_supply;
    }
}

/// Counts with their titles, seven in a row.
fn rows<const N: usize>(
    f: &mut fmt::Formatter,
    name: &str,
    counts: &[u64; N],
    titles: [&str; N],
) -> fmt::Result {
    for (row, (counts, titles)) in counts.chunks(7).zip(titles.chunks(7)).enumerate() {
        write!(f, "  {:<22}", if row == 0 { name } else { "" })?;
        for (count, title) in counts.iter().zip(titles) {
            write!(f, " {title}:{count}")?;
        }
        writeln!(f)?;
    }
    Ok(())
}

/// What each list has at least at every place.
fn least<const N: usize>(lists: &[[u64; N]]) -> [u64; N] {
    std::array::from_fn(|place| lists.iter().map(|list| list[place]).min().unwrap_or(0))
}

impl fmt::Display for Tally {
    fn fmt(&self, f: &mut fmt::Formatter) -> fmt::Result {
        let row = |f: &mut fmt::Formatter, title: &str, counts: &[u64; 7]| {
            write!(f, "  {title:<22}")?;
            for (command, count) in Command::STRONGEST_FIRST.iter().zip(counts) {
                write!(f, " {}:{count}", command.number())?;
            }
            writeln!(f, "  all:{}", counts.iter().sum::<u64>())
        };
        writeln!(f, "in the random files, by the model's count:")?;
        writeln!(
            f,
            "  files {} (without refusal {}, refused after a scan {}), bytes {}; near the greatest length {}, \
             of these only refusals:",
            self.files, self.whole, self.cut_short, self.bytes, self.long
        )?;
        writeln!(f, "  scans {}, motor scans {}", self.scans, self.motor_scans)?;
        row(f, "commands issued", &self.issued)?;
        row(f, "ended confirmed", &self.confirmed)?;
        row(f, "ended displaced", &self.displaced)?;
        row(f, "ended overdue", &self.overdue)?;
        row(f, "chains confirmed", &self.chains[0])?;
        row(f, "chains overdue", &self.chains[1])?;
        for ((title, limit), sums) in [("time sums", "W"), ("pulse sums", "U")].iter().zip(&self.sums) {
            write!(f, "  {title:<22}")?;
            for (how, [below, at, above]) in [("in one scan", sums.at_once), ("in several", sums.later)] {
                write!(f, " {how} {limit} - 1:{below} {limit}:{at} {limit} + 1:{above}")?;
            }
            writeln!(f)?;
        }
        writeln!(f, "  ended and issued in one scan {}", self.end_and_issue)?;
        writeln!(
            f,
            "  mode changes           Repair:{} Reserve:{} Work:{} Work by command:{}",
            self.modes[0], self.modes[1], self.modes[2], self.work_by_command
        )?;
        writeln!(
            f,
            "  acknowledgements       KO off:{} KO on:{}",
            self.acknowledged[0], self.acknowledged[1]
        )?;
        writeln!(
            f,
            "  readings               unsure:{} of them pretended:{} unsanctioned changes:{}",
            self.both_open.all() + self.both_closed.all(),
            self.pretended,
            self.unsanctioned
        )?;
        for (title, kind) in [("both open", &self.both_open), ("both closed", &self.both_closed)] {
            let Unsure { idle, idle_local: [formed, not_formed], under_way: [outside, local] } = kind;
            writeln!(
                f,
                "  {title:<22} idle:{idle} in local mode with flags:{formed} without:{not_formed} \
                 under way:{outside} in local mode:{local}"
            )?;
        }
        rows(f, "each OPS_2, at least", &least(&self.readings), READINGS.map(|(title, _)| title))?;
        writeln!(
            f,
            "  outputs                pulses:{} held:{} dropped by time:{} by overdue:{} by confirming:{}",
            self.pulses, self.held, self.dropped[0], self.dropped[1], self.dropped[2]
        )?;
        writeln!(
            f,
            "  rises                  barred:{} lost:{} chosen but not issued:{}",
            self.barred, self.lost, self.idle_choice
        )?;
        writeln!(
            f,
            "  motor scans with       local mode:{} Reset:{} no supply:{} switch fault:{}",
            self.local,
            self.reset,
            self.no_supply,
            self.both_open.faults() + self.both_closed.faults()
        )?;
        write!(f, "  refusals              ")?;
        for refusal in [1, 2, 3, 4, 5, 7, 8, 9, 10] {
            write!(f, " {refusal}:{}", self.refused[refusal])?;
        }
        writeln!(f)?;
        write!(f, "  lengths               ")?;
        for ([all, whole, commands], bytes) in self.lengths.iter().zip(FILE_LIMIT - 1..) {
            write!(f, " {bytes}:{all} without refusal:{whole} with commands:{commands}")?;
        }
        writeln!(f)?;
        let Hexadecimal { read, above, wrong, elsewhere } = &self.hexadecimal;
        for (kind, (name, _, _)) in WORDS.iter().enumerate() {
            let title = format!("{name} in hexadecimal");
            writeln!(
                f,
                "  {title:<22} read:{} above the limit:{}",
                read[kind].iter().sum::<u64>(),
                above[kind]
            )?;
            write!(f, "  {:<22}", "  by digits")?;
            for (place, count) in read[kind].iter().enumerate() {
                write!(f, " {}:{count}", place + 1)?;
            }
            writeln!(f)?;
            write!(f, "  {:<22}", "  wrong")?;
            for (count, (way, _)) in wrong[kind].iter().zip(WAYS) {
                write!(f, " {way}:{count}")?;
            }
            writeln!(f)?;
        }
        write!(f, "  {:<22}", "numbers in hexadecimal")?;
        for (count, (name, _, _)) in elsewhere.iter().zip(NUMBERS) {
            write!(f, " {name}:{count}")?;
        }
        writeln!(f)?;
        rows(f, "T lines", &self.told, KINDS.map(|(title, _)| title))?;
        if self.dumps[0] > 0 {
            rows(f, "dumps", &self.dumps, DUMPS.map(|(title, _)| title))?;
        }
        Ok(())
    }
}
