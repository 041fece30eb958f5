//! The proved scans over lent records, called from Rust, against the model
//! written apart: on random scans of one motor in range, on some of any numbers,
//! and on tables. What comes back, and each number of each record left, is the
//! same. A record that is lent may be one that no scan leaves.

use motor_model::record::Record;
use motor_model::rules::{scan_one, scan_table, Cause, Command, End, Mode, Reading, Trace, Way};
use motor_model::story::Dice;
use std::process::ExitCode;

extern "C" {
    // Of the library `motor_c`, whose source says what they do.
    fn motor_scan(motor: *mut Lent, word: u32, period: u32) -> u32;
    fn table_scan(
        motors: *mut Lent,
        motor_count: usize,
        words: *const u32,
        word_count: usize,
        period: u32,
    ) -> u32;
}

/// A record as the library has it: fourteen numbers in the order of its source.
type Lent = [u32; 14];

#[rustfmt::skip]
fn lent(r: &Record) -> Lent {
    [r.ops_1, r.ops_2, r.wait, r.pulse, r.mode, r.last_sure, r.position,
     r.command, r.end, r.flags, r.previous, r.sum, r.output, r.pulse_sum]
}

#[rustfmt::skip]
fn given_back(lent: Lent) -> Record {
    let [ops_1, ops_2, wait, pulse, mode, last_sure, position, command, end, flags, previous, sum, output, pulse_sum] = lent;
    Record { ops_1, ops_2, wait, pulse, mode, last_sure, position,
             command, sum, end, output, pulse_sum, flags, previous }
}

/// Places of word and period among a scan's numbers, behind those of the record.
const WORD: usize = 14;
const PERIOD: usize = 15;

/// A scan of one motor, to be asked for.
#[derive(Debug)]
struct Scan {
    record: Record,
    word: u32,
    period: u32,
}

/// The number that came back, and the record left.
type Outcome = (u32, Record);

fn proved(scan: &Scan) -> Outcome {
    let mut lent = lent(&scan.record);
    // SAFETY: the record is a variable of this function.
    let number = unsafe { motor_scan(&mut lent, scan.word, scan.period) };
    (number, given_back(lent))
}

/// The same of the model, and what happened if it is accepted.
fn expected(scan: &Scan) -> (Outcome, Option<Trace>) {
    let mut record = scan.record;
    match scan_one(&mut record, scan.word, scan.period) {
        Ok(trace) => ((0, record), Some(trace)),
        Err(number) => ((number, record), None),
    }
}

fn compare(scan: &Scan) -> Result<(Outcome, Option<Trace>), String> {
    let (found, (expected, trace)) = (proved(scan), expected(scan));
    if found != expected {
        return Err(format!("{scan:#?}\nleaves\n{found:#?}\nand by the model\n{expected:#?}"));
    }
    Ok((expected, trace))
}

/// Bits of the input word (rule 1.5).
mod bit {
    pub const SWITCHES: [u32; 4] = [0, 1 << 4, 1 << 5, 3 << 4];
    pub const KEYS: [u32; 3] = [1 << 9, 1 << 10, 1 << 11];
    /// By the commands' numbers.
    pub const COMMANDS: [u32; 7] = [1, 1 << 8, 1 << 7, 1 << 3, 1 << 2, KO_OFF, KO_ON];
    pub const KO_OFF: u32 = 1 << 13;
    pub const KO_ON: u32 = 1 << 12;
}

impl Scan {
    /// Any numbers in range.
    fn any(dice: &mut Dice) -> Scan {
        let record = Record::fresh(0, 0, 0, 0);
        let mut scan = Scan { record, word: 0, period: 0 };
        for (number, least, most) in scan.numbers() {
            *number = dice.within(least, most);
        }
        scan
    }

    /// Its numbers, each with the least and the greatest in range: rules 1.2, 2.1 and 4.1.
    fn numbers(&mut self) -> [(&mut u32, u32, u32); 16] {
        let Scan { record, word, period } = self;
        [
            (&mut record.ops_1, 0, 65_535),
            (&mut record.ops_2, 0, 31),
            (&mut record.wait, 0, 600_000),
            (&mut record.pulse, 0, 600_000),
            (&mut record.mode, 0, 2),
            (&mut record.last_sure, 0, 2),
            (&mut record.position, 0, 2),
            (&mut record.command, 0, 7),
            (&mut record.sum, 0, 599_999),
            (&mut record.end, 0, 3),
            (&mut record.output, 0, 2),
            (&mut record.pulse_sum, 0, 599_999),
            (&mut record.flags, 0, 32_767),
            (&mut record.previous, 0, 131_071),
            (word, 0, 131_071),
            (period, 1, 10_000),
        ]
    }

    /// Puts the number of a place at its limits, beside them, or anywhere.
    fn to_edge(&mut self, dice: &mut Dice, place: usize) {
        let (number, least, most) = &mut self.numbers()[place];
        let (least, most, one) = (*least, *most, 1 << dice.below(32));
        **number =
            dice.pick(&[least, least.saturating_sub(1), most, most, most + 1, most + 1, one, u32::MAX]);
    }

    /// Numbers in range that bear on one another.
    fn telling(dice: &mut Dice) -> Scan {
        let mut scan = Scan::any(dice);
        let Scan { record, word, period } = &mut scan;
        if dice.percent(10) {
            return scan;
        }
        *period = dice.pick(&[1, 10, 100, *period, 10_000]);
        (record.wait, record.pulse) = (time(dice), time(dice));
        (record.sum, record.pulse_sum) = (sum(dice, record.wait, *period), sum(dice, record.pulse, *period));
        if dice.percent(50) {
            record.command = 0;
        }
        // Positions are pretended more often.
        record.ops_2 |= dice.pick(&[0, 4]);
        let one = 1 << dice.below(15);
        record.flags &= dice.pick(&[0, 0x70, one, u32::MAX, u32::MAX]);
        let risen = risen(dice);
        let held = *word & dice.within(0, 131_071) & !risen;
        *word = held | risen;
        // Bits that fall, too.
        record.previous = held | record.previous & dice.pick(&[0, !risen & !*word]);
        *word = *word & !bit::SWITCHES[3] | dice.pick(&bit::SWITCHES);
        scan
    }
}

/// A setting: W or U.
fn time(dice: &mut Dice) -> u32 {
    let (short, any) = (dice.within(0, 300), dice.within(0, 600_000));
    dice.pick(&[0, 1, short, any, any, any, 600_000])
}

/// A sum that is 0, comes to its end in a period or nearly, is past it, or is any.
fn sum(dice: &mut Dice, end: u32, period: u32) -> u32 {
    let near = (end + dice.within(0, 2)).saturating_sub(period + 1);
    let past = end + dice.within(0, 1);
    let any = dice.within(0, 599_999);
    dice.pick(&[0, 0, 0, near, near, past, any]).min(599_999)
}

/// Bits that rise: none, one command's or some, one key or some, or any.
fn risen(dice: &mut Dice) -> u32 {
    let (key, command) = (dice.pick(&bit::KEYS), dice.pick(&bit::COMMANDS));
    match dice.below(20) {
        0..=1 => 0,
        2..=7 => key,
        8 => key | dice.pick(&bit::KEYS),
        9 => key | command,
        10..=13 => command,
        14..=15 => command | dice.pick(&bit::COMMANDS),
        16..=17 => bit::KO_OFF | bit::KO_ON,
        18 => dice.within(0, 131_071) & dice.within(0, 131_071),
        _ => 1 << dice.below(17),
    }
}

/// A scan of a record in range, what it left, and what happened in it.
struct Seen {
    scan: Scan,
    left: Record,
    trace: Trace,
}

impl Seen {
    fn lent(&self) -> &Record {
        &self.scan.record
    }

    fn risen(&self) -> u32 {
        (self.scan.word & !self.lent().previous).count_ones()
    }

    /// Whether outputs are pulses.
    fn pulses(&self) -> bool {
        self.lent().ops_1 & 64 != 0 && self.lent().pulse > 0
    }

    fn raised(&self) -> bool {
        self.trace.raised_pulse || self.trace.raised_held
    }

    /// The command that ended so.
    fn ended(&self, how: End) -> Option<Command> {
        self.trace.ended.and_then(|(command, end)| (end == how).then_some(command))
    }

    /// Whether the lent output is of this command's direction.
    fn own_output(&self, command: Command) -> bool {
        self.lent().output == if command.way() == Way::On { 1 } else { 2 }
    }
}

type Happening = (String, Box<dyn Fn(&Seen) -> bool>);

/// What the scans of records in range have to meet often.
fn happenings() -> Vec<Happening> {
    let named: [(&str, fn(&Seen) -> bool); 53] = [
        ("nothing rises", |s| s.risen() == 0),
        ("one bit rises", |s| s.risen() == 1),
        ("two bits rise", |s| s.risen() == 2),
        ("three bits rise", |s| s.risen() == 3),
        ("more bits rise", |s| s.risen() > 3),
        ("period 1", |s| s.scan.period == 1),
        ("period 10,000", |s| s.scan.period == 10_000),
        ("Off", |s| s.trace.reading == Some(Reading::Off)),
        ("On", |s| s.trace.reading == Some(Reading::On)),
        ("both open", |s| s.trace.reading == Some(Reading::BothOpen)),
        ("both closed", |s| s.trace.reading == Some(Reading::BothClosed)),
        ("pretended", |s| s.trace.pretended),
        ("unsanctioned", |s| s.trace.unsanctioned),
        ("no supply", |s| s.trace.no_supply),
        ("switch fault", |s| s.trace.switch_fault),
        ("local mode", |s| s.trace.local),
        ("reset", |s| s.trace.reset),
        ("barred", |s| s.trace.barred > 0),
        ("lost", |s| s.trace.lost > 0),
        ("chosen, not issued", |s| s.trace.idle_choice),
        ("KO off acknowledges alone", |s| s.trace.acknowledged_off && !s.trace.acknowledged_on),
        ("KO on acknowledges alone", |s| s.trace.acknowledged_on && !s.trace.acknowledged_off),
        ("both acknowledge", |s| s.trace.acknowledged_off && s.trace.acknowledged_on),
        ("KO off acknowledges, flag 4 stays", |s| s.trace.acknowledged_off && s.left.flags & 16 != 0),
        ("a pulse is raised", |s| s.trace.raised_pulse),
        ("a held output is raised", |s| s.trace.raised_held),
        ("a command raises none", |s| s.trace.issued.is_some() && !s.raised()),
        ("a pulse drops by time", |s| s.trace.dropped == Some(Cause::Time)),
        ("a pulse drops as its command is overdue", |s| s.trace.dropped == Some(Cause::Overdue)),
        ("a pulse drops as a command is confirmed", |s| s.trace.dropped == Some(Cause::Confirmed)),
        ("a pulse drops as a command of the other direction is confirmed", |s| {
            s.trace.dropped == Some(Cause::Confirmed)
                && s.ended(End::Confirmed).is_some_and(|command| !s.own_output(command))
        }),
        ("a pulse runs on as a command of the other direction is overdue", |s| {
            s.pulses()
                && s.ended(End::Overdue).is_some_and(|command| !s.own_output(command))
                && s.trace.issued.is_none()
                && s.left.output != 0
        }),
        ("an output drops by the opposite, which raises none", |s| {
            s.trace.dropped.is_none() && s.lent().output != 0 && s.left.output == 0
        }),
        ("Reserve by its key in a switch fault", |s| {
            s.trace.mode_by_key == Some(Mode::Reserve) && s.trace.switch_fault
        }),
        ("Reserve by its key without supply", |s| {
            s.trace.mode_by_key == Some(Mode::Reserve) && s.trace.no_supply
        }),
        // Records that no scan leaves.
        ("idle time sum stays", |s| s.lent().command == 0 && s.lent().sum > 0 && s.left.sum == s.lent().sum),
        ("idle time sum clears", |s| s.lent().command == 0 && s.lent().sum > 0 && s.left.sum == 0),
        ("idle pulse sum stays", |s| s.lent().output == 0 && s.lent().pulse_sum > 0 && s.left.pulse_sum > 0),
        ("idle pulse sum stays as a command raises none", |s| {
            s.lent().output == 0 && s.left.pulse_sum > 0 && s.trace.issued.is_some()
        }),
        ("idle pulse sum clears", |s| s.lent().output == 0 && s.lent().pulse_sum > 0 && s.raised()),
        ("pulse sum of a held output stays", |s| {
            !s.pulses()
                && s.left.output != 0
                && s.left.pulse_sum > 0
                && s.left.pulse_sum == s.lent().pulse_sum
        }),
        ("pulse sum of a held output clears", |s| {
            !s.pulses() && s.lent().output != 0 && s.lent().pulse_sum > 0 && s.left.pulse_sum == 0
        }),
        ("time sum a period short of W", |s| {
            s.lent().command != 0 && s.lent().sum + s.scan.period == s.lent().wait
        }),
        ("time sum shorter by 1", |s| {
            s.lent().command != 0 && s.lent().sum + s.scan.period + 1 == s.lent().wait
        }),
        ("pulse sum a period short of U", |s| {
            s.lent().output != 0 && s.pulses() && s.lent().pulse_sum + s.scan.period == s.lent().pulse
        }),
        ("pulse sum shorter by 1", |s| {
            s.lent().output != 0 && s.pulses() && s.lent().pulse_sum + s.scan.period + 1 == s.lent().pulse
        }),
        ("time sum past W", |s| s.lent().command != 0 && s.lent().sum > s.lent().wait),
        ("pulse sum past U", |s| s.lent().output != 0 && s.pulses() && s.lent().pulse_sum > s.lent().pulse),
        ("W 0", |s| s.lent().command != 0 && s.lent().wait == 0),
        ("a pulse of U 0", |s| s.lent().output != 0 && s.lent().ops_1 & 64 != 0 && s.lent().pulse == 0),
        ("Off out with OPS_1 bit 6 = 0", |s| s.lent().output == 2 && s.lent().ops_1 & 64 == 0),
        ("flag 14 without flag 1", |s| s.lent().flags & 16_386 == 16_384),
        ("a position without a sure one", |s| s.lent().position != 0 && s.lent().last_sure == 0),
    ];
    let mut all: Vec<Happening> = Vec::new();
    let mut add = |name: String, happens: Box<dyn Fn(&Seen) -> bool>| all.push((name, happens));
    for (name, happens) in named {
        add(name.to_string(), Box::new(happens));
    }
    for mode in [Mode::Repair, Mode::Reserve, Mode::Work] {
        add(format!("{mode:?} by its key"), Box::new(move |s| s.trace.mode_by_key == Some(mode)));
    }
    for command in Command::STRONGEST_FIRST {
        add(format!("{command:?} issued"), Box::new(move |s| s.trace.issued == Some(command)));
        for end in [End::Confirmed, End::Overdue, End::Displaced] {
            if (command, end) != (Command::SmaOff, End::Displaced) {
                add(format!("{command:?} {end:?}"), Box::new(move |s| s.ended(end) == Some(command)));
            }
        }
        if ![Command::SmaOff, Command::MuOff, Command::MuOn].contains(&command) {
            let turns = move |s: &Seen| s.trace.work_by_command && s.trace.issued == Some(command);
            add(format!("{command:?} to Work"), Box::new(turns));
        }
    }
    all
}

/// How often each was met, if that is often enough.
fn at_least(least: u32, what: &str, met: impl IntoIterator<Item = (String, u32)>) -> Result<String, String> {
    let (rarest, times) = met.into_iter().min_by_key(|(_, times)| *times).ok_or("nothing to be met")?;
    if times < least {
        return Err(format!("{what}: {rarest} is met {times} times only"));
    }
    Ok(format!("{rarest}, is met {times} times"))
}

/// Scans of records in range.
fn in_range() -> Result<String, String> {
    const SCANS: u32 = 1_000_000;
    let mut dice = Dice::new(1, 0);
    let happenings = happenings();
    let mut met = vec![0; happenings.len()];
    for _ in 0..SCANS {
        let scan = Scan::telling(&mut dice);
        let ((_, left), trace) = compare(&scan)?;
        let trace = trace.ok_or_else(|| format!("{scan:#?}\nis refused"))?;
        let seen = Seen { scan, left, trace };
        for (met, (_, happens)) in met.iter_mut().zip(&happenings) {
            *met += u32::from(happens(&seen));
        }
    }
    let count = happenings.len();
    let rarest = at_least(1000, "scans in range", happenings.into_iter().map(|(name, _)| name).zip(met))?;
    Ok(format!("{SCANS} scans in range (of {count} happenings the rarest, {rarest})"))
}

/// Scans with each of their numbers at an edge alone, and with several.
fn at_edges() -> Result<String, String> {
    const SCANS: u32 = 32_000;
    let mut dice = Dice::new(1, 1);
    let mut met = [0; 7];
    for index in 0..SCANS {
        let mut scan = Scan::telling(&mut dice);
        for place in 0..16 {
            // From 16 on, several.
            let alone = index as usize % 32;
            if alone == place || alone >= 16 && dice.percent(15) {
                scan.to_edge(&mut dice, place);
            }
        }
        let ((number, _), _) = compare(&scan)?;
        met[number as usize] += 1;
    }
    let numbers = numbers_met(&met, [0, 6, 2, 3]);
    at_least(500, "scans with numbers at their limits", numbers.clone())?;
    Ok(format!("{SCANS} with numbers at and past their limits ({})", shown(&numbers)))
}

/// Of the numbers that come back those given, and how often.
fn numbers_met<const N: usize>(met: &[u32; 7], numbers: [u32; N]) -> Vec<(String, u32)> {
    numbers.map(|number| (number.to_string(), met[number as usize])).to_vec()
}

fn shown(numbers: &[(String, u32)]) -> String {
    let shown: Vec<_> = numbers.iter().map(|(number, times)| format!("{number} {times} times")).collect();
    shown.join(", ")
}

/// No record in range.
const BEHIND: Lent = [u32::MAX; 14];

/// The number that comes back from a scan of a table.
fn compare_table(records: &[Record], words: &[u32], period: u32) -> Result<u32, String> {
    let mut lent: Vec<Lent> = records.iter().map(lent).collect();
    // What stands behind the table has to stay.
    lent.push(BEHIND);
    // SAFETY: the records are the first of a vector, and the words are a vector of this length.
    let number = unsafe { table_scan(lent.as_mut_ptr(), records.len(), words.as_ptr(), words.len(), period) };
    if lent.pop() != Some(BEHIND) {
        return Err(format!("{records:?}\nwords {words:?}\nperiod {period}\nwrites behind the table"));
    }
    let found = (number, lent.into_iter().map(given_back).collect());
    let mut left = records.to_vec();
    let number = scan_table(&mut left, words, period).err().unwrap_or(0);
    let expected = (number, left);
    if found != expected {
        return Err(format!(
            "{records:?}\nwords {words:?}\nperiod {period}\nleave\n{found:?}\nand by the model\n{expected:?}"
        ));
    }
    Ok(number)
}

/// Tables of up to 40 records, some with a number at an edge, or with more or fewer words.
fn tables() -> Result<String, String> {
    const TABLES: u32 = 20_000;
    let mut dice = Dice::new(1, 2);
    let (mut met, mut accepted) = ([0; 7], [0; 33]);
    for _ in 0..TABLES {
        let motors = dice.within(0, 40);
        let mut scans: Vec<Scan> = (0..motors).map(|_| Scan::telling(&mut dice)).collect();
        if motors > 0 && dice.percent(20) {
            let place = dice.below(14) as usize;
            scans[dice.below(motors.into()) as usize].to_edge(&mut dice, place);
        }
        if motors > 0 && dice.percent(20) {
            scans[dice.below(motors.into()) as usize].to_edge(&mut dice, WORD);
        }
        let mut any = Scan::telling(&mut dice);
        if dice.percent(20) {
            any.to_edge(&mut dice, PERIOD);
        }
        let records: Vec<Record> = scans.iter().map(|scan| scan.record).collect();
        let mut words: Vec<u32> = scans.iter().map(|scan| scan.word).collect();
        if dice.percent(20) {
            words.resize(dice.within(0, 40) as usize, 0);
        }
        let number = compare_table(&records, &words, any.period)?;
        met[number as usize] += 1;
        if number == 0 {
            accepted[records.len()] += 1;
        }
    }
    let sizes = (0..).map(|motors: u32| format!("an accepted table of {motors}")).zip(accepted);
    let rarest = at_least(100, "tables", sizes)?;
    let numbers = numbers_met(&met, [0, 1, 6, 2, 3]);
    at_least(500, "tables", numbers.clone())?;
    Ok(format!("{TABLES} tables ({}; {rarest})", shown(&numbers)))
}

fn main() -> ExitCode {
    let tests = [in_range, at_edges, tables];
    match tests.iter().map(|test| test()).collect::<Result<Vec<_>, _>>() {
        Ok(tested) => {
            println!("ok: lent records, {}", tested.join(", "));
            ExitCode::SUCCESS
        }
        Err(fault) => {
            println!("lent records: {fault}");
            ExitCode::from(1)
        }
    }
}
