//! Random files. Each comes from a seed and its own number alone.
//!
//! A whole file is played with the model at hand: switches answer commands,
//! fail to or move by themselves, and periods often land on the very end of a
//! monitoring or pulse time or one beside it. Its words are decimal, hexadecimal
//! or some of each. A damaged file is a whole one with something done to it, or a
//! line made to be refused. Some kinds of files are made for what these seldom come
//! to, such as long chains.

use crate::file::{number, word, Bench, FILE_LIMIT};
use crate::record::{Record, SETTING_LIMITS};
use crate::words::ODD;

/// A small generator of numbers (SplitMix).
pub struct Dice(u64);

impl Dice {
    pub fn new(seed: u64, file: u64) -> Dice {
        let mut dice = Dice(seed ^ file.wrapping_mul(0xd6e8_feb8_6659_fd93));
        dice.roll();
        dice
    }

    fn roll(&mut self) -> u64 {
        self.0 = self.0.wrapping_add(0x9e37_79b9_7f4a_7c15);
        let mut z = self.0;
        z = (z ^ (z >> 30)).wrapping_mul(0xbf58_476d_1ce4_e5b9);
        z = (z ^ (z >> 27)).wrapping_mul(0x94d0_49bb_1331_11eb);
        z ^ (z >> 31)
    }

    /// A number below `limit`, which is not 0.
    pub fn below(&mut self, limit: u64) -> u64 {
        self.roll() % limit
    }

    /// A number from `low` to `high`.
    pub fn within(&mut self, low: u32, high: u32) -> u32 {
        low + self.below(u64::from(high - low) + 1) as u32
    }

    /// True so many times in a hundred.
    pub fn percent(&mut self, chance: u64) -> bool {
        self.below(100) < chance
    }

    pub fn pick<T: Clone>(&mut self, list: &[T]) -> T {
        list[self.below(list.len() as u64) as usize].clone()
    }
}

/// Bits of the input word (rule 1.5).
mod bit {
    pub const SMA: u32 = 1;
    pub const LOCAL: u32 = 1 << 1;
    pub const MU_ON: u32 = 1 << 2;
    pub const MU_OFF: u32 = 1 << 3;
    pub const ON: u32 = 1 << 4;
    pub const OFF: u32 = 1 << 5;
    pub const NO_SUPPLY: u32 = 1 << 6;
    pub const LZ_ON: u32 = 1 << 7;
    pub const LZ_OFF: u32 = 1 << 8;
    pub const REPAIR: u32 = 1 << 9;
    pub const RESERVE: u32 = 1 << 10;
    pub const WORK: u32 = 1 << 11;
    pub const KO_ON: u32 = 1 << 12;
    pub const KO_OFF: u32 = 1 << 13;
    pub const FORBID_ON: u32 = 1 << 14;
    pub const FORBID_OFF: u32 = 1 << 15;
    pub const RESET: u32 = 1 << 16;

    pub const SWITCHES: u32 = ON | OFF;
    pub const KEYS: u32 = REPAIR | RESERVE | WORK;
    pub const COMMANDS: u32 = SMA | MU_ON | MU_OFF | LZ_ON | LZ_OFF | KO_ON | KO_OFF;
}

fn time_setting(dice: &mut Dice) -> u32 {
    match dice.below(20) {
        0..=1 => 0,
        2 => 1,
        3..=4 => dice.within(1, 20),
        5..=11 => dice.within(1, 10) * 100,
        12..=15 => dice.within(100, 3000),
        16 => dice.pick(&[9_999, 10_000, 10_001, 20_000]),
        17 => dice.within(10_000, 60_000),
        18 => dice.within(0, 600_000),
        _ => dice.pick(&[599_999, 600_000]),
    }
}

/// OPS_1, OPS_2, W and U.
fn settings(dice: &mut Dice) -> [u32; 4] {
    let mut ops_1 = 0;
    for (place, chance) in
        [78, 60, 50, 50, 50, 50, 75, 50, 50, 50, 50, 50, 55, 50, 50, 65].into_iter().enumerate()
    {
        if dice.percent(chance) {
            ops_1 += 1 << place;
        }
    }
    let ops_2 = dice.within(0, 31);
    if dice.percent(4) {
        ops_1 = dice.pick(&[0, 193, 65_535]);
    }
    let wait = time_setting(dice);
    let pulse = match dice.below(6) {
        0 => wait,
        1 => wait.saturating_sub(dice.within(1, 100)),
        2 => (wait + dice.within(1, 100)).min(600_000),
        _ => time_setting(dice),
    };
    [ops_1, ops_2, wait, pulse]
}

/// The bits of the commands that displace this one, weakest first.
fn displacers(command: u32) -> &'static [u32] {
    match command {
        7 => &[bit::KO_OFF, bit::MU_OFF, bit::LZ_OFF, bit::SMA],
        6 => &[bit::MU_ON, bit::LZ_ON, bit::SMA],
        5 => &[bit::MU_OFF, bit::LZ_OFF, bit::SMA],
        4 => &[bit::LZ_ON, bit::SMA],
        3 => &[bit::LZ_OFF, bit::SMA],
        2 => &[bit::SMA],
        _ => &[],
    }
}

/// A command bit worth raising in this state.
fn command_bit(dice: &mut Dice, record: &Record, word: u32) -> u32 {
    let displacers = displacers(record.command);
    if !displacers.is_empty() && dice.percent(60) {
        return dice.pick(displacers);
    }
    let all = [bit::SMA, bit::MU_ON, bit::MU_OFF, bit::LZ_ON, bit::LZ_OFF, bit::KO_ON, bit::KO_OFF];
    let local = [bit::MU_ON, bit::MU_OFF];
    let remote = [bit::KO_ON, bit::KO_OFF, bit::KO_ON, bit::KO_OFF, bit::LZ_ON, bit::LZ_OFF, bit::SMA];
    if dice.percent(30) {
        dice.pick(&all)
    } else if word & bit::LOCAL != 0 {
        dice.pick(&local)
    } else {
        dice.pick(&remote)
    }
}

/// Lets go of what does not stay pressed.
fn let_go(dice: &mut Dice, word: u32) -> u32 {
    let mut word = word;
    for place in 0..17 {
        let this = 1 << place;
        let chance = if this & (bit::COMMANDS | bit::KEYS) != 0 {
            60
        } else if this == bit::RESET {
            80
        } else if this == bit::LOCAL {
            12
        } else if this & bit::SWITCHES != 0 {
            0
        } else {
            25
        };
        if word & this != 0 && dice.percent(chance) {
            word -= this;
        }
    }
    word
}

/// Whether a command of this number switches on.
fn switches_on(command: u32) -> bool {
    matches!(command, 3 | 5 | 7)
}

/// One thing happening to the word of a motor.
fn event(dice: &mut Dice, record: &Record, word: u32) -> u32 {
    let off = (word & !bit::SWITCHES) | bit::OFF;
    let on = (word & !bit::SWITCHES) | bit::ON;
    match dice.below(100) {
        // Commands, one or several.
        0..=27 => word | command_bit(dice, record, word),
        28..=35 => {
            let mut word = word;
            for _ in 0..dice.within(2, 4) {
                word |= command_bit(dice, record, word);
            }
            word
        }
        // The switches answer, or do not.
        36..=53 if record.command != 0 => {
            if switches_on(record.command) {
                on
            } else {
                off
            }
        }
        36..=44 => off,
        45..=53 => on,
        54..=58 => word | bit::SWITCHES,
        59..=62 => word & !bit::SWITCHES,
        // Local mode.
        63..=67 => word ^ bit::LOCAL,
        // Keys, mostly in a state in which they work.
        68..=77 => {
            let key = dice.pick(&[bit::RESERVE, bit::RESERVE, bit::WORK, bit::REPAIR]);
            let quiet = word & !(bit::COMMANDS | bit::KEYS | bit::LOCAL);
            match dice.below(5) {
                0..=2 => (quiet & !bit::SWITCHES) | bit::OFF | key,
                3 => quiet | key,
                _ => word | key,
            }
        }
        78 => word | dice.pick(&[bit::REPAIR | bit::RESERVE, bit::RESERVE | bit::WORK, bit::KEYS]),
        // Acknowledging.
        79..=83 => {
            let key = if record.flags & 16 != 0 { bit::KO_ON } else { bit::KO_OFF };
            (word & !bit::LOCAL) | key
        }
        84..=86 => word ^ bit::FORBID_ON,
        87..=89 => word ^ bit::FORBID_OFF,
        90..=93 => word ^ bit::NO_SUPPLY,
        94..=95 => word | bit::RESET,
        96..=97 => word & bit::SWITCHES,
        _ => dice.within(0, 131_071),
    }
}

fn next_word(dice: &mut Dice, record: &Record, word: u32, busy: u64) -> u32 {
    let mut word = let_go(dice, word);
    // Nobody stays in Repair for long, or nothing would happen.
    if record.mode == 0 && dice.percent(40) {
        return (word & !(bit::COMMANDS | bit::KEYS | bit::LOCAL)) | bit::WORK;
    }
    if dice.percent(busy) {
        word = event(dice, record, word);
        while dice.percent(30) {
            word = event(dice, record, word);
        }
    }
    word
}

fn next_period(dice: &mut Dice, bench: &Bench, usual: u32) -> u32 {
    let around = |dice: &mut Dice, left: u32| {
        let off_by = dice.within(0, 3);
        (left + off_by).saturating_sub(if off_by == 3 { 4 } else { 1 })
    };
    let period = match dice.below(20) {
        0..=9 => usual,
        10..=13 if !bench.motors.is_empty() => {
            let m = dice.pick(&bench.motors);
            if m.command != 0 {
                around(dice, m.wait.saturating_sub(m.sum))
            } else {
                usual
            }
        }
        14..=16 if !bench.motors.is_empty() => {
            let m = dice.pick(&bench.motors);
            if m.output != 0 {
                around(dice, m.pulse.saturating_sub(m.pulse_sum))
            } else {
                usual
            }
        }
        17 => dice.within(1, 10_000),
        18 => dice.pick(&[1, 2, 9_999, 10_000]),
        _ => dice.within(1, 100),
    };
    period.clamp(1, 10_000)
}

/// A word in hexadecimal, in any number of digits that has room for it.
fn hexadecimal(dice: &mut Dice, value: u32) -> String {
    let least = format!("{value:X}").len() as u32;
    let any = dice.within(least, 8);
    let digits = dice.pick(&[least, any, any, 8]) as usize;
    format!("0x{value:0digits$X}")
}

/// A word in hexadecimal so many times in a hundred, otherwise decimal.
fn either(dice: &mut Dice, share: u64, value: u32) -> String {
    if share > 0 && dice.percent(share) {
        hexadecimal(dice, value)
    } else {
        value.to_string()
    }
}

/// A file under way, with the model at the same point.
struct Writer {
    bench: Bench,
    file: Vec<u8>,
    /// Of a hundred words so many are hexadecimal.
    share: u64,
}

impl Writer {
    fn new(dice: &mut Dice) -> Writer {
        Writer { share: dice.pick(&[0, 0, 15, 50, 85, 100]), ..Writer::decimal() }
    }

    /// Without any hexadecimal word.
    fn decimal() -> Writer {
        Writer { bench: Bench::default(), file: Vec::new(), share: 0 }
    }

    fn line(&mut self, line: String) {
        let taken = self.bench.take(line.as_bytes(), true);
        debug_assert!(taken.is_ok(), "{line}");
        self.file.extend_from_slice(line.as_bytes());
        self.file.push(b'\n');
    }

    fn motor(&mut self, dice: &mut Dice, [ops_1, ops_2, wait, pulse]: [u32; 4]) {
        let number = self.bench.motors.len() + 1;
        let [ops_1, ops_2] = [ops_1, ops_2].map(|value| either(dice, self.share, value));
        self.line(format!("M,{number},{ops_1},{ops_2},{wait},{pulse}"));
    }

    fn word(&mut self, dice: &mut Dice, place: usize, word: u32) {
        let word = either(dice, self.share, word);
        self.line(format!("I,{},{word}", place + 1));
    }

    /// New words for some motors.
    fn words(&mut self, dice: &mut Dice, busy: u64) {
        for place in 0..self.bench.motors.len() {
            let old = self.bench.words[place];
            let word = next_word(dice, &self.bench.motors[place].clone(), old, busy);
            // A word that is overwritten before the scan must leave no trace.
            if dice.percent(4) {
                let other = dice.within(0, 131_071);
                self.word(dice, place, other);
                self.word(dice, place, word);
            } else if word != old || dice.percent(5) {
                self.word(dice, place, word);
            }
        }
    }

    fn scan(&mut self, period: u32) {
        self.line(format!("S,{period}"));
    }

    /// New words for some motors, then a scan.
    fn round(&mut self, dice: &mut Dice, busy: u64, usual: u32) {
        self.words(dice, busy);
        let period = next_period(dice, &self.bench, usual);
        self.scan(period);
    }
}

fn motor_count(dice: &mut Dice) -> u32 {
    match dice.below(100) {
        0 => 0,
        1..=44 => 1,
        45..=66 => 2,
        67..=81 => 3,
        82..=93 => dice.within(4, 8),
        94..=97 => dice.within(9, 31),
        _ => 32,
    }
}

/// A file without refusals.
fn whole(dice: &mut Dice, most_scans: u32) -> Writer {
    let mut writer = Writer::new(dice);
    let motors = motor_count(dice);
    for _ in 0..motors {
        let settings = settings(dice);
        writer.motor(dice, settings);
    }
    let most = most_scans.min(1 + 400 / (motors + 1));
    let scans = dice.within(most / 4, most);
    let busy = dice.pick(&[35, 60, 85]);
    let usual = dice.pick(&[1, 10, 50, 100, 100, 100, 250, 1000, 10_000]);
    for _ in 0..scans {
        writer.round(dice, busy, usual);
    }
    writer
}

fn odd_field(dice: &mut Dice) -> Vec<u8> {
    let fixed: [&[u8]; 29] = [
        b"",
        b" ",
        b"-1",
        b"-0",
        b"+1",
        b"+0",
        b"00",
        b"01",
        b"007",
        b"0000000000",
        b"00000000001",
        b" 1",
        b"1 ",
        b"1.0",
        b"1e2",
        b"1_0",
        b"1'000",
        b"\"1\"",
        b"1\r",
        b"\xff",
        b"1\x00",
        b"\x00",
        b"\xef\xbc\x91",
        b"4294967296",
        b"4294967300",
        b"9999999999",
        b"10000000000",
        b"18446744073709551617",
        b"x",
    ];
    match dice.below(5) {
        4 => {
            // Too great, but in order again for one who counts round and round.
            let value: u32 = dice.pick(&[0, 1, 1, 100]);
            match dice.below(3) {
                0 => (u64::from(value) + (1 << 32)).to_string(),
                1 => (u128::from(value) + (1 << 64)).to_string(),
                _ => format!("340282366920938463463374607431{}", 768_211_456 + value),
            }
            .into_bytes()
        }
        0 => {
            let length = dice.within(10, 90) as usize;
            (0..length).map(|place| b'0' + dice.within(u32::from(place == 0), 9) as u8).collect()
        }
        1 => {
            // A good number with one byte more in it.
            let mut field = dice.within(0, 131_071).to_string().into_bytes();
            let place = dice.below(field.len() as u64 + 1) as usize;
            let byte = dice.pick(b"+- 0.,;:/\t\x80a");
            field.insert(place, byte);
            field
        }
        _ => dice.pick(&fixed).to_vec(),
    }
}

/// Nearly a word in hexadecimal, mostly of a value up to `limit`.
fn odd_hexadecimal(dice: &mut Dice, limit: u32) -> Vec<u8> {
    let value = dice.within(0, limit);
    let mut field = hexadecimal(dice, value).into_bytes();
    let length = field.len() as u32;
    match dice.below(18) {
        // A byte beside the digits, or another, in place of one or put in.
        0..=1 => field[dice.within(2, length - 1) as usize] = dice.pick(b"/:@G`g/:@G`g +-xX.afz"),
        2..=3 => field.insert(dice.within(0, length) as usize, dice.pick(b"/:@G`gafxX\t")),
        4..=6 => {
            let any = dice.within(0, length);
            field.insert(dice.pick(&[0, 2, length, any]) as usize, dice.pick(b"+-  "));
        }
        // Something else before the digits.
        7..=8 => {
            let start: &[u8] = dice.pick(&[&b"x"[..], b"00x", b"0x0x", b"0xx", b"1x", b"Ox", b"-x"]);
            field.splice(..2, start.iter().copied());
        }
        9..=10 => field[1] = b'X',
        // Small letters, or one beside a capital one.
        11 => {
            let letter = dice.within(10, 15);
            field = hexadecimal(dice, value & !15 | letter).to_lowercase().into_bytes();
        }
        12 => {
            let letters = 16 * dice.within(10, 15) + dice.within(10, 15);
            field = hexadecimal(dice, value & !255 | letters).into_bytes();
            let small = field.len() - dice.within(1, 2) as usize;
            field[small].make_ascii_lowercase();
        }
        // No digit, or more than eight: zeros in front, or a value that is good again
        // for one who counts round and round.
        13..=14 => field.truncate(2),
        15 => {
            let digits = dice.pick(&[9, 9, 10, 16, 17, 60]);
            field = format!("0x{value:0digits$X}").into_bytes();
        }
        16 => field = format!("0x{}{value:08X}", dice.pick(&["1", "F", "100000000"])).into_bytes(),
        _ => field = dice.pick(&ODD).to_vec(),
    }
    debug_assert!(word(&field).is_none(), "{}", field.escape_ascii());
    field
}

/// The line with one field wrong in hexadecimal: not a word where one may stand,
/// and a good one where only a number may.
fn wrong_notation(dice: &mut Dice, line: &[u8]) -> Vec<u8> {
    let mut fields: Vec<Vec<u8>> = line.split(|byte| *byte == b',').map(<[u8]>::to_vec).collect();
    let (place, limit) = match fields[0][..] {
        [b'M'] => {
            let [ops_1, ops_2, ..] = SETTING_LIMITS.map(Some);
            let word = dice.pick(&[(2, ops_1), (3, ops_2)]);
            dice.pick(&[word, word, word, word, word, word, (1, None), (4, None), (5, None)])
        }
        [b'I'] => {
            let word = (2, Some(131_071));
            dice.pick(&[word, word, word, (1, None)])
        }
        _ => (1, None),
    };
    fields[place] = match limit {
        Some(limit) => odd_hexadecimal(dice, limit),
        None => hexadecimal(dice, number(&fields[place]).expect("a number")).into_bytes(),
    };
    fields.join(&b',')
}

fn with_fields(first: &[u8], fields: &[Vec<u8>]) -> Vec<u8> {
    let mut line = first.to_vec();
    for field in fields {
        line.push(b',');
        line.extend_from_slice(field);
    }
    line
}

/// A number that may be at a limit, above it or far above; then it may be in order
/// again for one who drops bits.
fn near(dice: &mut Dice, limit: u32, over: u64) -> u32 {
    let inside = dice.within(0, limit);
    if dice.percent(over) {
        let bit = 1 << dice.within(20, 31);
        let far = dice.pick(&[1_000_000, u32::MAX - 1, u32::MAX, bit, bit | inside, bit | inside]);
        dice.pick(&[limit + 1, limit + 1, limit + 2, 2 * limit + 2, far, far, far])
    } else {
        dice.pick(&[0, limit, limit, inside])
    }
}

/// An M line, likely at fault in one or more ways.
fn doubtful_motor(dice: &mut Dice, bench: &Bench) -> Vec<u8> {
    let next = bench.motors.len() as u32 + 1;
    let number = match dice.below(8) {
        0..=2 => next,
        3 => next + 1,
        4 => next - 1,
        5 => 0,
        6 => dice.within(0, 40),
        _ => dice.pick(&[33, 65_537, u32::MAX]),
    };
    let over = dice.pick(&[0, 0, 0, 30]);
    let mut limits = [65_535, 31, 600_000, 600_000].map(|limit| near(dice, limit, over));
    if dice.percent(30) {
        // One setting, and that just above its limit.
        let place = dice.below(4) as usize;
        limits[place] = [65_536, 32, 600_001, 600_001][place];
    }
    let [ops_1, ops_2, wait, pulse] = limits;
    let [ops_1, ops_2] = [ops_1, ops_2].map(|value| either(dice, 50, value));
    format!("M,{number},{ops_1},{ops_2},{wait},{pulse}").into_bytes()
}

/// An I line, likely at fault in one or both ways.
fn doubtful_word(dice: &mut Dice, bench: &Bench) -> Vec<u8> {
    let motors = bench.motors.len() as u32;
    let there = if motors > 0 { dice.within(1, motors) } else { 1 };
    let number = match dice.below(8) {
        0..=4 => there,
        5 => dice.pick(&[0, 0, 33]),
        6 => motors + 1,
        _ => dice.pick(&[33, 257, 65_537, u32::MAX]),
    };
    let word = near(dice, 131_071, 60);
    format!("I,{number},{}", either(dice, 50, word)).into_bytes()
}

/// An S line, likely at fault.
fn doubtful_scan(dice: &mut Dice) -> Vec<u8> {
    let period = match dice.below(4) {
        0 => 0,
        1 => 10_001,
        _ => near(dice, 10_000, 60),
    };
    format!("S,{period}").into_bytes()
}

/// A line of 79 to 82 bytes, LF not counted.
fn long_line(dice: &mut Dice) -> Vec<u8> {
    let length = dice.within(79, 82) as usize;
    let starts = ["S,", "S,1,", "I,1,", "I,1,0x", "M,1,193,0,500,", "", "x"];
    let mut line = dice.pick(&starts).as_bytes().to_vec();
    let filler = dice.pick(b"0123456789, ,MIS\r");
    while line.len() < length {
        line.push(filler);
    }
    line
}

/// A line that its text alone makes wrong.
fn wrong_line(dice: &mut Dice) -> Vec<u8> {
    let kinds: [(&[u8], usize); 3] = [(b"M", 5), (b"I", 2), (b"S", 1)];
    let (first, count) = dice.pick(&kinds);
    let mut fields: Vec<Vec<u8>> = (0..count).map(|_| b"1".to_vec()).collect();
    match dice.below(8) {
        0 => Vec::new(),
        1 | 2 => long_line(dice),
        3 => {
            let odd: [&[u8]; 16] = [
                b"m",
                b"s",
                b"i",
                b"",
                b" S",
                b"S ",
                b"MM",
                b"R",
                b"E",
                b"SS",
                b"\xef\xbb\xbfS",
                b"S;1",
                b"#",
                b"\"S\"",
                b"1",
                b"\0",
            ];
            with_fields(dice.pick(&odd), &fields)
        }
        4 => {
            // Too few fields, or too many.
            if dice.percent(50) {
                fields.pop();
            } else {
                fields.push(dice.pick(&[&b""[..], b"0", b"1"]).to_vec());
            }
            with_fields(first, &fields)
        }
        _ => {
            let place = dice.below(count as u64) as usize;
            fields[place] = odd_field(dice);
            with_fields(first, &fields)
        }
    }
}

fn lines_of(file: &[u8]) -> Vec<Vec<u8>> {
    file.split_inclusive(|byte| *byte == b'\n').map(<[u8]>::to_vec).collect()
}

/// Bytes to put into a file.
const OTHER_BYTES: &[u8] = b"0123456789,\nMIS-+ \r\0\xffxXAFaf";

/// A whole file with something done to it.
fn damaged(dice: &mut Dice) -> Vec<u8> {
    let most = dice.pick(&[0, 4, 12]);
    let writer = whole(dice, most);
    let mut file = writer.file.clone();
    match dice.below(29) {
        // A doubtful line at the end, with more after it.
        0..=9 => {
            let mut line = match dice.below(8) {
                0..=3 => doubtful_motor(dice, &writer.bench),
                4..=6 => doubtful_word(dice, &writer.bench),
                _ => doubtful_scan(dice),
            };
            match dice.below(10) {
                0 | 1 => line = wrong_line(dice),
                2 => line = wrong_notation(dice, &line),
                _ => {}
            }
            file.extend_from_slice(&line);
            if !dice.percent(4) {
                file.push(b'\n');
            }
            if dice.percent(60) {
                file.extend_from_slice(b"S,100\n");
            }
            file
        }
        // A wrong or doubtful line anywhere.
        10..=11 => {
            let mut lines = lines_of(&file);
            let place = dice.below(lines.len() as u64 + 1) as usize;
            let mut line = match dice.below(4) {
                0 => doubtful_word(dice, &writer.bench),
                1 => doubtful_scan(dice),
                _ => wrong_line(dice),
            };
            line.push(b'\n');
            lines.insert(place, line);
            lines.concat()
        }
        // One field wrong in hexadecimal, the fewer M lines as often as the others.
        12..=19 if !file.is_empty() => {
            let mut lines = lines_of(&file);
            let kind = dice.pick(b"MMMIIS");
            let of_kind: Vec<usize> = (0..lines.len()).filter(|place| lines[*place][0] == kind).collect();
            let place = if of_kind.is_empty() { 0 } else { dice.pick(&of_kind) };
            lines[place].pop();
            lines[place] = wrong_notation(dice, &lines[place]);
            lines[place].push(b'\n');
            lines.concat()
        }
        // Cut off.
        20 => {
            file.truncate(dice.below(file.len() as u64 + 1) as usize);
            file
        }
        // Bytes changed.
        21..=22 if !file.is_empty() => {
            for _ in 0..dice.within(1, 3) {
                let place = dice.below(file.len() as u64) as usize;
                if dice.percent(50) {
                    file[place] ^= 1 << dice.below(8);
                } else {
                    file[place] = dice.pick(OTHER_BYTES);
                }
            }
            file
        }
        // Bytes put in or taken out.
        23 if !file.is_empty() => {
            let place = dice.below(file.len() as u64) as usize;
            if dice.percent(50) {
                file.insert(place, dice.pick(OTHER_BYTES));
            } else {
                file.remove(place);
            }
            file
        }
        // Lines doubled, taken out or exchanged.
        24 if !file.is_empty() => {
            let mut lines = lines_of(&file);
            let one = dice.below(lines.len() as u64) as usize;
            let other = dice.below(lines.len() as u64) as usize;
            match dice.below(3) {
                0 => lines.insert(one, lines[other].clone()),
                1 => drop(lines.remove(one)),
                _ => lines.swap(one, other),
            }
            lines.concat()
        }
        // A full table, and one more.
        25..=27 => full_table(dice),
        // No sense at all.
        _ => {
            let length = dice.below(60) as usize;
            let tidy = dice.percent(70);
            let mut any = |_| if tidy { dice.pick(b"MIS,,,0111\n\n") } else { dice.below(256) as u8 };
            (0..length).map(&mut any).collect()
        }
    }
}

/// Thirty-two motors or nearly, then a doubtful M line.
fn full_table(dice: &mut Dice) -> Vec<u8> {
    let mut writer = Writer::new(dice);
    let motors = dice.pick(&[30, 31, 32, 32, 32, 32]);
    for _ in 0..motors {
        let settings = settings(dice);
        writer.motor(dice, settings);
    }
    if dice.percent(20) {
        writer.round(dice, 60, 100);
    }
    let mut file = writer.file.clone();
    file.extend_from_slice(&doubtful_motor(dice, &writer.bench));
    file.extend_from_slice(b"\nS,100\n");
    file
}

/// A file of exactly or nearly the greatest length; `count` of them before.
fn at_the_limit(dice: &mut Dice, count: u64) -> Vec<u8> {
    let length = match count % 8 {
        0 | 2 | 4 => FILE_LIMIT,
        1 | 3 | 5 => FILE_LIMIT + 1,
        6 => FILE_LIMIT - 1,
        _ => FILE_LIMIT + dice.pick(&[2, 100, 4096, 65_536, 131_073]),
    };
    let mut writer = Writer::new(dice);
    let motors = if count % 16 == 4 { 32 } else { dice.within(0, 2) };
    for _ in 0..motors {
        let settings = settings(dice);
        writer.motor(dice, settings);
    }
    match dice.below(4) {
        // Played to the end.
        0 | 2 => {
            // A round takes two I lines a motor at most, of 16 bytes, and an S line.
            while writer.file.len() + 32 * motors as usize + 20 < length.min(FILE_LIMIT) {
                writer.round(dice, 60, 100);
            }
        }
        // Refused at the very beginning.
        1 => {
            writer.file.splice(0..0, *b"M,2,0,0,0,0\n");
        }
        _ => {}
    }
    let mut file = writer.file;
    // Short scans to the end, the last ones made to fit: 4 bytes to 7.
    while file.len() + 7 < length {
        file.extend_from_slice(b"S,1\n");
    }
    match length - file.len() {
        4 => file.extend_from_slice(b"S,1\n"),
        5 => file.extend_from_slice(b"S,10\n"),
        6 => file.extend_from_slice(b"S,100\n"),
        _ => file.extend_from_slice(b"S,1000\n"),
    }
    assert_eq!(file.len(), length);
    if dice.percent(15) {
        // The last line without LF, its length unchanged.
        file.pop();
        file.push(b'0');
    }
    file
}

/// Long monitoring and pulse times, run down to their very end.
fn long_times(dice: &mut Dice) -> Vec<u8> {
    let mut writer = Writer::new(dice);
    for _ in 0..dice.within(1, 3) {
        let [ops_1, ops_2, _, _] = settings(dice);
        let mut long = || dice.pick(&[65_535, 65_536, 131_071, 599_999, 600_000, 600_000]);
        let (wait, pulse) = (long(), long());
        // A held output has no sum that could grow, however long it stays.
        let held = dice.percent(30);
        let option = if held && dice.percent(50) { 0 } else { 64 };
        let pulse = if held && option == 64 { 0 } else { pulse };
        writer.motor(dice, [ops_1 & !64 | option, ops_2, wait, pulse]);
    }
    for place in 0..writer.bench.motors.len() {
        let word = dice.pick(&[
            bit::OFF | bit::KO_ON,
            bit::ON | bit::KO_OFF,
            bit::ON | bit::LZ_OFF,
            bit::OFF | bit::LZ_ON,
        ]);
        writer.word(dice, place, word);
    }
    writer.scan(1);
    for _ in 0..75 {
        let m = dice.pick(&writer.bench.motors);
        let left = if dice.percent(50) { m.wait - m.sum } else { m.pulse.saturating_sub(m.pulse_sum) };
        let period = if left > 10_000 { 10_000 } else { dice.pick(&[left, left, left.saturating_sub(1), 1]) };
        writer.scan(period.clamp(1, 10_000));
        if dice.percent(3) {
            writer.round(dice, 85, 10_000);
        }
    }
    writer.file
}

/// Monitoring and pulse times of one period, or a millisecond less or more.
fn short_times(dice: &mut Dice) -> Vec<u8> {
    let mut writer = Writer::new(dice);
    let period = dice.pick(&[1, 2, 3, 50, 100, 1000, 9_999, 10_000]);
    for _ in 0..dice.within(1, 3) {
        let [ops_1, ops_2, _, _] = settings(dice);
        let [wait, pulse] = [(); 2].map(|_| dice.within(period - 1, period + 1));
        writer.motor(dice, [ops_1 | 64, ops_2, wait, pulse]);
    }
    for _ in 0..dice.within(40, 90) {
        writer.words(dice, 85);
        writer.scan(period);
    }
    writer.file
}

/// Switches that do not confirm the command under way.
fn no_answer(dice: &mut Dice, record: &Record) -> u32 {
    let opposite = if switches_on(record.command) { bit::OFF } else { bit::ON };
    if record.ops_1 & 1 == 0 {
        opposite
    } else {
        dice.pick(&[opposite, 0, bit::SWITCHES])
    }
}

/// A word that begins a chain or, mostly, takes it on: the command under way is not
/// confirmed, and the weakest of those that displace it rises.
fn chain_word(dice: &mut Dice, record: &Record) -> u32 {
    let no_answer = no_answer(dice, record);
    let (switches, command) = match displacers(record.command) {
        [] if record.command == 0 => {
            let on = (bit::OFF, bit::KO_ON);
            dice.pick(&[on, on, (bit::ON, bit::KO_OFF), (bit::OFF, bit::MU_ON)])
        }
        [weakest, ..] if dice.percent(85) => (no_answer, *weakest),
        [.., strongest] if dice.percent(20) => (no_answer, *strongest),
        _ => (dice.pick(&[no_answer, bit::OFF, bit::ON]), 0),
    };
    let local = match command {
        bit::MU_ON | bit::MU_OFF => bit::LOCAL,
        bit::KO_ON | bit::KO_OFF => 0,
        _ => dice.pick(&[0, bit::LOCAL]),
    };
    // A bit that is 1 already has to be let go of before it can rise.
    switches | local | command & !record.previous | dice.pick(&[0, 0, 0, bit::RESET])
}

/// A period in which no chain that may go on gets overdue, if there is one.
fn chain_period(dice: &mut Dice, bench: &Bench) -> u32 {
    let left = bench.motors.iter().filter(|m| m.command > 1).map(|m| m.wait - m.sum - 1);
    let most = left.min().unwrap_or(10_000).clamp(1, 10_000);
    let any = dice.within(1, most);
    dice.pick(&[most, any, any, 1])
}

/// Commands that displace one another, up to all seven.
fn chains(dice: &mut Dice) -> Vec<u8> {
    let mut writer = Writer::new(dice);
    for _ in 0..dice.within(1, 3) {
        let [ops_1, ops_2, _, pulse] = settings(dice);
        let wait = dice.pick(&[2, 3, 20, 100, 500, 3000, 10_001, 600_000]);
        writer.motor(dice, [ops_1, ops_2, wait, pulse]);
    }
    for _ in 0..dice.within(20, 60) {
        for place in 0..writer.bench.motors.len() {
            let word = chain_word(dice, &writer.bench.motors[place].clone());
            writer.word(dice, place, word);
        }
        let period = chain_period(dice, &writer.bench);
        writer.scan(period);
    }
    writer.file
}

/// A motor for each OPS_2, with both switches read and unsure every other time.
fn unsure(dice: &mut Dice) -> Vec<u8> {
    let mut writer = Writer::new(dice);
    let first = dice.within(0, 31);
    for place in 0..32 {
        let [ops_1, _, wait, pulse] = settings(dice);
        writer.motor(dice, [ops_1 | 1, (first + place) % 32, wait, pulse]);
    }
    for _ in 0..dice.within(8, 16) {
        for place in 0..32 {
            let old = writer.bench.words[place];
            let word = next_word(dice, &writer.bench.motors[place].clone(), old, 60);
            let switches = dice.pick(&[0, bit::OFF, bit::ON, bit::SWITCHES]);
            writer.word(dice, place, word & !bit::SWITCHES | switches);
        }
        let period = next_period(dice, &writer.bench, 100);
        writer.scan(period);
    }
    writer.file
}

/// Words set before all motors are there, then a few scans.
fn mixed(dice: &mut Dice) -> Vec<u8> {
    let mut writer = Writer::new(dice);
    for _ in 0..dice.pick(&[2, 2, 3, 5, 31, 32]) {
        let settings = settings(dice);
        writer.motor(dice, settings);
        if dice.percent(40) {
            let place = dice.below(writer.bench.motors.len() as u64) as usize;
            let word = next_word(dice, &writer.bench.motors[place].clone(), bit::OFF, 100);
            writer.word(dice, place, word);
        }
    }
    for _ in 0..dice.within(0, 8) {
        writer.round(dice, 60, 100);
    }
    writer.file
}

/// A file near the greatest length, full of commands, all decimal.
pub fn rich(seed: u64, motors: u32) -> Vec<u8> {
    let mut dice = Dice::new(seed, 0);
    let mut writer = Writer::decimal();
    for _ in 0..motors {
        let settings = settings(&mut dice);
        writer.motor(&mut dice, settings);
    }
    loop {
        let length = writer.file.len();
        writer.round(&mut dice, 85, 100);
        if writer.file.len() > FILE_LIMIT {
            writer.file.truncate(length);
            return writer.file;
        }
    }
}

/// Whether file number `index` is one of those near the greatest length.
pub fn is_long(index: u64) -> bool {
    index % 100 == 7
}

/// File number `index` of any seed.
pub fn file(seed: u64, index: u64) -> Vec<u8> {
    let mut dice = Dice::new(seed, index);
    if is_long(index) {
        return at_the_limit(&mut dice, index / 100);
    }
    match index % 50 {
        3 => return long_times(&mut dice),
        8 => return chains(&mut dice),
        23 => return short_times(&mut dice),
        28 => return mixed(&mut dice),
        38 => return unsure(&mut dice),
        _ => {}
    }
    if dice.percent(60) {
        let most = if dice.percent(2) { 0 } else { dice.pick(&[12, 40, 40, 120]) };
        whole(&mut dice, most).file
    } else {
        damaged(&mut dice)
    }
}
