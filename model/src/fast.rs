//! The bench and its dump written once more, for speed: state changed in place,
//! nothing allocated by line, the print gathered in one buffer. It takes nothing
//! from the model, so that the two can be compared as well.
//!
//! `WAVE` tells the dump from the print, which alone has totals, where both are
//! compiled from one text.

use std::io::{self, Read, Write};

const SWITCH_BITS: u32 = 1 | 1 << 2 | 1 << 3 | 1 << 7 | 1 << 8 | 1 << 12 | 1 << 13;
const LOCAL: u32 = 1 << 1;
/// Commands as bits 1 to 7 of a mask: 3, 5 and 7 switch on.
const ON_MASK: u32 = 1 << 3 | 1 << 5 | 1 << 7;
const OFF_MASK: u32 = 1 << 1 | 1 << 2 | 1 << 4 | 1 << 6;
const MU_MASK: u32 = 1 << 4 | 1 << 5;
const KO_MASK: u32 = 1 << 6 | 1 << 7;
/// Flags that step 5 forms.
const FORMED: u32 = 1 | 1 << 1 | 1 << 14;
/// Of these, the ones of an idle motor's reading: 0 both open, 1 Off, 2 On, 3 both closed.
const FAULT: [u32; 4] = [1 << 1, 0, 0, 1 << 1 | 1 << 14];

/// Running totals; what is under way the record tells. 32 bits will do: the
/// periods of the longest file add up to less than 100,000,000.
#[derive(Clone, Copy, Default)]
struct Totals {
    issued: u32,
    confirmed: u32,
    displaced: u32,
    overdue: u32,
    on: u32,
    best: u32,
    worst: u32,
}

#[derive(Clone, Copy, Default)]
struct Motor {
    ops: u32,
    ops2: u32,
    wait: u32,
    pulse: u32,
    word: u32,
    previous: u32,
    flags: u32,
    sum: u32,
    pulse_sum: u32,
    totals: Totals,
    mode: u8,
    sure: u8,
    position: u8,
    command: u8,
    end: u8,
    output: u8,
}

/// Position that a command leads to: 1 Off, 2 On.
#[inline]
fn target(command: u8) -> u8 {
    1 + (ON_MASK >> command & 1) as u8
}

impl Motor {
    #[inline]
    fn scan<const WAVE: bool>(&mut self, period: u32) {
        let word = self.word;
        let risen = word & !self.previous;
        let ops = self.ops;
        let outside = word & LOCAL == 0;
        self.previous = word;
        self.end = 0;
        if word >> 16 & 1 == 1 {
            self.flags &= FORMED;
        }

        let switches = word >> 4 & 3;
        let reading = if ops & 1 == 0 {
            1 + (switches & 1) as u8
        } else {
            // Positions count the other way round than the bits; 0 and 3 stay.
            (switches >> 1 | switches << 1) as u8 & 3
        };
        if reading == 1 || reading == 2 {
            if self.command == 0 && self.sure != 0 && self.sure != reading {
                self.flags |= if reading == 2 { 4 } else { 8 };
            }
            self.sure = reading;
            self.position = reading;
            if !WAVE && reading == 2 {
                self.totals.on += period;
            }
        } else if self.ops2 & 4 == 0 {
            self.position = 0;
        } else if self.ops2 & 8 == 0 {
            self.position = self.sure;
        } else {
            self.position = 1 + (self.ops2 >> 4 & 1) as u8;
        }

        let pulses = ops & 64 != 0 && self.pulse > 0;
        let mut cut = false;
        if self.command != 0 {
            self.sum += period;
            let goal = target(self.command);
            if reading == goal {
                self.end = 1;
                cut = ops & 128 != 0;
                if !WAVE {
                    let totals = &mut self.totals;
                    totals.best = if totals.confirmed == 0 { self.sum } else { totals.best.min(self.sum) };
                    totals.worst = totals.worst.max(self.sum);
                    totals.confirmed += 1;
                }
            } else if self.sum >= self.wait {
                self.end = 3;
                if !WAVE {
                    self.totals.overdue += 1;
                }
                self.flags |= 64 << self.command;
                // Outputs count the other way round than positions.
                cut = self.output == 3 - goal;
            }
            if self.end != 0 {
                self.command = 0;
                self.sum = 0;
            }
        }
        if pulses && self.output != 0 {
            self.pulse_sum += period;
            if cut || self.pulse_sum >= self.pulse {
                self.output = 0;
                self.pulse_sum = 0;
            }
        }

        self.flags &= !FORMED;
        if outside || self.ops2 & 2 != 0 || ops & 4 != 0 {
            self.flags |= word >> 6 & ops >> 1 & 1;
            if self.command == 0 {
                self.flags |= FAULT[reading as usize & 3];
            }
        }

        if risen & (SWITCH_BITS | 7 << 9) != 0 {
            self.act::<WAVE>(word, risen, outside);
        }
    }

    /// Steps 6 to 9, when a key or command has risen.
    #[inline]
    fn act<const WAVE: bool>(&mut self, word: u32, risen: u32, outside: bool) {
        let ops = self.ops;
        let keys = risen >> 9 & 7;
        if risen & SWITCH_BITS == 0 {
            if outside && self.command == 0 {
                match keys {
                    1 if self.position == 1 => self.mode = 0,
                    2 if self.position == 1
                        && (self.flags & 2 == 0 || ops & 1 << 13 != 0)
                        && (self.flags & 1 == 0 || ops & 1 << 14 != 0) =>
                    {
                        self.mode = 1;
                    }
                    4 => self.mode = 2,
                    _ => {}
                }
            }
            return;
        }

        let mut asked = (risen & 1) << 1
            | (risen >> 8 & 1) << 2
            | (risen >> 7 & 1) << 3
            | (risen >> 3 & 1) << 4
            | (risen >> 2 & 1) << 5
            | (risen >> 13 & 1) << 6
            | (risen >> 12 & 1) << 7;
        if outside {
            if asked & 1 << 6 != 0 && ops & 1 << 15 != 0 && self.flags & 96 != 0 {
                self.flags &= !96;
                asked &= !(1 << 6);
            }
            if asked & 1 << 7 != 0 && self.ops2 & 1 != 0 && self.flags & 16 != 0 {
                self.flags &= !16;
                asked &= !(1 << 7);
            }
            asked &= !MU_MASK;
        } else {
            asked &= !KO_MASK;
        }
        if word >> 14 & 1 == 1 {
            asked &= if ops & 32 != 0 { !ON_MASK } else { !(1 << 7) };
        }
        if word >> 15 & 1 == 1 {
            asked &= if ops & 16 != 0 { !(OFF_MASK & !2) } else { !(1 << 6) };
        }
        if self.flags & 1 != 0 {
            asked &= !ON_MASK;
        }
        if asked == 0 || self.mode == 0 {
            return;
        }

        let chosen = asked.trailing_zeros() as u8;
        let goal = target(chosen);
        if self.command == 0 {
            if self.position == goal {
                return;
            }
        } else {
            if chosen >= self.command || (target(self.command) == goal && chosen != 1) {
                return;
            }
            self.end = 2;
            if !WAVE {
                self.totals.displaced += 1;
            }
        }
        if !WAVE {
            self.totals.issued += 1;
        }
        self.command = chosen;
        self.sum = 0;
        self.flags &= if goal == 2 { !96 } else { !16 };
        match chosen {
            1 => self.flags |= 64,
            2 => self.flags |= 32,
            3 => self.flags |= 16,
            _ => {}
        }
        let own = 3 - goal;
        if self.output == goal {
            // The opposite output: its number is that of the own position.
            self.output = 0;
            self.pulse_sum = 0;
        }
        let silent = chosen == 1 && ops & 1 << 12 == 0
            || MU_MASK >> chosen & 1 == 1 && ops & 4 == 0
            || goal == 1 && ops & 64 == 0;
        if !silent {
            self.output = own;
            self.pulse_sum = 0;
        }
        if self.mode == 1 {
            let leaves = match chosen {
                3 => 8,
                2 => 9,
                7 => 10,
                6 => 11,
                _ => return,
            };
            if ops >> leaves & 1 == 1 {
                self.mode = 2;
            }
        }
    }
}

/// A buffer that goes to the outlet when it is full.
struct Print<W: Write> {
    bytes: Vec<u8>,
    outlet: W,
}

impl<W: Write> Print<W> {
    fn number(&mut self, value: u32) {
        push_number(&mut self.bytes, value);
    }

    fn flush(&mut self) -> io::Result<()> {
        self.outlet.write_all(&self.bytes)?;
        self.bytes.clear();
        Ok(())
    }
}

/// Writes a number to the front of a place and tells its length.
#[inline]
fn put_number(place: &mut [u8], mut value: u32) -> usize {
    let mut length = 1;
    let mut bound = 10u64;
    while u64::from(value) >= bound {
        length += 1;
        bound *= 10;
    }
    for digit in place[..length].iter_mut().rev() {
        *digit = b'0' + (value % 10) as u8;
        value /= 10;
    }
    length
}

fn push_number(bytes: &mut Vec<u8>, value: u32) {
    let mut digits = [0; 10];
    let length = put_number(&mut digits, value);
    bytes.extend_from_slice(&digits[..length]);
}

/// Takes a decimal number from the front of a text.
#[inline]
fn number(text: &mut &[u8]) -> Option<u32> {
    let mut value = 0u64;
    let mut length = 0;
    while length < text.len() && text[length].is_ascii_digit() && length < 11 {
        value = 10 * value + u64::from(text[length] - b'0');
        length += 1;
    }
    if length == 0 || (length > 1 && text[0] == b'0') || value > u64::from(u32::MAX) {
        return None;
    }
    *text = &text[length..];
    Some(value as u32)
}

/// Takes a word from the front of a text: `0x` and up to eight digits, or a
/// decimal number. A ninth digit stays, and is no end of a field.
#[inline]
fn word(text: &mut &[u8]) -> Option<u32> {
    let [b'0', b'x', digits @ ..] = *text else {
        return number(text);
    };
    let mut value = 0;
    let mut length = 0;
    while length < digits.len() && length < 8 {
        let digit = match digits[length] {
            byte @ b'0'..=b'9' => byte - b'0',
            byte @ b'A'..=b'F' => byte - b'A' + 10,
            _ => break,
        };
        value = value << 4 | u32::from(digit);
        length += 1;
    }
    *text = &digits[length..];
    (length > 0).then_some(value)
}

#[inline]
fn comma(text: &mut &[u8]) -> Option<()> {
    *text = text.strip_prefix(b",")?;
    Some(())
}

/// The fields after `M,`: number, OPS_1, OPS_2, W and U.
#[inline]
fn motor_fields(mut text: &[u8]) -> Option<[u32; 5]> {
    let motor = number(&mut text)?;
    comma(&mut text)?;
    let ops = word(&mut text)?;
    comma(&mut text)?;
    let ops2 = word(&mut text)?;
    comma(&mut text)?;
    let wait = number(&mut text)?;
    comma(&mut text)?;
    let pulse = number(&mut text)?;
    text.is_empty().then_some([motor, ops, ops2, wait, pulse])
}

/// The fields after `I,`: number and word.
#[inline]
fn word_fields(mut text: &[u8]) -> Option<[u32; 2]> {
    let motor = number(&mut text)?;
    comma(&mut text)?;
    let word = word(&mut text)?;
    text.is_empty().then_some([motor, word])
}

/// The field after `S,`.
#[inline]
fn period_field(mut text: &[u8]) -> Option<u32> {
    let period = number(&mut text)?;
    text.is_empty().then_some(period)
}

struct State<const WAVE: bool> {
    motors: [Motor; 32],
    count: usize,
    scans: u32,
    /// The periods so far added up, for the dump.
    time: u32,
    /// What the lines of one scan begin with.
    head: Vec<u8>,
}

impl<const WAVE: bool> State<WAVE> {
    fn new() -> State<WAVE> {
        State { motors: [Motor::default(); 32], count: 0, scans: 0, time: 0, head: Vec::with_capacity(16) }
    }

    /// One line without LF; 0 or the refusal.
    fn line<W: Write>(&mut self, line: &[u8], print: &mut Print<W>) -> io::Result<u32> {
        if line.len() > 80 || line.len() < 2 || line[1] != b',' {
            return Ok(5);
        }
        let rest = &line[2..];
        Ok(match line[0] {
            b'S' => {
                let Some(period) = period_field(rest) else { return Ok(5) };
                if period == 0 || period > 10_000 {
                    2
                } else {
                    if WAVE {
                        self.changes(period, print);
                    } else {
                        self.scan(period, print);
                    }
                    if print.bytes.len() >= 60_000 {
                        print.flush()?;
                    }
                    0
                }
            }
            b'I' => {
                let Some([number, word]) = word_fields(rest) else { return Ok(5) };
                if number == 0 || number as usize > self.count {
                    10
                } else if word > 131_071 {
                    3
                } else {
                    self.motors[number as usize - 1].word = word;
                    0
                }
            }
            b'M' => {
                let Some([number, ops, ops2, wait, pulse]) = motor_fields(rest) else { return Ok(5) };
                if ops > 65_535 || ops2 > 31 || wait > 600_000 || pulse > 600_000 {
                    4
                } else if self.scans > 0 {
                    8
                } else if self.count == 32 {
                    7
                } else if number as usize != self.count + 1 {
                    9
                } else {
                    self.motors[self.count] = Motor { ops, ops2, wait, pulse, mode: 2, ..Motor::default() };
                    self.count += 1;
                    0
                }
            }
            _ => 5,
        })
    }

    fn scan<W: Write>(&mut self, period: u32, print: &mut Print<W>) {
        self.scans += 1;
        self.head.clear();
        self.head.extend_from_slice(b"R,");
        push_number(&mut self.head, self.scans);
        self.head.push(b',');
        let head = self.head.len();
        let mut line = [0u8; 48];
        line[..head].copy_from_slice(&self.head);
        for (place, motor) in self.motors[..self.count].iter_mut().enumerate() {
            motor.scan::<WAVE>(period);
            let mut at = head + put_number(&mut line[head..], place as u32 + 1);
            let mut middle = *b",0,0,0,0,0,";
            middle[1] += motor.mode;
            middle[3] += motor.position;
            middle[5] += motor.command;
            middle[7] += motor.end;
            middle[9] += motor.output;
            line[at..at + 11].copy_from_slice(&middle);
            at += 11;
            at += put_number(&mut line[at..], motor.flags);
            line[at] = b'\n';
            print.bytes.extend_from_slice(&line[..=at]);
        }
    }

    /// A scan for the dump: the time and what changed, if anything did.
    fn changes<W: Write>(&mut self, period: u32, print: &mut Print<W>) {
        if self.scans == 0 {
            self.begin(print);
        }
        self.scans += 1;
        self.time += period;
        let mut timed = false;
        for (place, motor) in self.motors[..self.count].iter_mut().enumerate() {
            let before = motor.output;
            motor.scan::<WAVE>(period);
            let now = motor.output;
            if now == before {
                continue;
            }
            if !timed {
                timed = true;
                print.bytes.push(b'#');
                print.number(self.time);
                print.bytes.push(b'\n');
            }
            let code = 33 + 2 * place as u8;
            if (now == 1) != (before == 1) {
                print.bytes.extend_from_slice(&[b'0' + u8::from(now == 1), code, b'\n']);
            }
            if (now == 2) != (before == 2) {
                print.bytes.extend_from_slice(&[b'0' + u8::from(now == 2), code + 1, b'\n']);
            }
        }
    }

    /// What the dump begins with.
    fn begin<W: Write>(&self, print: &mut Print<W>) {
        print.bytes.extend_from_slice(b"$timescale 1 ms $end\n$scope module bench $end\n");
        for place in 0..self.count {
            for (signal, name) in [&b"on $end\n"[..], b"off $end\n"].iter().enumerate() {
                print.bytes.extend_from_slice(b"$var wire 1 ");
                print.bytes.extend_from_slice(&[33 + (2 * place + signal) as u8, b' ', b'm']);
                print.number(place as u32 + 1);
                print.bytes.extend_from_slice(name);
            }
        }
        print.bytes.extend_from_slice(b"$upscope $end\n$enddefinitions $end\n#0\n");
        for (place, motor) in self.motors[..self.count].iter().enumerate() {
            for signal in 0..2 {
                let value = b'0' + u8::from(motor.output == 1 + signal);
                print.bytes.extend_from_slice(&[value, 33 + 2 * place as u8 + signal, b'\n']);
            }
        }
    }

    /// The totals, by rising number.
    fn end<W: Write>(&self, print: &mut Print<W>) {
        for (place, motor) in self.motors[..self.count].iter().enumerate() {
            let Totals { issued, confirmed, displaced, overdue, on, best, worst } = motor.totals;
            let under_way = u32::from(motor.command != 0);
            print.bytes.push(b'T');
            let number = place as u32 + 1;
            for value in [number, issued, confirmed, displaced, overdue, under_way, on, best, worst] {
                print.bytes.push(b',');
                print.number(value);
            }
            print.bytes.push(b'\n');
        }
    }
}

/// Reads a file and writes its print.
pub fn run(inlet: impl Read, outlet: impl Write) -> io::Result<()> {
    read::<false>(inlet, outlet)
}

/// Reads a file and writes the dump of its outputs.
pub fn wave(inlet: impl Read, outlet: impl Write) -> io::Result<()> {
    read::<true>(inlet, outlet)
}

fn read<const WAVE: bool>(inlet: impl Read, outlet: impl Write) -> io::Result<()> {
    let mut file = Vec::with_capacity(65_538);
    inlet.take(65_537).read_to_end(&mut file)?;
    let mut print = Print { bytes: Vec::with_capacity(65_536), outlet };
    if file.len() > 65_536 {
        if !WAVE {
            print.bytes.extend_from_slice(b"E,0,1\n");
        }
        return print.flush();
    }
    let mut state = State::<WAVE>::new();
    let mut rest = &file[..];
    let mut lines = 0;
    let mut refusal = 0;
    while !rest.is_empty() && refusal == 0 {
        lines += 1;
        refusal = match rest.iter().position(|byte| *byte == b'\n') {
            Some(end) => {
                let line = &rest[..end];
                rest = &rest[end + 1..];
                state.line(line, &mut print)?
            }
            None => 5,
        };
    }
    if WAVE {
        if state.scans == 0 {
            state.begin(&mut print);
        }
    } else if refusal == 0 {
        state.end(&mut print);
    } else {
        print.bytes.extend_from_slice(b"E,");
        print.number(lines);
        print.bytes.push(b',');
        print.number(refusal);
        print.bytes.push(b'\n');
    }
    print.flush()
}
