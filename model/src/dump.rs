//! The second program (rule 9): a whole file in, the value change dump
//! of its outputs out.

use crate::file::{lines, Bench, Done, FILE_LIMIT};
use crate::viewer::{Signal, Wave};

/// The outputs that a file leads to.
#[derive(Clone, Debug, Default, PartialEq, Eq)]
pub struct Outputs {
    /// Of each motor before the first accepted scan or, if there is none, in the end.
    pub fresh: Vec<u32>,
    /// Time of each accepted scan, and the outputs after it.
    pub scans: Vec<(u64, Vec<u32>)>,
    /// Whether the file was read to a refused line.
    pub refused: bool,
}

fn now(bench: &Bench) -> Vec<u32> {
    bench.motors.iter().map(|motor| motor.output).collect()
}

/// The signals of all motors, On before Off for each.
fn signals(outputs: &[u32]) -> Vec<bool> {
    outputs.iter().flat_map(|output| [*output == 1, *output == 2]).collect()
}

/// The code of a signal counted from 0; the last of 32 motors has 96.
fn code(signal: usize) -> char {
    char::from_u32(33 + signal as u32).expect("a character")
}

fn header(motors: usize) -> String {
    let mut text = "$timescale 1 ms $end\n$scope module bench $end\n".to_string();
    for motor in 0..motors {
        let number = motor + 1;
        text += &format!("$var wire 1 {} m{number}on $end\n", code(2 * motor));
        text += &format!("$var wire 1 {} m{number}off $end\n", code(2 * motor + 1));
    }
    text + "$upscope $end\n$enddefinitions $end\n"
}

/// A line for each of these signals.
fn values(signals: &[bool], which: impl Fn(usize) -> bool) -> String {
    let line = |place: usize| format!("{}{}\n", u8::from(signals[place]), code(place));
    (0..signals.len()).filter(|place| which(*place)).map(line).collect()
}

impl Outputs {
    /// None of a file that is too long.
    pub fn of(file: &[u8]) -> Option<Outputs> {
        if file.len() > FILE_LIMIT {
            return None;
        }
        let mut bench = Bench::default();
        let mut outputs = Outputs::default();
        for raw in lines(file) {
            match bench.take_raw(raw) {
                // Never after a scan.
                Ok(Done::Motor) => outputs.fresh = now(&bench),
                Ok(Done::Word) => {}
                Ok(Done::Scan(..)) => outputs.scans.push((bench.time, now(&bench))),
                Err(_) => {
                    outputs.refused = true;
                    break;
                }
            }
        }
        Some(outputs)
    }

    /// Time of each accepted scan, and the outputs before and after it.
    pub fn steps(&self) -> impl Iterator<Item = (u64, &[u32], &[u32])> {
        let before = std::iter::once(&self.fresh).chain(self.scans.iter().map(|(_, outputs)| outputs));
        self.scans.iter().zip(before).map(|((time, after), before)| (*time, &before[..], &after[..]))
    }

    pub fn dump(&self) -> String {
        let mut text = header(self.fresh.len()) + "#0\n" + &values(&signals(&self.fresh), |_| true);
        for (time, before, after) in self.steps() {
            let (before, after) = (signals(before), signals(after));
            let changed = values(&after, |place| after[place] != before[place]);
            if !changed.is_empty() {
                text += &format!("#{time}\n{changed}");
            }
        }
        text
    }

    /// The outputs after the last scan at this time or before it.
    pub fn at(&self, time: u64) -> &[u32] {
        let not_later = self.scans.partition_point(|(at, _)| *at <= time);
        self.scans[..not_later].last().map_or(&self.fresh, |(_, outputs)| outputs)
    }

    /// 0, the time of each scan, the times one beside it and the times of a dump, each
    /// with the outputs then. Neither side can change at another time.
    fn moments(&self, dumped: &[u64]) -> Vec<(u64, &[u32])> {
        let beside = self.scans.iter().flat_map(|(time, _)| [time - 1, *time, time + 1]);
        let mut times: Vec<u64> = std::iter::once(0).chain(beside).chain(dumped.iter().copied()).collect();
        times.sort();
        times.dedup();
        times.into_iter().map(|time| (time, self.at(time))).collect()
    }

    /// Reads a dump and asks it for each signal at each of these times. Tells how
    /// many values were asked for, or what is wrong.
    pub fn read_back(&self, dump: &[u8]) -> Result<u64, String> {
        let wave = Wave::read(dump)?;
        if wave.timescale != "1 ms" {
            return Err(format!("the timescale is {}", wave.timescale));
        }
        if wave.signals.len() != 2 * self.fresh.len() {
            return Err(format!("{} signals for {} motors", wave.signals.len(), self.fresh.len()));
        }
        let moments = self.moments(&wave.times);
        for motor in 0..self.fresh.len() {
            for (name, output) in [("on", 1), ("off", 2)] {
                let path = format!("bench.m{}{name}", motor + 1);
                let signal = wave.signal(&path).ok_or(format!("no signal {path}"))?;
                let expected = moments.iter().map(|(time, outputs)| (*time, outputs[motor] == output));
                follows(signal, expected)?;
            }
        }
        Ok((moments.len() * wave.signals.len()) as u64)
    }
}

/// Whether a signal has these values at these times.
fn follows(signal: &Signal, mut expected: impl Iterator<Item = (u64, bool)>) -> Result<(), String> {
    let Some((time, value)) = expected.find(|(time, value)| signal.value(*time) != Some(*value)) else {
        return Ok(());
    };
    let got = signal.value(time).map_or("nothing".to_string(), |value| u8::from(value).to_string());
    Err(format!("{} should be {} at time {time} and is {got}", signal.path(), u8::from(value)))
}

/// The exact print of the second program for any bytes.
pub fn run(file: &[u8]) -> Vec<u8> {
    Outputs::of(file).map_or(Vec::new(), |outputs| outputs.dump().into_bytes())
}

/// Reads the dump of a file back, see [`Outputs::read_back`].
pub fn read_back(file: &[u8], dump: &[u8]) -> Result<u64, String> {
    match Outputs::of(file) {
        Some(outputs) => outputs.read_back(dump),
        None if dump.is_empty() => Ok(0),
        None => Err("a dump of a file that is too long".to_string()),
    }
}
