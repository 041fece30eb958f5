//! A reader of value change dumps (IEEE 1364), as a waveform viewer has one. It
//! knows nothing of what wrote them.
//!
//! A dump is read by its tokens, parted by any white space. Only what a dump of
//! single wires needs is read; all else is an error, and so is a dump that leaves
//! a signal without a first value or tells of a change that is none.

use std::collections::HashMap;

/// A declared signal and what the dump tells of it.
#[derive(Clone, Debug, PartialEq, Eq)]
pub struct Signal {
    pub code: String,
    pub name: String,
    /// Names of the scopes around it, from the outermost, parted by periods.
    pub scope: String,
    pub width: u32,
    /// By rising time, the first value included.
    pub changes: Vec<(u64, bool)>,
}

impl Signal {
    /// The name with its scope.
    pub fn path(&self) -> String {
        format!("{}.{}", self.scope, self.name)
    }

    /// The last change not later than this time; none before the first.
    pub fn value(&self, time: u64) -> Option<bool> {
        let not_later = self.changes.partition_point(|(at, _)| *at <= time);
        self.changes[..not_later].last().map(|(_, value)| *value)
    }
}

/// A dump that has been read.
#[derive(Clone, Debug, PartialEq, Eq)]
pub struct Wave {
    /// Number and unit with a blank between.
    pub timescale: String,
    /// In the order of their declarations.
    pub signals: Vec<Signal>,
    /// Every time that the dump names.
    pub times: Vec<u64>,
}

impl Wave {
    pub fn read(dump: &[u8]) -> Result<Wave, String> {
        if !dump.is_ascii() {
            return Err("a byte that is no ASCII".to_string());
        }
        let text = String::from_utf8_lossy(dump);
        let mut tokens = text.split_ascii_whitespace();
        let wave = Declarations::read(&mut tokens)?;
        Values::new(wave).read(&mut tokens)
    }

    /// A signal by its name with scope.
    pub fn signal(&self, path: &str) -> Option<&Signal> {
        self.signals.iter().find(|signal| signal.path() == path)
    }

    /// The value of a signal by its name with scope.
    pub fn value(&self, path: &str, time: u64) -> Option<bool> {
        self.signal(path)?.value(time)
    }
}

/// What stands between a keyword and its `$end`.
fn body<'a>(keyword: &str, tokens: &mut impl Iterator<Item = &'a str>) -> Result<Vec<&'a str>, String> {
    let mut body = Vec::new();
    loop {
        match tokens.next() {
            Some("$end") => return Ok(body),
            Some(token) => body.push(token),
            None => return Err(format!("{keyword} without $end")),
        }
    }
}

fn is_identifier(name: &str) -> bool {
    let plain = |byte: u8| byte.is_ascii_alphabetic() || byte == b'_';
    let rest = |byte: u8| plain(byte) || byte.is_ascii_digit() || byte == b'$';
    name.bytes().next().is_some_and(plain) && name.bytes().all(rest)
}

/// Digits alone, and not too many.
fn decimal(text: &str) -> Option<u64> {
    if text.bytes().all(|byte| byte.is_ascii_digit()) {
        text.parse().ok()
    } else {
        None
    }
}

/// The part up to `$enddefinitions`.
#[derive(Default)]
struct Declarations {
    timescale: Option<String>,
    scopes: Vec<String>,
    signals: Vec<Signal>,
}

impl Declarations {
    fn read<'a>(tokens: &mut impl Iterator<Item = &'a str>) -> Result<Wave, String> {
        let mut found = Declarations::default();
        loop {
            let keyword = tokens.next().ok_or("no $enddefinitions")?;
            if !keyword.starts_with('$') {
                return Err(format!("{keyword} is no declaration"));
            }
            let body = body(keyword, tokens)?;
            match (keyword, &body[..]) {
                ("$comment" | "$date" | "$version", _) => {}
                ("$timescale", parts) => found.timescale(&parts.concat())?,
                ("$scope", ["module" | "task" | "function" | "begin" | "fork", name]) => found.scope(name)?,
                ("$upscope", []) => drop(found.scopes.pop().ok_or("$upscope outside of any scope")?),
                ("$var", ["wire" | "reg", width, code, name]) => found.signal(width, code, name)?,
                ("$enddefinitions", []) => return found.end(),
                _ => return Err(format!("{keyword} {} is no declaration that is read", body.join(" "))),
            }
        }
    }

    /// Number and unit may stand in one token or in two.
    fn timescale(&mut self, text: &str) -> Result<(), String> {
        let (number, unit) = text.split_at(text.bytes().take_while(u8::is_ascii_digit).count());
        if !["1", "10", "100"].contains(&number) || !["s", "ms", "us", "ns", "ps", "fs"].contains(&unit) {
            return Err(format!("{text} is no timescale"));
        }
        match self.timescale.replace(format!("{number} {unit}")) {
            None => Ok(()),
            Some(_) => Err("two timescales".to_string()),
        }
    }

    fn scope(&mut self, name: &str) -> Result<(), String> {
        if !is_identifier(name) {
            return Err(format!("{name} is no name of a scope"));
        }
        self.scopes.push(name.to_string());
        Ok(())
    }

    fn signal(&mut self, width: &str, code: &str, name: &str) -> Result<(), String> {
        let wide = decimal(width).and_then(|width| u32::try_from(width).ok()).filter(|width| *width > 0);
        let width = wide.ok_or(format!("{name} has width {width}"))?;
        if !is_identifier(name) {
            return Err(format!("{name} is no name of a signal"));
        }
        if self.scopes.is_empty() {
            return Err(format!("{name} is outside of any scope"));
        }
        if !code.bytes().all(|byte| byte.is_ascii_graphic()) {
            return Err(format!("{} is no code", code.escape_default()));
        }
        let scope = self.scopes.join(".");
        let new =
            Signal { code: code.to_string(), name: name.to_string(), scope, width, changes: Vec::new() };
        if self.signals.iter().any(|signal| signal.code == new.code) {
            return Err(format!("the code {code} stands for two signals"));
        }
        if self.signals.iter().any(|signal| signal.path() == new.path()) {
            return Err(format!("two signals have the name {}", new.path()));
        }
        self.signals.push(new);
        Ok(())
    }

    fn end(self) -> Result<Wave, String> {
        if let Some(scope) = self.scopes.last() {
            return Err(format!("the scope {scope} is not left"));
        }
        let timescale = self.timescale.ok_or("no timescale")?;
        Ok(Wave { timescale, signals: self.signals, times: Vec::new() })
    }
}

/// The part after it.
struct Values {
    wave: Wave,
    places: HashMap<String, usize>,
    /// Changes at the time that is being read.
    count: usize,
}

impl Values {
    fn new(wave: Wave) -> Values {
        let places = wave.signals.iter().enumerate().map(|(place, s)| (s.code.clone(), place)).collect();
        Values { wave, places, count: 0 }
    }

    fn read<'a>(mut self, tokens: &mut impl Iterator<Item = &'a str>) -> Result<Wave, String> {
        while let Some(token) = tokens.next() {
            if token == "$comment" {
                body(token, tokens)?;
            } else if let Some(time) = token.strip_prefix('#') {
                self.time(time)?;
            } else if let Some(code) = token.strip_prefix('0') {
                self.change(code, false)?;
            } else if let Some(code) = token.strip_prefix('1') {
                self.change(code, true)?;
            } else {
                return Err(format!("{token} is neither a time nor a change"));
            }
        }
        self.end_of_time()?;
        if self.wave.times.is_empty() {
            return Err("no time".to_string());
        }
        Ok(self.wave)
    }

    fn time(&mut self, text: &str) -> Result<(), String> {
        let time = decimal(text).ok_or(format!("#{text} is no time"))?;
        self.end_of_time()?;
        if self.wave.times.last().is_some_and(|last| *last >= time) {
            return Err(format!("time {time} is not after the last one"));
        }
        self.wave.times.push(time);
        self.count = 0;
        Ok(())
    }

    /// The first time gives every signal its value, a later one has changes.
    fn end_of_time(&self) -> Result<(), String> {
        match self.wave.times[..] {
            [] => Ok(()),
            [_] => match self.wave.signals.iter().find(|signal| signal.changes.is_empty()) {
                Some(signal) => Err(format!("{} has no first value", signal.path())),
                None => Ok(()),
            },
            [.., time] if self.count == 0 => Err(format!("nothing changes at time {time}")),
            _ => Ok(()),
        }
    }

    fn change(&mut self, code: &str, value: bool) -> Result<(), String> {
        let place = *self.places.get(code).ok_or(format!("the code {code} is not declared"))?;
        let time = *self.wave.times.last().ok_or("a value before any time")?;
        let signal = &mut self.wave.signals[place];
        if signal.width != 1 {
            return Err(format!("one digit for the {} bits of {}", signal.width, signal.path()));
        }
        match signal.changes.last() {
            Some((at, _)) if *at == time => Err(format!("{} changes twice at time {time}", signal.path())),
            Some((_, old)) if *old == value => {
                Err(format!("{} changes at time {time} to what it was", signal.path()))
            }
            _ => {
                signal.changes.push((time, value));
                self.count += 1;
                Ok(())
            }
        }
    }
}
