//! The book of commands, kept from a motor's history alone: no sums, no
//! output. Times are added up from the scans.

use crate::record::Record;
use crate::rules::{
    acknowledge, begin, change_mode, choose, end_command, enter, form_flags, read_switches, Change, Command,
    End, Face, Input, Reading, Settings, Trace, Way,
};

/// A command and those that displaced it one after another.
#[derive(Clone, Copy, Debug)]
pub struct Chain {
    /// Number of the scan that issued its first command.
    pub first: usize,
    /// How many commands it has so far.
    pub commands: usize,
    /// Number of the scan in which its last command ended, and how.
    pub ended: Option<(usize, End)>,
}

/// A scan of the history, and what the book has of it.
#[derive(Clone, Copy, Debug)]
pub struct Entry {
    pub word: u32,
    pub period: u32,
    pub reading: Reading,
    pub position: Option<Way>,
    pub issued: Option<Command>,
    /// Of the command that was under way as the scan began.
    pub end: Option<End>,
}

#[derive(Debug)]
pub struct Book {
    settings: Settings,
    /// Scan n is entry n - 1.
    pub history: Vec<Entry>,
    /// The periods of the first n scans added up, for each n from 0.
    clock: Vec<u64>,
    face: Face,
    /// Number of the scan that issued the command under way.
    issued_in: usize,
    pub chains: Vec<Chain>,
}

impl Book {
    pub fn of(record: &Record) -> Book {
        Book {
            settings: Settings::spell(record.ops_1, record.ops_2, record.wait, record.pulse),
            history: Vec::new(),
            clock: vec![0],
            face: Face::fresh(),
            issued_in: 0,
            chains: Vec::new(),
        }
    }

    /// The book of a whole history, word and period of each scan.
    pub fn kept(record: &Record, history: &[(u32, u32)]) -> Book {
        let mut book = Book::of(record);
        history.iter().for_each(|(word, period)| book.scan(*word, *period));
        book
    }

    /// Time of the scans after `first`, up to and with `last`.
    fn time(&self, first: usize, last: usize) -> u64 {
        self.clock[last] - self.clock[first]
    }

    fn previous_word(&self) -> u32 {
        self.history.last().map_or(0, |entry| entry.word)
    }

    pub fn under_way(&self) -> Option<Command> {
        self.face.command
    }

    /// Enters one accepted scan.
    pub fn scan(&mut self, word: u32, period: u32) {
        let change = Change { now: Input::spell(word), before: Input::spell(self.previous_word()) };
        let this = self.history.len() + 1;
        self.clock.push(self.clock[this - 1] + u64::from(period));
        let settings = self.settings;

        begin(&mut self.face, &change.now);
        let reading = read_switches(&mut self.face, &settings, &change.now);
        let time_is_up = self.time(self.issued_in, this) >= u64::from(settings.wait);
        if let Some((_, end)) = end_command(&mut self.face, reading, time_is_up) {
            self.chains.last_mut().expect("a command under way has its chain").ended = Some((this, end));
        }
        form_flags(&mut self.face, &settings, &change.now, reading);
        change_mode(&mut self.face, &settings, &change);
        let taken = acknowledge(&mut self.face, &settings, &change);
        let issued = choose(&self.face, &settings, &change, taken, &mut Trace::default());
        if let Some(command) = issued {
            match self.chains.last_mut().filter(|_| self.face.command.is_some()) {
                Some(chain) => chain.commands += 1,
                None => self.chains.push(Chain { first: this, commands: 1, ended: None }),
            }
            enter(&mut self.face, &settings, command);
            self.issued_in = this;
        }
        let Face { position, end, .. } = self.face;
        self.history.push(Entry { word, period, reading, position, issued, end });
    }

    /// Whether a record has what the book has.
    pub fn agrees_with(&self, record: &Record) -> bool {
        let mut copy = *record;
        self.face.write_to(&mut copy);
        copy.previous = self.previous_word();
        copy == *record
    }

    /// The bound on every chain so far, rule 6.4: if the periods after the scan
    /// that issued it reach 7 × (W + L), L the longest of them, its last command
    /// has ended within that time, confirmed or overdue.
    pub fn bound_holds(&self) -> bool {
        self.chains.iter().all(|chain| {
            let later = &self.history[chain.first..];
            let Some(longest) = later.iter().map(|entry| u64::from(entry.period)).max() else {
                return true;
            };
            let bound = 7 * (u64::from(self.settings.wait) + longest);
            if self.time(chain.first, self.history.len()) < bound {
                return true;
            }
            match chain.ended {
                Some((scan, End::Confirmed | End::Overdue)) => self.time(chain.first, scan) <= bound,
                _ => false,
            }
        })
    }
}
