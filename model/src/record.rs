//! A motor's record (rule 2.1), every field a plain number, so that
//! any content can be written down, in range or not.

/// Settings and state of one motor.
#[derive(Clone, Copy, Debug, PartialEq, Eq)]
pub struct Record {
    pub ops_1: u32,
    pub ops_2: u32,
    /// Monitoring time W.
    pub wait: u32,
    /// Pulse time U.
    pub pulse: u32,
    /// 0 Repair, 1 Reserve, 2 Work.
    pub mode: u32,
    /// 0 unsure, 1 Off, 2 On.
    pub last_sure: u32,
    /// 0 unsure, 1 Off, 2 On.
    pub position: u32,
    /// 0 or the command under way, 1 to 7.
    pub command: u32,
    /// Time sum of the command.
    pub sum: u32,
    /// 0 none, 1 confirmed, 2 displaced, 3 overdue.
    pub end: u32,
    /// 0 none, 1 On, 2 Off.
    pub output: u32,
    /// Time sum of the pulse.
    pub pulse_sum: u32,
    pub flags: u32,
    /// Previous input word.
    pub previous: u32,
}

/// Greatest OPS_1, OPS_2, W and U, in the order of an M line.
pub const SETTING_LIMITS: [u32; 4] = [65_535, 31, 600_000, 600_000];

impl Record {
    /// A fresh record (rule 2.3): Work, and nothing else in it.
    pub fn fresh(ops_1: u32, ops_2: u32, wait: u32, pulse: u32) -> Record {
        Record {
            ops_1,
            ops_2,
            wait,
            pulse,
            mode: 2,
            last_sure: 0,
            position: 0,
            command: 0,
            sum: 0,
            end: 0,
            output: 0,
            pulse_sum: 0,
            flags: 0,
            previous: 0,
        }
    }

    /// Whether every field, the settings included, is in its range.
    pub fn in_range(&self) -> bool {
        let settings = [self.ops_1, self.ops_2, self.wait, self.pulse];
        settings.iter().zip(SETTING_LIMITS).all(|(value, limit)| *value <= limit)
            && self.mode <= 2
            && self.last_sure <= 2
            && self.position <= 2
            && self.command <= 7
            && self.sum <= 599_999
            && self.end <= 3
            && self.output <= 2
            && self.pulse_sum <= 599_999
            && self.flags < 32_768
            && self.previous < 131_072
    }
}
