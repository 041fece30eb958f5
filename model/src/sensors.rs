//! The sensor block, rules 11.1 to 11.8: three readings in, one value or none
//! and five flags out.
//!
//! A call is first found to be a case of the table in rule 11.7, with the
//! sensors its row speaks of; only then is the row filled in.

/// What the block is given besides the option word (rule 11.1), in the order
/// of the sensors' numbers.
#[derive(Clone, Copy, Debug)]
pub struct Sensors {
    pub readings: [f32; 3],
    pub marked: [bool; 3],
    pub limit: f32,
}

/// What the block answers (rule 11.2), the flags from Y1 to Y5.
#[derive(Clone, Copy, Debug)]
pub struct Answer {
    pub value: Option<f32>,
    pub flags: [bool; 5],
}

/// The rows of the table in rule 11.7, and the refusal.
#[derive(Clone, Copy, Debug, PartialEq, Eq)]
pub enum Row {
    BothPass,
    OneFails,
    BothFail,
    Two,
    One,
    None,
    Refused,
}

/// The refusal of rule 11.3.
const REFUSAL: u32 = 11;

/// No reading beyond it is trusted, on either side of 0 (rule 11.4).
const MOST: f32 = 1_000_000.0;

/// The value and the flags, or the number of the refusal.
pub fn answer(sensors: &Sensors, options: u32) -> Result<Answer, u32> {
    let options = Options::of(options);
    match case(sensors) {
        Case::Refused => Err(REFUSAL),
        Case::BothPass { all, middle } => {
            let value = if options.mean { mean_of_three(all) } else { middle.reading };
            Ok(Answer::new(Some(value), &[]))
        }
        Case::OneFails { outer, others } => {
            Ok(Answer::new(Some(mean_of_two(others)), &[Flag::Sensor(outer.number)]))
        }
        Case::BothFail { middle, outer: [least, greatest] } => {
            let value = if options.unsure_is_none { None } else { Some(middle.reading) };
            let of_outer = [Flag::Mismatch, Flag::Sensor(least.number), Flag::Sensor(greatest.number)];
            let flags = if options.outer_unflagged { &[Flag::Mismatch][..] } else { &of_outer[..] };
            Ok(Answer::new(value, flags))
        }
        Case::Two { lower, higher, fails } => {
            let value = if options.mean || options.mean_of_two {
                mean_of_two([lower, higher])
            } else if options.lower_of_two {
                lower.reading
            } else {
                higher.reading
            };
            let flags = if fails { &[Flag::Mismatch][..] } else { &[] };
            Ok(Answer::new(Some(value), flags))
        }
        Case::One(only) => {
            let value = if options.unsure_is_none { None } else { Some(only.reading) };
            Ok(Answer::new(value, &[Flag::Error]))
        }
        Case::None => Ok(Answer::new(None, &[Flag::Error])),
    }
}

/// The row of the table that a call falls in. The options have no part in it.
pub fn row(sensors: &Sensors) -> Row {
    match case(sensors) {
        Case::BothPass { .. } => Row::BothPass,
        Case::OneFails { .. } => Row::OneFails,
        Case::BothFail { .. } => Row::BothFail,
        Case::Two { .. } => Row::Two,
        Case::One(_) => Row::One,
        Case::None => Row::None,
        Case::Refused => Row::Refused,
    }
}

impl Answer {
    /// Every flag that is not named is 0 (rule 11.2).
    fn new(value: Option<f32>, named: &[Flag]) -> Answer {
        let mut flags = [false; 5];
        for flag in named {
            flags[flag.place()] = true;
        }
        Answer { value, flags }
    }
}

/// A flag, a sensor's by the sensor's number (rule 11.2).
enum Flag {
    Error,
    Mismatch,
    Sensor(usize),
}

impl Flag {
    fn place(&self) -> usize {
        match self {
            Flag::Error => 0,
            Flag::Mismatch => 1,
            Flag::Sensor(number) => 1 + number,
        }
    }
}

/// The five bits of the option word that count (rule 11.1).
struct Options {
    /// Bit 0: no sensor is flagged where both differences fail.
    outer_unflagged: bool,
    /// Bit 5: the mean, of three whose differences pass or of two.
    mean: bool,
    /// Bit 6: the lower-numbered of two.
    lower_of_two: bool,
    /// Bit 7: no value where both differences fail or one sensor alone is trusted.
    unsure_is_none: bool,
    /// Bit 8: the mean of two.
    mean_of_two: bool,
}

impl Options {
    fn of(word: u32) -> Options {
        let bit = |place: u32| word >> place & 1 == 1;
        Options {
            outer_unflagged: bit(0),
            mean: bit(5),
            lower_of_two: bit(6),
            unsure_is_none: bit(7),
            mean_of_two: bit(8),
        }
    }
}

/// A trusted sensor.
#[derive(Clone, Copy)]
struct Sensor {
    /// 1 to 3.
    number: usize,
    reading: f32,
}

/// A row of the table in rule 11.7 with the sensors that it speaks of.
enum Case {
    /// All three by number, and the middle one.
    BothPass {
        all: [Sensor; 3],
        middle: Sensor,
    },
    /// The outer sensor of the difference that fails, and the two others.
    OneFails {
        outer: Sensor,
        others: [Sensor; 2],
    },
    BothFail {
        middle: Sensor,
        outer: [Sensor; 2],
    },
    /// The lower- and the higher-numbered of two, and whether their difference fails.
    Two {
        lower: Sensor,
        higher: Sensor,
        fails: bool,
    },
    One(Sensor),
    None,
    Refused,
}

fn case(sensors: &Sensors) -> Case {
    if is_refused(sensors.limit) {
        return Case::Refused;
    }
    let fails = |difference: f32| difference > sensors.limit;
    match [1, 2, 3].map(|number| trusted(sensors, number)) {
        [Some(first), Some(second), Some(third)] => {
            let all = [first, second, third];
            let [least, middle, greatest] = in_order(all);
            let above = fails(greatest.reading - middle.reading);
            let below = fails(middle.reading - least.reading);
            match (above, below) {
                (false, false) => Case::BothPass { all, middle },
                (true, false) => Case::OneFails { outer: greatest, others: [least, middle] },
                (false, true) => Case::OneFails { outer: least, others: [middle, greatest] },
                (true, true) => Case::BothFail { middle, outer: [least, greatest] },
            }
        }
        [Some(lower), Some(higher), None]
        | [Some(lower), None, Some(higher)]
        | [None, Some(lower), Some(higher)] => {
            let [smaller, greater] = in_order([lower, higher]);
            Case::Two { lower, higher, fails: fails(greater.reading - smaller.reading) }
        }
        [Some(only), None, None] | [None, Some(only), None] | [None, None, Some(only)] => Case::One(only),
        [None, None, None] => Case::None,
    }
}

/// Rule 11.3. The limit -0 is not below 0.
fn is_refused(limit: f32) -> bool {
    limit < 0.0 || !limit.is_finite()
}

/// The sensor of that number, if it is trusted (rule 11.4).
fn trusted(sensors: &Sensors, number: usize) -> Option<Sensor> {
    let reading = sensors.readings[number - 1];
    // A NaN and the infinities lie outside too.
    let lies_within = (-MOST..=MOST).contains(&reading);
    (!sensors.marked[number - 1] && lies_within).then_some(Sensor { number, reading })
}

/// Least first (rule 11.6).
fn in_order<const COUNT: usize>(mut sensors: [Sensor; COUNT]) -> [Sensor; COUNT] {
    sensors.sort_unstable_by(|one, other| {
        let readings = one.reading.partial_cmp(&other.reading);
        readings.expect("trusted readings are numbers").then(one.number.cmp(&other.number))
    });
    sensors
}

/// The mean of rule 11.5. The order of the two makes no difference.
fn mean_of_two([one, other]: [Sensor; 2]) -> f32 {
    (one.reading + other.reading) / 2.0
}

/// The mean of rule 11.5, of all three by their numbers.
fn mean_of_three([first, second, third]: [Sensor; 3]) -> f32 {
    (first.reading + second.reading + third.reading) / 3.0
}
