//! The ten steps of one scan, each a function of its own, in named values.
//!
//! Words and option words are spelled out into named yes-or-no values first
//! and flags are kept one by one, so that each step reads like its sentence.

use crate::record::Record;

/// A direction of switching, also a sure position.
#[derive(Clone, Copy, Debug, PartialEq, Eq)]
pub enum Way {
    Off,
    On,
}

/// What the switches read. A bit of 1 is a closed switch.
#[derive(Clone, Copy, Debug, PartialEq, Eq)]
pub enum Reading {
    Off,
    On,
    /// Unsure, as after a broken wire.
    BothOpen,
    /// Unsure, as after a short.
    BothClosed,
}

impl Reading {
    /// The position read, nothing if it is unsure.
    pub fn sure(self) -> Option<Way> {
        match self {
            Reading::Off => Some(Way::Off),
            Reading::On => Some(Way::On),
            Reading::BothOpen | Reading::BothClosed => None,
        }
    }
}

/// The seven switching commands, strongest first.
#[derive(Clone, Copy, Debug, PartialEq, Eq, PartialOrd, Ord)]
pub enum Command {
    SmaOff,
    LzOff,
    LzOn,
    MuOff,
    MuOn,
    KoOff,
    KoOn,
}

use Command::*;

impl Command {
    pub const STRONGEST_FIRST: [Command; 7] = [SmaOff, LzOff, LzOn, MuOff, MuOn, KoOff, KoOn];

    /// Its number, 1 to 7 (rule 1.7).
    pub fn number(self) -> u32 {
        match self {
            SmaOff => 1,
            LzOff => 2,
            LzOn => 3,
            MuOff => 4,
            MuOn => 5,
            KoOff => 6,
            KoOn => 7,
        }
    }

    pub fn way(self) -> Way {
        match self {
            LzOn | MuOn | KoOn => Way::On,
            SmaOff | LzOff | MuOff | KoOff => Way::Off,
        }
    }

    fn is_mu(self) -> bool {
        matches!(self, MuOff | MuOn)
    }

    fn is_ko(self) -> bool {
        matches!(self, KoOff | KoOn)
    }

    fn from_number(number: u32) -> Option<Command> {
        Command::STRONGEST_FIRST.into_iter().find(|c| c.number() == number)
    }
}

#[derive(Clone, Copy, Debug, PartialEq, Eq)]
pub enum Mode {
    Repair,
    Reserve,
    Work,
}

#[derive(Clone, Copy, Debug, PartialEq, Eq)]
pub enum End {
    Confirmed,
    Displaced,
    Overdue,
}

#[derive(Clone, Copy, Debug, PartialEq, Eq)]
pub enum Flag {
    NoSupply,
    SwitchFault,
    UnsanctionedOn,
    UnsanctionedOff,
    OnByLz,
    OffByLz,
    OffBySma,
    Late(Command),
    /// Stands only together with `SwitchFault`.
    BothClosed,
}

impl Flag {
    fn place(self) -> usize {
        match self {
            Flag::NoSupply => 0,
            Flag::SwitchFault => 1,
            Flag::UnsanctionedOn => 2,
            Flag::UnsanctionedOff => 3,
            Flag::OnByLz => 4,
            Flag::OffByLz => 5,
            Flag::OffBySma => 6,
            Flag::Late(command) => 6 + command.number() as usize,
            Flag::BothClosed => 14,
        }
    }
}

/// The fifteen flags.
#[derive(Clone, Copy, Debug, PartialEq, Eq, Default)]
pub struct Flags([bool; 15]);

impl Flags {
    pub fn has(&self, flag: Flag) -> bool {
        self.0[flag.place()]
    }

    fn set(&mut self, flag: Flag) {
        self.put(flag, true);
    }

    fn clear(&mut self, flag: Flag) {
        self.put(flag, false);
    }

    fn put(&mut self, flag: Flag, value: bool) {
        self.0[flag.place()] = value;
    }

    pub fn number(&self) -> u32 {
        self.0.iter().rev().fold(0, |all, flag| 2 * all + u32::from(*flag))
    }

    fn from_number(mut number: u32) -> Flags {
        let mut flags = Flags::default();
        for flag in &mut flags.0 {
            *flag = number % 2 == 1;
            number /= 2;
        }
        flags
    }
}

/// Takes the binary places of a number one after another, lowest first.
struct Places(u32);

impl Places {
    fn next(&mut self) -> bool {
        let place = self.0 % 2 == 1;
        self.0 /= 2;
        place
    }
}

/// An input word, spelled out. Also used for what has risen.
#[derive(Clone, Copy, Debug, PartialEq, Eq)]
pub struct Input {
    pub sma: bool,
    pub local: bool,
    pub mu_on: bool,
    pub mu_off: bool,
    pub on_switch: bool,
    pub off_switch: bool,
    pub no_supply: bool,
    pub lz_on: bool,
    pub lz_off: bool,
    pub repair: bool,
    pub reserve: bool,
    pub work: bool,
    pub ko_on: bool,
    pub ko_off: bool,
    pub forbid_on: bool,
    pub forbid_off: bool,
    pub reset: bool,
}

impl Input {
    pub fn spell(word: u32) -> Input {
        let mut bits = Places(word);
        // Fields are evaluated in the order written, which is bit order.
        Input {
            sma: bits.next(),
            local: bits.next(),
            mu_on: bits.next(),
            mu_off: bits.next(),
            on_switch: bits.next(),
            off_switch: bits.next(),
            no_supply: bits.next(),
            lz_on: bits.next(),
            lz_off: bits.next(),
            repair: bits.next(),
            reserve: bits.next(),
            work: bits.next(),
            ko_on: bits.next(),
            ko_off: bits.next(),
            forbid_on: bits.next(),
            forbid_off: bits.next(),
            reset: bits.next(),
        }
    }

    /// Whether the bit of this command is 1.
    pub fn asks(&self, command: Command) -> bool {
        match command {
            SmaOff => self.sma,
            LzOff => self.lz_off,
            LzOn => self.lz_on,
            MuOff => self.mu_off,
            MuOn => self.mu_on,
            KoOff => self.ko_off,
            KoOn => self.ko_on,
        }
    }
}

/// Two words next to each other.
#[derive(Clone, Copy, Debug)]
pub struct Change {
    pub now: Input,
    pub before: Input,
}

impl Change {
    /// Rising (rule 1.6).
    fn rose(&self, bit: impl Fn(&Input) -> bool) -> bool {
        bit(&self.now) && !bit(&self.before)
    }

    fn command_rose(&self, command: Command) -> bool {
        self.rose(|input| input.asks(command))
    }
}

/// The settings, spelled out.
#[derive(Clone, Copy, Debug)]
pub struct Settings {
    /// OPS_1 bit 0.
    two_switches: bool,
    /// Bit 1.
    supply_input: bool,
    /// Bit 2.
    local_through_block: bool,
    /// Bit 4.
    forbid_off_bars_all: bool,
    /// Bit 5.
    forbid_on_bars_all: bool,
    /// Bit 6.
    two_outputs: bool,
    /// Bit 7.
    confirm_drops_pulse: bool,
    /// Bits 8 to 11.
    lz_on_to_work: bool,
    lz_off_to_work: bool,
    ko_on_to_work: bool,
    ko_off_to_work: bool,
    /// Bit 12.
    sma_has_output: bool,
    /// Bits 13 and 14.
    reserve_with_fault: bool,
    reserve_without_supply: bool,
    /// Bit 15.
    ko_off_acknowledges: bool,
    /// OPS_2 bit 0.
    ko_on_acknowledges: bool,
    /// Bit 1.
    always_form: bool,
    /// Bits 2 to 4.
    pretend: bool,
    pretend_fixed: bool,
    pretend_on: bool,
    pub wait: u32,
    pub pulse: u32,
}

impl Settings {
    pub fn spell(ops_1: u32, ops_2: u32, wait: u32, pulse: u32) -> Settings {
        let mut one = Places(ops_1);
        let mut two = Places(ops_2);
        let two_switches = one.next();
        let supply_input = one.next();
        let local_through_block = one.next();
        let _bit_3_means_nothing = one.next();
        Settings {
            two_switches,
            supply_input,
            local_through_block,
            forbid_off_bars_all: one.next(),
            forbid_on_bars_all: one.next(),
            two_outputs: one.next(),
            confirm_drops_pulse: one.next(),
            lz_on_to_work: one.next(),
            lz_off_to_work: one.next(),
            ko_on_to_work: one.next(),
            ko_off_to_work: one.next(),
            sma_has_output: one.next(),
            reserve_with_fault: one.next(),
            reserve_without_supply: one.next(),
            ko_off_acknowledges: one.next(),
            ko_on_acknowledges: two.next(),
            always_form: two.next(),
            pretend: two.next(),
            pretend_fixed: two.next(),
            pretend_on: two.next(),
            wait,
            pulse,
        }
    }

    /// Whether an output of these settings is a pulse.
    fn pulses(&self) -> bool {
        self.two_outputs && self.pulse > 0
    }
}

/// What the book of commands holds besides command and previous word, and what
/// steps 1, 2 and 5 to 8 work on.
#[derive(Clone, Copy, Debug, PartialEq, Eq)]
pub struct Face {
    pub mode: Mode,
    pub last_sure: Option<Way>,
    pub position: Option<Way>,
    pub command: Option<Command>,
    pub end: Option<End>,
    pub flags: Flags,
}

impl Face {
    pub fn fresh() -> Face {
        Face {
            mode: Mode::Work,
            last_sure: None,
            position: None,
            command: None,
            end: None,
            flags: Flags::default(),
        }
    }
}

/// Output and sums, which the book does not hold.
#[derive(Clone, Copy, Debug)]
struct Drive {
    sum: u32,
    output: Option<Way>,
    pulse_sum: u32,
}

impl Drive {
    fn running_pulse(&self, settings: &Settings) -> bool {
        self.output.is_some() && settings.pulses()
    }

    fn drop_output(&mut self) {
        self.output = None;
        self.pulse_sum = 0;
    }
}

/// Why a pulse dropped in step 4.
#[derive(Clone, Copy, Debug, PartialEq, Eq)]
pub enum Cause {
    Time,
    Overdue,
    Confirmed,
}

/// A sum that step 3 added the period to.
#[derive(Clone, Copy, Debug)]
pub struct Sum {
    pub before: u32,
    pub after: u32,
    /// W or U.
    pub limit: u32,
}

/// What happened in one scan of one motor; for counting only.
#[derive(Clone, Copy, Debug, Default)]
pub struct Trace {
    pub issued: Option<Command>,
    pub ended: Option<(Command, End)>,
    /// Mode set by an operator's key, when it differs from the one before.
    pub mode_by_key: Option<Mode>,
    /// Reserve turned to Work by a command.
    pub work_by_command: bool,
    pub acknowledged_off: bool,
    pub acknowledged_on: bool,
    /// Nothing before step 2.
    pub reading: Option<Reading>,
    /// OPS_2 of a motor whose switches are both read.
    pub both_read: Option<u32>,
    /// The last sure position before this scan.
    pub last_sure: Option<Way>,
    pub pretended: bool,
    pub unsanctioned: bool,
    pub raised_pulse: bool,
    pub raised_held: bool,
    pub dropped: Option<Cause>,
    /// Risen commands barred by mode, local mode, a forbid or no supply.
    pub barred: u32,
    /// Candidates lost to a stronger one.
    pub lost: u32,
    /// A chosen command that was not issued.
    pub idle_choice: bool,
    pub local: bool,
    pub reset: bool,
    pub no_supply: bool,
    pub switch_fault: bool,
    /// A command is under way as step 5 forms the flags.
    pub under_way: bool,
    /// Of the command under way as the scan began.
    pub time_sum: Option<Sum>,
    /// Of the pulse that was running then.
    pub pulse_sum: Option<Sum>,
}

/// Step 1.
pub fn begin(face: &mut Face, now: &Input) {
    face.end = None;
    if now.reset {
        // Flags 2 to 13: all but the three that step 5 forms.
        let kept = face.flags;
        face.flags = Flags::default();
        for flag in [Flag::NoSupply, Flag::SwitchFault, Flag::BothClosed] {
            face.flags.put(flag, kept.has(flag));
        }
    }
}

/// Step 2. Hands back the reading; the two bits are looked at here alone.
pub fn read_switches(face: &mut Face, settings: &Settings, now: &Input) -> Reading {
    let reading = match (settings.two_switches, now.on_switch, now.off_switch) {
        (false, true, _) => Reading::On,
        (false, false, _) => Reading::Off,
        (true, true, false) => Reading::On,
        (true, false, true) => Reading::Off,
        (true, false, false) => Reading::BothOpen,
        (true, true, true) => Reading::BothClosed,
    };
    if face.command.is_none() {
        match (face.last_sure, reading) {
            (Some(Way::Off), Reading::On) => face.flags.set(Flag::UnsanctionedOn),
            (Some(Way::On), Reading::Off) => face.flags.set(Flag::UnsanctionedOff),
            _ => {}
        }
    }
    let sure = reading.sure();
    if sure.is_some() {
        face.last_sure = sure;
        face.position = sure;
    } else {
        face.position = match (settings.pretend, settings.pretend_fixed, settings.pretend_on) {
            (false, _, _) => None,
            (true, false, _) => face.last_sure,
            (true, true, false) => Some(Way::Off),
            (true, true, true) => Some(Way::On),
        };
    }
    reading
}

/// The first half of step 4, for a given sum of the command under way.
pub fn end_command(face: &mut Face, reading: Reading, time_is_up: bool) -> Option<(Command, End)> {
    let command = face.command?;
    let end = if reading.sure() == Some(command.way()) {
        End::Confirmed
    } else if time_is_up {
        face.flags.set(Flag::Late(command));
        End::Overdue
    } else {
        return None;
    };
    face.command = None;
    face.end = Some(end);
    Some((command, end))
}

/// Step 5, with the flag that tells both closed from both open.
pub fn form_flags(face: &mut Face, settings: &Settings, now: &Input, reading: Reading) {
    let formed = settings.always_form || !now.local || settings.local_through_block;
    let fault = formed && reading.sure().is_none() && face.command.is_none();
    face.flags.put(Flag::NoSupply, formed && now.no_supply && settings.supply_input);
    face.flags.put(Flag::SwitchFault, fault);
    face.flags.put(Flag::BothClosed, fault && reading == Reading::BothClosed);
}

/// Step 6.
pub fn change_mode(face: &mut Face, settings: &Settings, change: &Change) {
    let keys = [
        (Mode::Repair, change.rose(|i| i.repair)),
        (Mode::Reserve, change.rose(|i| i.reserve)),
        (Mode::Work, change.rose(|i| i.work)),
    ];
    let mut pressed = keys.iter().filter(|(_, rose)| *rose);
    let (Some((wanted, _)), None) = (pressed.next(), pressed.next()) else {
        return;
    };
    let quiet = face.command.is_none() && !Command::STRONGEST_FIRST.iter().any(|c| change.command_rose(*c));
    if change.now.local || !quiet {
        return;
    }
    let off = face.position == Some(Way::Off);
    let fault_allows = !face.flags.has(Flag::SwitchFault) || settings.reserve_with_fault;
    let supply_allows = !face.flags.has(Flag::NoSupply) || settings.reserve_without_supply;
    let allowed = match wanted {
        Mode::Repair => off,
        Mode::Reserve => off && fault_allows && supply_allows,
        Mode::Work => true,
    };
    if allowed {
        face.mode = *wanted;
    }
}

/// The rises that step 7 took for acknowledging.
#[derive(Clone, Copy, Debug, Default)]
pub struct Taken {
    pub ko_off: bool,
    pub ko_on: bool,
}

/// Step 7.
pub fn acknowledge(face: &mut Face, settings: &Settings, change: &Change) -> Taken {
    let mut taken = Taken::default();
    if change.now.local {
        return taken;
    }
    let off_marked = face.flags.has(Flag::OffByLz) || face.flags.has(Flag::OffBySma);
    if change.command_rose(KoOff) && settings.ko_off_acknowledges && off_marked {
        face.flags.clear(Flag::OffByLz);
        face.flags.clear(Flag::OffBySma);
        taken.ko_off = true;
    }
    if change.command_rose(KoOn) && settings.ko_on_acknowledges && face.flags.has(Flag::OnByLz) {
        face.flags.clear(Flag::OnByLz);
        taken.ko_on = true;
    }
    taken
}

/// Whether step 8 keeps a risen command from being a candidate.
fn is_barred(command: Command, face: &Face, settings: &Settings, now: &Input) -> bool {
    let by_mode = face.mode == Mode::Repair;
    let by_place = if now.local { command.is_ko() } else { command.is_mu() };
    let by_forbid = match command {
        SmaOff => false,
        KoOn => now.forbid_on,
        KoOff => now.forbid_off,
        LzOn | MuOn => now.forbid_on && settings.forbid_on_bars_all,
        LzOff | MuOff => now.forbid_off && settings.forbid_off_bars_all,
    };
    let by_supply = command.way() == Way::On && face.flags.has(Flag::NoSupply);
    by_mode || by_place || by_forbid || by_supply
}

/// Step 8: the command to be issued, if any.
pub fn choose(
    face: &Face,
    settings: &Settings,
    change: &Change,
    taken: Taken,
    trace: &mut Trace,
) -> Option<Command> {
    let mut candidates = Vec::with_capacity(7);
    for command in Command::STRONGEST_FIRST {
        let spent = (command == KoOff && taken.ko_off) || (command == KoOn && taken.ko_on);
        if !change.command_rose(command) || spent {
            continue;
        }
        if is_barred(command, face, settings, &change.now) {
            trace.barred += 1;
        } else {
            candidates.push(command);
        }
    }
    let chosen = candidates.iter().copied().min_by_key(|c| c.number())?;
    trace.lost = candidates.len() as u32 - 1;
    let issued = match face.command {
        None => face.position != Some(chosen.way()),
        Some(running) => {
            let stronger = chosen.number() < running.number();
            stronger && (chosen.way() != running.way() || chosen == SmaOff)
        }
    };
    trace.idle_choice = !issued;
    issued.then_some(chosen)
}

/// Step 9 as far as the book goes: command, end, flags and mode.
pub fn enter(face: &mut Face, settings: &Settings, command: Command) {
    if face.command.is_some() {
        face.end = Some(End::Displaced);
    }
    face.command = Some(command);
    match command.way() {
        Way::On => {
            face.flags.clear(Flag::OffByLz);
            face.flags.clear(Flag::OffBySma);
        }
        Way::Off => face.flags.clear(Flag::OnByLz),
    }
    let (mark, to_work) = match command {
        SmaOff => (Some(Flag::OffBySma), false),
        LzOff => (Some(Flag::OffByLz), settings.lz_off_to_work),
        LzOn => (Some(Flag::OnByLz), settings.lz_on_to_work),
        MuOff | MuOn => (None, false),
        KoOff => (None, settings.ko_off_to_work),
        KoOn => (None, settings.ko_on_to_work),
    };
    if let Some(mark) = mark {
        face.flags.set(mark);
    }
    if face.mode == Mode::Reserve && to_work {
        face.mode = Mode::Work;
    }
}

/// Step 9 as far as sums and output go.
fn switch_output(drive: &mut Drive, settings: &Settings, command: Command, trace: &mut Trace) {
    drive.sum = 0;
    let own = command.way();
    if drive.output.is_some_and(|way| way != own) {
        drive.drop_output();
    }
    let silent = (command == SmaOff && !settings.sma_has_output)
        || (command.is_mu() && !settings.local_through_block)
        || (own == Way::Off && !settings.two_outputs);
    if !silent {
        // Held or a pulse, it starts from 0 (rule 3.9).
        drive.output = Some(own);
        drive.pulse_sum = 0;
        trace.raised_pulse = settings.pulses();
        trace.raised_held = !settings.pulses();
    }
}

/// Number of a position.
fn position_number(position: Option<Way>) -> u32 {
    match position {
        None => 0,
        Some(Way::Off) => 1,
        Some(Way::On) => 2,
    }
}

fn position_named(number: u32) -> Option<Way> {
    [None, Some(Way::Off), Some(Way::On)][number as usize]
}

/// Number of an output; it counts the other way round than a position.
fn output_number(output: Option<Way>) -> u32 {
    match output {
        None => 0,
        Some(Way::On) => 1,
        Some(Way::Off) => 2,
    }
}

fn output_named(number: u32) -> Option<Way> {
    [None, Some(Way::On), Some(Way::Off)][number as usize]
}

pub fn mode_number(mode: Mode) -> u32 {
    match mode {
        Mode::Repair => 0,
        Mode::Reserve => 1,
        Mode::Work => 2,
    }
}

pub fn end_number(end: Option<End>) -> u32 {
    match end {
        None => 0,
        Some(End::Confirmed) => 1,
        Some(End::Displaced) => 2,
        Some(End::Overdue) => 3,
    }
}

impl Face {
    /// Writes the book's part of a record.
    pub fn write_to(&self, record: &mut Record) {
        record.mode = mode_number(self.mode);
        record.last_sure = position_number(self.last_sure);
        record.position = position_number(self.position);
        record.command = self.command.map_or(0, Command::number);
        record.end = end_number(self.end);
        record.flags = self.flags.number();
    }

    fn of(record: &Record) -> Face {
        Face {
            mode: [Mode::Repair, Mode::Reserve, Mode::Work][record.mode as usize],
            last_sure: position_named(record.last_sure),
            position: position_named(record.position),
            command: Command::from_number(record.command),
            end: [None, Some(End::Confirmed), Some(End::Displaced), Some(End::Overdue)][record.end as usize],
            flags: Flags::from_number(record.flags),
        }
    }
}

/// Step 3 for one sum.
fn add(sum: &mut u32, period: u32, limit: u32) -> Sum {
    let before = *sum;
    *sum += period;
    Sum { before, after: *sum, limit }
}

/// The ten steps, for a record, word and period in range.
fn ten_steps(record: &mut Record, word: u32, period: u32) -> Trace {
    let settings = Settings::spell(record.ops_1, record.ops_2, record.wait, record.pulse);
    let change = Change { now: Input::spell(word), before: Input::spell(record.previous) };
    let mut face = Face::of(record);
    let mut drive =
        Drive { sum: record.sum, output: output_named(record.output), pulse_sum: record.pulse_sum };
    let mut trace = Trace {
        local: change.now.local,
        reset: change.now.reset,
        both_read: settings.two_switches.then_some(record.ops_2),
        last_sure: face.last_sure,
        ..Trace::default()
    };

    // 1
    begin(&mut face, &change.now);

    // 2
    let marked = [face.flags.has(Flag::UnsanctionedOn), face.flags.has(Flag::UnsanctionedOff)];
    let reading = read_switches(&mut face, &settings, &change.now);
    trace.reading = Some(reading);
    trace.pretended = reading.sure().is_none() && face.position.is_some();
    trace.unsanctioned =
        marked != [face.flags.has(Flag::UnsanctionedOn), face.flags.has(Flag::UnsanctionedOff)];

    // 3
    if face.command.is_some() {
        trace.time_sum = Some(add(&mut drive.sum, period, settings.wait));
    }
    if drive.running_pulse(&settings) {
        trace.pulse_sum = Some(add(&mut drive.pulse_sum, period, settings.pulse));
    }

    // 4
    trace.ended = end_command(&mut face, reading, drive.sum >= settings.wait);
    if trace.ended.is_some() {
        drive.sum = 0;
    }
    if drive.running_pulse(&settings) {
        trace.dropped = match trace.ended {
            _ if drive.pulse_sum >= settings.pulse => Some(Cause::Time),
            Some((command, End::Overdue)) if drive.output == Some(command.way()) => Some(Cause::Overdue),
            Some((_, End::Confirmed)) if settings.confirm_drops_pulse => Some(Cause::Confirmed),
            _ => None,
        };
        if trace.dropped.is_some() {
            drive.drop_output();
        }
    }

    // 5
    form_flags(&mut face, &settings, &change.now, reading);
    trace.no_supply = face.flags.has(Flag::NoSupply);
    trace.switch_fault = face.flags.has(Flag::SwitchFault);
    trace.under_way = face.command.is_some();

    // 6
    let old_mode = face.mode;
    change_mode(&mut face, &settings, &change);
    trace.mode_by_key = (face.mode != old_mode).then_some(face.mode);

    // 7
    let taken = acknowledge(&mut face, &settings, &change);
    trace.acknowledged_off = taken.ko_off;
    trace.acknowledged_on = taken.ko_on;

    // 8 and 9
    if let Some(command) = choose(&face, &settings, &change, taken, &mut trace) {
        let old_mode = face.mode;
        if let Some(running) = face.command {
            trace.ended = Some((running, End::Displaced));
        }
        enter(&mut face, &settings, command);
        switch_output(&mut drive, &settings, command, &mut trace);
        trace.issued = Some(command);
        trace.work_by_command = face.mode != old_mode;
    }

    face.write_to(record);
    record.sum = drive.sum;
    record.output = output_number(drive.output);
    record.pulse_sum = drive.pulse_sum;

    // 10
    record.previous = word;
    trace
}

fn period_in_range(period: u32) -> bool {
    (1..=10_000).contains(&period)
}

fn word_in_range(word: u32) -> bool {
    word <= 131_071
}

/// A scan of a single motor, with any record, word and period. The error is
/// the number of the refusal; the record is then untouched.
pub fn scan_one(record: &mut Record, word: u32, period: u32) -> Result<Trace, u32> {
    if !record.in_range() {
        return Err(6);
    }
    if !period_in_range(period) {
        return Err(2);
    }
    if !word_in_range(word) {
        return Err(3);
    }
    Ok(ten_steps(record, word, period))
}

/// A scan of the whole table; a trace for each motor.
pub fn scan_table(records: &mut [Record], words: &[u32], period: u32) -> Result<Vec<Trace>, u32> {
    if records.len() != words.len() || records.len() > 32 {
        return Err(1);
    }
    if !records.iter().all(Record::in_range) {
        return Err(6);
    }
    if !period_in_range(period) {
        return Err(2);
    }
    if !words.iter().all(|word| word_in_range(*word)) {
        return Err(3);
    }
    Ok(records.iter_mut().zip(words).map(|(record, word)| ten_steps(record, *word, period)).collect())
}
