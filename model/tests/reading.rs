//! Edge cases of the ten steps (rules 3.1 to 3.10), each with what it is about;
//! those of both open and both closed after step 5.

use motor_model::record::Record;
use motor_model::rules::{scan_one, scan_table};

const SMA: u32 = 1;
const LOCAL: u32 = 2;
const MU_ON: u32 = 4;
const MU_OFF: u32 = 8;
const ON: u32 = 16;
const OFF: u32 = 32;
const NO_SUPPLY: u32 = 64;
const LZ_ON: u32 = 128;
const LZ_OFF: u32 = 256;
const REPAIR: u32 = 512;
const RESERVE: u32 = 1024;
const WORK: u32 = 2048;
const KO_ON: u32 = 4096;
const KO_OFF: u32 = 8192;
const FORBID_ON: u32 = 16_384;
const FORBID_OFF: u32 = 32_768;
const RESET: u32 = 65_536;

/// Both closed.
const FLAG_14: u32 = 16_384;

/// Option bits by number.
fn bits(list: &[u32]) -> u32 {
    list.iter().map(|k| 1 << k).sum()
}

fn motor(ops_1: &[u32], ops_2: &[u32], wait: u32, pulse: u32) -> Record {
    Record::fresh(bits(ops_1), bits(ops_2), wait, pulse)
}

/// The usual motor: two switches, two outputs, confirming drops the pulse.
fn usual() -> Record {
    motor(&[0, 6, 7], &[], 500, 300)
}

fn step(record: &mut Record, word: u32, period: u32) -> Record {
    scan_one(record, word, period).expect("accepted");
    *record
}

/// All words at period 100.
fn play(record: &mut Record, words: &[u32]) -> Record {
    for word in words {
        step(record, *word, 100);
    }
    *record
}

// Step 1

/// Step 1 forgets the end of the scan before.
#[test]
fn an_end_lasts_one_scan() {
    let mut m = usual();
    assert_eq!(play(&mut m, &[OFF | KO_ON, ON]).end, 1);
    assert_eq!(play(&mut m, &[ON]).end, 0);
}

/// What Reset clears: not on a rise, but whenever it is 1, and
/// before step 2 sets new ones.
#[test]
fn reset() {
    let mut m = usual();
    assert_eq!(play(&mut m, &[OFF, ON]).flags, 4);
    assert_eq!(play(&mut m, &[OFF | RESET]).flags, 8);
    assert_eq!(play(&mut m, &[OFF | RESET]).flags, 0);
    let mut lent = Record { flags: 32_767, previous: RESET | OFF, ..usual() };
    assert_eq!(play(&mut lent, &[RESET | OFF]).flags, 0);
    // Flags 0, 1 and 14 are not Reset's but are formed anew.
    for flags in [0, 3, FLAG_14 + 3, 32_767] {
        let lent = Record { flags, ..motor(&[0, 1], &[], 0, 0) };
        assert_eq!(play(&mut lent.clone(), &[RESET | NO_SUPPLY]).flags, 3);
        assert_eq!(play(&mut lent.clone(), &[RESET | NO_SUPPLY | ON | OFF]).flags, FLAG_14 + 3);
    }
}

/// Reset comes first, so that nothing is left to acknowledge in step 7.
#[test]
fn reset_before_acknowledging() {
    let mut m = motor(&[0, 6, 15], &[], 500, 300);
    play(&mut m, &[ON, ON | LZ_OFF, OFF, ON]);
    assert_eq!(m.flags, 32 + 4);
    let m = play(&mut m, &[ON | RESET | KO_OFF]);
    assert_eq!((m.command, m.flags), (6, 0));
}

// Step 2

/// One switch: whatever the other does, the reading is sure.
#[test]
fn one_switch() {
    for (word, position) in [(0, 1), (OFF, 1), (ON, 2), (ON | OFF, 2)] {
        let m = play(&mut motor(&[], &[], 0, 0), &[word]);
        assert_eq!((m.position, m.last_sure, m.flags), (position, position, 0));
    }
}

/// A change needs a sure position to come from: the first
/// reading is none, and unsure scans in between do not hide one.
#[test]
fn unsanctioned() {
    assert_eq!(play(&mut usual(), &[ON]).flags, 0);
    assert_eq!(play(&mut usual(), &[OFF, ON | OFF, 0, ON]).flags, 4);
    assert_eq!(play(&mut usual(), &[ON, 0, OFF]).flags, 8);
    assert_eq!(play(&mut usual(), &[ON, 0, ON]).flags, 0);
}

/// The command that counts is the one of the scan's beginning: one that ends in this
/// very scan still counts as under way, one issued in it does not.
#[test]
fn unsanctioned_and_a_command() {
    // Confirmed now.
    assert_eq!(play(&mut usual(), &[OFF | KO_ON, ON]).flags, 0);
    // Overdue now, by a change in the other direction: KO on with On hidden.
    let mut m = motor(&[0, 6], &[], 100, 300);
    play(&mut m, &[ON, 0]);
    let m = play(&mut m, &[KO_ON, OFF]);
    assert_eq!((m.end, m.flags), (3, 8192));
    // Issued now.
    let m = play(&mut usual(), &[OFF, ON | KO_OFF]);
    assert_eq!((m.command, m.flags), (6, 4));
}

/// The positions that OPS_2 pretends, by each setting of its bits 2 to 4.
#[test]
fn pretending() {
    let cases: [(&[u32], u32, u32); 6] =
        [(&[], 0, 0), (&[3, 4], 0, 0), (&[2], 0, 2), (&[2, 4], 0, 2), (&[2, 3], 1, 1), (&[2, 3, 4], 2, 2)];
    for (ops_2, fresh, after_on) in cases {
        let mut m = motor(&[0], ops_2, 0, 0);
        assert_eq!(play(&mut m, &[0]).position, fresh);
        assert_eq!(m.last_sure, 0);
        assert_eq!(play(&mut m, &[ON, ON | OFF]).position, after_on);
        assert_eq!(m.last_sure, 2);
        // Flag 1 goes by the reading, which a pretended position does not cure.
        assert_eq!(m.flags, FLAG_14 + 2);
        assert_eq!(play(&mut m, &[0]).flags, 2);
    }
}

// Steps 3 and 4

/// Time is up at W, and not one before: the scan that issues does not count.
#[test]
fn at_least_w() {
    let mut m = motor(&[0], &[], 500, 0);
    step(&mut m, OFF | KO_ON, 10_000);
    assert_eq!((m.command, m.sum), (7, 0));
    assert_eq!(step(&mut m, OFF, 499).command, 7);
    let m = step(&mut m, OFF, 1);
    assert_eq!((m.command, m.sum, m.end, m.flags), (0, 0, 3, 8192));
}

/// Confirmed goes before overdue.
#[test]
fn confirmed_before_overdue() {
    let mut m = motor(&[0], &[], 0, 0);
    let m = play(&mut m, &[OFF | KO_ON, ON]);
    assert_eq!((m.end, m.flags), (1, 0));
}

/// No sum is left at 600,000: with W and U at their limit both end there.
#[test]
fn longest_times() {
    let mut m = motor(&[0, 6], &[], 600_000, 600_000);
    step(&mut m, OFF | KO_ON, 1);
    for _ in 0..59 {
        step(&mut m, OFF, 10_000);
    }
    step(&mut m, OFF, 9_999);
    assert_eq!((m.sum, m.pulse_sum, m.command, m.output), (599_999, 599_999, 7, 1));
    step(&mut m, OFF, 1);
    assert_eq!((m.sum, m.pulse_sum, m.command, m.output, m.end), (0, 0, 0, 0, 3));
}

/// A pulse that has lasted for U drops, and the command goes on.
#[test]
fn pulse_ends_before_the_command() {
    let mut m = usual();
    play(&mut m, &[OFF | KO_ON, OFF, OFF]);
    assert_eq!((m.output, m.pulse_sum), (1, 200));
    play(&mut m, &[OFF]);
    assert_eq!((m.output, m.pulse_sum, m.command, m.sum), (0, 0, 7, 300));
}

/// A confirmation drops any pulse, by OPS_1 bit 7; without the bit the
/// pulse goes on after the command.
#[test]
fn pulse_and_confirming() {
    let m = play(&mut usual(), &[OFF | KO_ON, ON]);
    assert_eq!((m.command, m.output), (0, 0));
    let mut m = motor(&[0, 6], &[], 500, 300);
    play(&mut m, &[OFF | KO_ON, ON]);
    assert_eq!((m.command, m.output, m.pulse_sum), (0, 1, 100));
    play(&mut m, &[ON, ON]);
    assert_eq!((m.output, m.pulse_sum), (0, 0));
}

/// An overdue command drops a pulse of its own direction.
#[test]
fn pulse_and_overdue() {
    let mut m = motor(&[0, 6], &[], 100, 300);
    let m = play(&mut m, &[OFF | KO_ON, OFF]);
    assert_eq!((m.end, m.output), (3, 0));
    // A lent record whose pulse is not of the command's direction.
    let mut lent = Record { command: 6, output: 1, ..motor(&[0, 6], &[], 100, 300) };
    let lent = play(&mut lent, &[ON]);
    assert_eq!((lent.end, lent.output, lent.pulse_sum), (3, 1, 100));
    // Confirming drops it even so.
    let mut lent = Record { command: 6, output: 1, ..usual() };
    assert_eq!(play(&mut lent, &[OFF]).output, 0);
}

/// A held output has no sum, and nothing in step 4 drops it.
#[test]
fn held_output() {
    for ops_1 in [&[0, 6, 7][..], &[0, 7]] {
        let pulse = if ops_1.len() == 3 { 0 } else { 300 };
        let mut m = motor(ops_1, &[], 200, pulse);
        play(&mut m, &[OFF | KO_ON, OFF, OFF]);
        assert_eq!((m.end, m.output, m.pulse_sum), (3, 1, 0));
        let mut m = motor(ops_1, &[], 200, pulse);
        play(&mut m, &[OFF | KO_ON, ON]);
        assert_eq!((m.end, m.output, m.pulse_sum), (1, 1, 0));
    }
}

// Step 5

/// Where flags of faults are formed: outside local mode, and in it by either of
/// two options.
#[test]
fn forming() {
    let word = LOCAL | NO_SUPPLY;
    assert_eq!(play(&mut motor(&[0, 1], &[], 0, 0), &[word]).flags, 0);
    assert_eq!(play(&mut motor(&[0, 1], &[1], 0, 0), &[word]).flags, 3);
    assert_eq!(play(&mut motor(&[0, 1, 2], &[], 0, 0), &[word]).flags, 3);
    assert_eq!(play(&mut motor(&[0, 1], &[], 0, 0), &[NO_SUPPLY]).flags, 3);
    assert_eq!(play(&mut motor(&[0], &[], 0, 0), &[NO_SUPPLY]).flags, 2);
    // Flags that stood before go as well.
    assert_eq!(play(&mut motor(&[0, 1], &[], 0, 0), &[NO_SUPPLY, word]).flags, 0);
}

/// Flag 1 asks for no command under way: as step 4 leaves it, before
/// step 8 issues one.
#[test]
fn switch_fault_and_commands() {
    let mut m = motor(&[0], &[], 200, 0);
    assert_eq!(play(&mut m, &[OFF | KO_ON, 0]).flags, 0);
    assert_eq!(play(&mut m, &[0]).flags, 8192 + 2);
    let m = play(&mut usual(), &[KO_ON]);
    assert_eq!((m.command, m.flags), (7, 2));
}

// Both open or both closed

/// Flag 14 stands with flag 1 when both switches are closed, never when both
/// are open, and follows each next reading.
#[test]
fn both_open_or_both_closed() {
    let list = [(0, 2), (ON, 0), (OFF, 0), (ON | OFF, FLAG_14 + 2)];
    for (first, flags) in list {
        assert_eq!(play(&mut usual(), &[first]).flags, flags);
        for (second, flags) in list {
            // Flags 2 and 3 tell of a sure change.
            let m = play(&mut usual(), &[first, second, second]);
            assert_eq!(m.flags & !12, flags, "{first} {second}");
        }
    }
}

/// One switch is always sure: the other bit tells nothing.
#[test]
fn one_switch_is_never_both() {
    for flags in [0, 2, FLAG_14, FLAG_14 + 2] {
        for word in [0, ON, OFF, ON | OFF] {
            let mut lent = Record { flags, ..motor(&[6, 7], &[], 500, 300) };
            assert_eq!(play(&mut lent, &[word]).flags, 0);
            assert_eq!(play(&mut lent, &[word | LOCAL]).flags, 0);
        }
    }
}

/// While a command is under way both flags are 0. It is under way from the scan
/// after its issue up to its end, as for flag 1.
#[test]
fn both_closed_and_commands() {
    let closed = ON | OFF;
    let mut m = motor(&[0, 6], &[], 200, 300);
    // Issued in this scan, after step 5.
    play(&mut m, &[closed, closed | KO_ON]);
    assert_eq!((m.command, m.flags), (7, FLAG_14 + 2));
    play(&mut m, &[closed]);
    assert_eq!((m.command, m.flags), (7, 0));
    // Overdue in this scan, before step 5.
    let other = play(&mut m.clone(), &[0]);
    assert_eq!((other.command, other.end, other.flags), (0, 3, 8192 + 2));
    play(&mut m, &[closed]);
    assert_eq!((m.command, m.end, m.flags), (0, 3, FLAG_14 + 8192 + 2));
    // Displacing leaves one under way.
    let m = play(&mut usual(), &[OFF | KO_ON, closed | LZ_OFF, closed]);
    assert_eq!((m.command, m.flags), (2, 32));
    // Both closed confirms neither direction.
    for command in 1..=7 {
        let m = play(&mut Record { command, ..usual() }, &[closed]);
        assert_eq!((m.command, m.sum, m.end, m.flags), (command, 100, 0, 0));
    }
}

/// In local mode flag 14 is formed where flag 1 is, and is otherwise 0, also
/// when it stood before.
#[test]
fn both_closed_in_local_mode() {
    let closed = ON | OFF;
    for (ops_1, ops_2, formed) in [
        (&[0][..], &[][..], false),
        (&[0], &[1], true),
        (&[0, 2], &[], true),
        (&[0, 2], &[1], true),
        (&[0, 1, 3, 4, 5, 6, 7], &[0, 2, 3, 4], false),
    ] {
        let of = |flags| if formed { flags } else { 0 };
        let mut m = motor(ops_1, ops_2, 500, 300);
        assert_eq!(play(&mut m, &[closed | LOCAL]).flags, of(FLAG_14 + 2));
        assert_eq!(play(&mut m, &[LOCAL]).flags, of(2));
        assert_eq!(play(&mut m, &[closed]).flags, FLAG_14 + 2);
        assert_eq!(play(&mut m, &[closed | LOCAL]).flags, of(FLAG_14 + 2));
        assert_eq!(play(&mut m, &[closed]).flags, FLAG_14 + 2);
        assert_eq!(play(&mut m, &[OFF | LOCAL]).flags, 0);
        // Under way, formed or not.
        let mut lent = Record { command: 5, flags: FLAG_14 + 2, ..motor(ops_1, ops_2, 500, 300) };
        assert_eq!(play(&mut lent, &[closed | LOCAL]).flags, 0);
    }
}

/// A lent record may hold flag 14 beside anything, even without flag 1; the
/// scan forms it anew in every case.
#[test]
fn lent_with_flag_14() {
    let choices = |list: &[u32]| -> Vec<u32> {
        (0..1u32 << list.len())
            .map(|take| (0..list.len()).filter(|k| take >> k & 1 == 1).map(|k| list[k]).sum())
            .collect()
    };
    let mut both_closed = 0;
    for word in choices(&[ON, OFF, LOCAL, NO_SUPPLY, RESET]) {
        for ops_1 in choices(&[1, 2, 4]) {
            for ops_2 in choices(&[2, 4, 8, 16]) {
                for (flags, command) in
                    [0, 2, FLAG_14, FLAG_14 + 2, 32_767].into_iter().flat_map(|f| [(f, 0), (f, 7)])
                {
                    let lent = Record { flags, command, ..Record::fresh(ops_1, ops_2, 500, 0) };
                    let m = play(&mut lent.clone(), &[word]);
                    let formed = ops_2 & 2 != 0 || ops_1 & 4 != 0 || word & LOCAL == 0;
                    let wanted = word & (ON | OFF) == ON | OFF && ops_1 & 1 == 1 && formed && command == 0;
                    assert_eq!(m.flags & FLAG_14 != 0, wanted, "{lent:?} {word}");
                    assert!(!wanted || m.flags & 2 != 0);
                    both_closed += u32::from(wanted);
                }
            }
        }
    }
    // A quarter of the words, in half the wirings, idle, formed in seven of eight.
    assert_eq!(both_closed, 32 * 8 * 16 * 10 / 4 / 2 / 2 * 7 / 8);
}

/// Nothing else goes by flag 14: keys and commands take both closed as they
/// take both open, and a lent flag 14 alone bars nothing.
#[test]
fn both_closed_bars_no_more_than_both_open() {
    for switches in [0, ON | OFF] {
        // Pretending Off: Reserve goes by flag 1 and OPS_1 bit 13.
        assert_eq!(play(&mut motor(&[0], &[2, 3], 0, 0), &[switches | RESERVE]).mode, 2);
        assert_eq!(play(&mut motor(&[0, 13], &[2, 3], 0, 0), &[switches | RESERVE]).mode, 1);
        assert_eq!(play(&mut motor(&[0], &[2, 3], 0, 0), &[switches | REPAIR]).mode, 0);
        for (word, number) in [(KO_ON, 7), (KO_OFF, 6), (LZ_ON, 3), (LZ_OFF, 2), (SMA, 1)] {
            assert_eq!(play(&mut usual(), &[switches | word]).command, number);
        }
    }
    let mut lent = Record { flags: FLAG_14, ..usual() };
    assert_eq!(play(&mut lent, &[OFF | RESERVE]).mode, 1);
}

/// A refused scan leaves the record, flag 14 included.
#[test]
fn refused_with_both_closed() {
    for flags in [0, 2, FLAG_14, FLAG_14 + 2] {
        let lent = Record { flags, ..usual() };
        for (word, period) in [(ON | OFF, 0), (OFF, 0), (ON | OFF, 10_001), (131_072 + 48, 100)] {
            let mut one = lent;
            assert!(scan_one(&mut one, word, period).is_err());
            assert_eq!(one, lent);
            let mut table = [lent, lent];
            assert!(scan_table(&mut table, &[ON | OFF, word], period).is_err());
            assert_eq!(table, [lent, lent]);
        }
    }
}

// Step 6

/// One mode key has to rise alone: one held down does not count.
#[test]
fn one_key() {
    assert_eq!(play(&mut usual(), &[OFF | RESERVE]).mode, 1);
    assert_eq!(play(&mut usual(), &[OFF | REPAIR]).mode, 0);
    assert_eq!(play(&mut usual(), &[OFF | REPAIR | RESERVE]).mode, 2);
    let mut m = usual();
    play(&mut m, &[OFF | REPAIR | RESERVE, OFF | REPAIR | RESERVE]);
    assert_eq!(m.mode, 2);
    assert_eq!(play(&mut m, &[OFF | REPAIR, OFF | REPAIR | RESERVE]).mode, 1);
}

/// Local mode, a command under way and a risen bit of any command each keep the
/// mode, whether or not that rise could be a command.
#[test]
fn quiet_keys() {
    assert_eq!(play(&mut usual(), &[OFF | RESERVE | LOCAL]).mode, 2);
    for command in [SMA, MU_ON, MU_OFF, LZ_ON, LZ_OFF, KO_ON, KO_OFF] {
        assert_eq!(play(&mut usual(), &[OFF | RESERVE | command]).mode, 2);
        // Held, it is no rise; those that switch on are confirmed meanwhile.
        let mut m = motor(&[0], &[], 0, 0);
        assert_eq!(play(&mut m, &[OFF | command, OFF | command, OFF | command | RESERVE]).mode, 1);
    }
    // Under way from the scan before.
    let mut m = usual();
    assert_eq!(play(&mut m, &[OFF | KO_ON, OFF | RESERVE]).mode, 2);
    // Ended in this scan.
    let mut m = motor(&[0], &[], 100, 0);
    let m = play(&mut m, &[OFF | KO_ON, OFF | RESERVE]);
    assert_eq!((m.end, m.mode), (3, 1));
}

/// Repair and Reserve are for position Off, which OPS_2 may pretend. Work needs
/// none.
#[test]
fn keys_and_position() {
    for (word, reserve, work) in [(ON, 2, 2), (OFF, 1, 2), (0, 2, 2)] {
        let mut m = motor(&[0, 13], &[], 0, 0);
        assert_eq!(play(&mut m, &[word | RESERVE]).mode, reserve);
        m.mode = 1;
        assert_eq!(play(&mut m, &[word, word | WORK]).mode, work);
        m.mode = 2;
        assert_eq!(play(&mut m, &[word, word | REPAIR]).mode, if word == OFF { 0 } else { 2 });
    }
    assert_eq!(play(&mut motor(&[0], &[2, 3], 0, 0), &[REPAIR]).mode, 0);
}

/// Faults bar Reserve, each unless its option lets it.
#[test]
fn reserve_and_flags() {
    // Pretending Off while unsure: flag 1.
    assert_eq!(play(&mut motor(&[0], &[2, 3], 0, 0), &[RESERVE]).mode, 2);
    assert_eq!(play(&mut motor(&[0, 14], &[2, 3], 0, 0), &[RESERVE]).mode, 2);
    assert_eq!(play(&mut motor(&[0, 13], &[2, 3], 0, 0), &[RESERVE]).mode, 1);
    // No supply: flag 0.
    assert_eq!(play(&mut motor(&[0, 1], &[], 0, 0), &[OFF | NO_SUPPLY | RESERVE]).mode, 2);
    assert_eq!(play(&mut motor(&[0, 1, 13], &[], 0, 0), &[OFF | NO_SUPPLY | RESERVE]).mode, 2);
    assert_eq!(play(&mut motor(&[0, 1, 14], &[], 0, 0), &[OFF | NO_SUPPLY | RESERVE]).mode, 1);
    // Repair needs neither.
    assert_eq!(play(&mut motor(&[0, 1], &[], 0, 0), &[OFF | NO_SUPPLY | REPAIR]).mode, 0);
    // The input alone does not matter, the flag does.
    assert_eq!(play(&mut motor(&[0], &[], 0, 0), &[OFF | NO_SUPPLY | RESERVE]).mode, 1);
}

// Step 7

/// KO off acknowledges flags 5 and 6, and is no command then.
#[test]
fn acknowledging_off() {
    for flags in [32, 64, 96] {
        let lent = Record { flags: flags + 16, ..motor(&[0, 6, 15], &[], 500, 300) };
        let m = play(&mut lent.clone(), &[ON | KO_OFF]);
        assert_eq!((m.command, m.flags), (0, 16));
        // The next rise is a command again.
        let m = play(&mut lent.clone(), &[ON | KO_OFF, ON, ON | KO_OFF]);
        assert_eq!((m.command, m.flags), (6, 0));
        // Without the bit, or in local mode, nothing is acknowledged.
        let m = play(&mut Record { ops_1: bits(&[0, 6]), ..lent }, &[ON | KO_OFF]);
        assert_eq!((m.command, m.flags), (6, flags));
        let m = play(&mut lent.clone(), &[ON | KO_OFF | LOCAL]);
        assert_eq!((m.command, m.flags), (0, flags + 16));
    }
}

/// KO on acknowledges flag 4.
#[test]
fn acknowledging_on() {
    let lent = Record { flags: 16, ..motor(&[0, 6], &[0], 500, 300) };
    let m = play(&mut lent.clone(), &[OFF | KO_ON]);
    assert_eq!((m.command, m.flags), (0, 0));
    let m = play(&mut Record { ops_2: 0, ..lent }, &[OFF | KO_ON]);
    assert_eq!((m.command, m.flags), (7, 16));
}

/// Step 7 asks for no mode and no leave: it works in Repair, under a forbid,
/// with a command under way; and a weaker rise beside it stays a candidate.
#[test]
fn acknowledging_anywhere() {
    let lent = Record { flags: 64, ..motor(&[0, 6, 15], &[], 500, 300) };
    assert_eq!(play(&mut Record { mode: 0, ..lent }, &[OFF | KO_OFF]).flags, 0);
    assert_eq!(play(&mut lent.clone(), &[OFF | KO_OFF | FORBID_OFF]).flags, 0);
    let m = play(&mut Record { command: 7, ..lent }, &[OFF | KO_OFF]);
    assert_eq!((m.command, m.end, m.flags), (7, 0, 0));
    let m = play(&mut lent.clone(), &[OFF | KO_OFF | KO_ON]);
    assert_eq!((m.command, m.flags), (7, 0));
}

// Step 8

/// Repair lets no command, SMA included.
#[test]
fn nothing_in_repair() {
    for command in [SMA, LZ_ON, LZ_OFF, KO_ON, KO_OFF, LOCAL | MU_ON, LOCAL | MU_OFF] {
        for position in [ON, OFF] {
            let m = play(&mut Record { mode: 0, ..usual() }, &[position | command]);
            assert_eq!((m.command, m.mode), (0, 0));
        }
    }
}

/// Local mode parts KO and MU.
#[test]
fn local_mode() {
    assert_eq!(play(&mut usual(), &[OFF | KO_ON | LOCAL]).command, 0);
    assert_eq!(play(&mut usual(), &[OFF | MU_ON]).command, 0);
    assert_eq!(play(&mut usual(), &[OFF | MU_ON | LOCAL]).command, 5);
    assert_eq!(play(&mut usual(), &[OFF | LZ_ON | LOCAL]).command, 3);
    // A rise that was none of its place does not come back.
    assert_eq!(play(&mut usual(), &[OFF | MU_ON, OFF | MU_ON | LOCAL]).command, 0);
}

/// What the two inputs that forbid bar, without their options and with them.
#[test]
fn forbids() {
    let on = [(KO_ON, 7), (LZ_ON, 3), (LOCAL | MU_ON, 5)];
    let off = [(KO_OFF, 6), (LZ_OFF, 2), (LOCAL | MU_OFF, 4), (SMA, 1)];
    for (word, number) in on {
        let some = play(&mut motor(&[0, 4], &[], 500, 0), &[OFF | word | FORBID_ON | FORBID_OFF]).command;
        assert_eq!(some, if number == 7 { 0 } else { number });
        let none = play(&mut motor(&[0, 5], &[], 500, 0), &[OFF | word | FORBID_ON]).command;
        assert_eq!(none, 0);
        let other = play(&mut motor(&[0, 4, 5], &[], 500, 0), &[OFF | word | FORBID_OFF]).command;
        assert_eq!(other, number);
    }
    for (word, number) in off {
        let some = play(&mut motor(&[0, 5], &[], 500, 0), &[ON | word | FORBID_ON | FORBID_OFF]).command;
        assert_eq!(some, if number == 6 { 0 } else { number });
        let none = play(&mut motor(&[0, 4], &[], 500, 0), &[ON | word | FORBID_OFF]).command;
        assert_eq!(none, if number == 1 { 1 } else { 0 });
        let other = play(&mut motor(&[0, 4, 5], &[], 500, 0), &[ON | word | FORBID_ON]).command;
        assert_eq!(other, number);
    }
}

/// A lack of supply bars on commands: the flag as this scan's step 5 forms it.
#[test]
fn no_supply() {
    for word in [KO_ON, LZ_ON] {
        assert_eq!(play(&mut motor(&[0, 1], &[], 500, 0), &[OFF | word | NO_SUPPLY]).command, 0);
        assert_ne!(play(&mut motor(&[0], &[], 500, 0), &[OFF | word | NO_SUPPLY]).command, 0);
    }
    // In local mode without the option bits there is no flag, so no bar.
    let word = OFF | LOCAL | MU_ON | NO_SUPPLY;
    assert_eq!(play(&mut motor(&[0, 1], &[], 500, 0), &[word]).command, 5);
    assert_eq!(play(&mut motor(&[0, 1, 2], &[], 500, 0), &[word]).command, 0);
    assert_eq!(play(&mut motor(&[0, 1], &[], 500, 0), &[ON | KO_OFF | NO_SUPPLY]).command, 6);
    // Flag 1 bars nothing here.
    assert_eq!(play(&mut usual(), &[ON | OFF, ON | OFF | KO_ON]).command, 7);
}

/// Candidates that are not chosen are lost.
#[test]
fn the_rest_are_lost() {
    // LZ off is chosen and is where the motor already stands: LZ on is lost.
    let mut m = usual();
    assert_eq!(play(&mut m, &[OFF | LZ_OFF | LZ_ON]).command, 0);
    assert_eq!(play(&mut m, &[OFF | LZ_ON]).command, 0);
    // A barred one is no candidate and takes nothing away.
    assert_eq!(play(&mut motor(&[0, 4], &[], 500, 0), &[OFF | LZ_OFF | LZ_ON | FORBID_OFF]).command, 3);
}

/// A command to where the motor stands is not issued: unsure is nobody's place,
/// a pretended one counts.
#[test]
fn already_there() {
    assert_eq!(
        play(&mut usual(), &[OFF | SMA]),
        Record { previous: OFF | SMA, position: 1, last_sure: 1, ..usual() }
    );
    assert_eq!(play(&mut usual(), &[SMA]).command, 1);
    assert_eq!(play(&mut motor(&[0], &[2, 3], 500, 0), &[KO_OFF]).command, 0);
    assert_eq!(play(&mut motor(&[0], &[2, 3, 4], 500, 0), &[KO_OFF]).command, 6);
}

/// What displaces what: every pair of commands.
#[test]
fn displacing() {
    let list = [(SMA, 0), (LZ_OFF, 0), (LZ_ON, 1), (MU_OFF, 0), (MU_ON, 1), (KO_OFF, 0), (KO_ON, 1)];
    for running in 1..=7u32 {
        for (place, (word, way)) in list.iter().enumerate() {
            let next = place as u32 + 1;
            let local = if *word == MU_ON || *word == MU_OFF { LOCAL } else { 0 };
            let mut lent = Record { command: running, sum: 7, ..usual() };
            let m = play(&mut lent, &[word | local]);
            let other_way = *way != list[running as usize - 1].1;
            if next < running && (other_way || next == 1) {
                assert_eq!((m.command, m.sum, m.end), (next, 0, 2));
            } else {
                assert_eq!((m.command, m.sum, m.end), (running, 107, 0));
            }
        }
    }
}

/// With one under way the position does not matter.
#[test]
fn displacing_where_it_stands() {
    let m = play(&mut usual(), &[OFF | KO_ON, OFF | KO_OFF]);
    assert_eq!((m.command, m.end, m.position), (6, 2, 1));
}

/// A command that ends in step 4 is no longer under way in step 8.
#[test]
fn end_and_issue_in_one_scan() {
    let m = play(&mut usual(), &[OFF | KO_ON, ON | KO_OFF]);
    assert_eq!((m.command, m.end, m.output), (6, 1, 2));
    let m = play(&mut motor(&[0], &[], 100, 0), &[OFF | KO_ON, OFF, OFF | KO_ON]);
    assert_eq!((m.command, m.end, m.flags), (7, 0, 8192));
    let mut m = motor(&[0], &[], 0, 0);
    let m = play(&mut m, &[OFF | LZ_ON, OFF | KO_ON]);
    assert_eq!((m.command, m.end, m.flags), (7, 3, 16 + 512));
}

// Step 9

/// Flags 4 to 6, at the issue of each command.
#[test]
fn marks() {
    let cases = [
        (ON | SMA, 32 + 64),
        (ON | LZ_OFF, 32),
        (OFF | LZ_ON, 16),
        (ON | LOCAL | MU_OFF, 32),
        (OFF | LOCAL | MU_ON, 16),
        (ON | KO_OFF, 32),
        (OFF | KO_ON, 16),
    ];
    for (word, flags) in cases {
        assert_eq!(play(&mut Record { flags: 16 + 32, ..usual() }, &[word]).flags, flags);
    }
}

/// The outputs at the issue of each command, by the three options that keep one
/// from being raised.
#[test]
fn raising() {
    let off = [(ON | SMA, 1), (ON | LZ_OFF, 2), (ON | LOCAL | MU_OFF, 4), (ON | KO_OFF, 6)];
    let on = [(OFF | LZ_ON, 3), (OFF | LOCAL | MU_ON, 5), (OFF | KO_ON, 7)];
    for (sma, mu, two) in [(12, 2, 6), (12, 2, 3), (12, 3, 6), (3, 2, 6)] {
        let mut ops_1 = vec![0];
        ops_1.extend([sma, mu, two].iter().filter(|k| **k != 3));
        let has = |k| ops_1.contains(&k);
        for (word, number) in off {
            let mut lent = Record { output: 1, ..motor(&ops_1, &[], 500, 0) };
            let m = play(&mut lent, &[word]);
            let silent = (number == 1 && !has(12)) || (number == 4 && !has(2)) || !has(6);
            assert_eq!((m.command, m.output), (number, if silent { 0 } else { 2 }));
        }
        for (word, number) in on {
            let mut lent = Record { output: 2, ..motor(&ops_1, &[], 500, 0) };
            let m = play(&mut lent, &[word]);
            let silent = number == 5 && !has(2);
            assert_eq!((m.command, m.output), (number, if silent { 0 } else { 1 }));
        }
    }
}

/// SMA over an off command: a pulse already out runs on if SMA has no output
/// of its own, otherwise it begins anew.
#[test]
fn own_output_already_out() {
    let words = [ON | KO_OFF, ON, ON | SMA];
    let m = play(&mut motor(&[0, 6], &[], 500, 300), &words);
    assert_eq!((m.command, m.end, m.sum, m.output, m.pulse_sum), (1, 2, 0, 2, 200));
    let m = play(&mut motor(&[0, 6, 12], &[], 500, 300), &words);
    assert_eq!((m.command, m.end, m.sum, m.output, m.pulse_sum), (1, 2, 0, 2, 0));
}

/// From Reserve to Work: each of four options at its own command.
#[test]
fn reserve_to_work() {
    let list = [(OFF | LZ_ON, 8), (ON | LZ_OFF, 9), (OFF | KO_ON, 10), (ON | KO_OFF, 11)];
    for (word, own) in list {
        for bit in 8..=11 {
            let mut lent = Record { mode: 1, ..motor(&[0, bit], &[], 500, 0) };
            assert_eq!(play(&mut lent, &[word]).mode, if bit == own { 2 } else { 1 });
        }
        // Only when it is issued.
        let mut lent = Record { mode: 1, ..motor(&[0, 8, 9, 10, 11], &[], 500, 0) };
        assert_eq!(play(&mut lent, &[word ^ ON ^ OFF]).mode, 1);
    }
    for word in [ON | SMA, ON | LOCAL | MU_OFF, OFF | LOCAL | MU_ON] {
        let mut lent = Record { mode: 1, ..motor(&[0, 8, 9, 10, 11], &[], 500, 0) };
        let m = play(&mut lent, &[word]);
        assert!(m.command != 0 && m.mode == 1);
    }
}

/// Bit 3 of OPS_1 does nothing (rule 1.3).
#[test]
fn bit_3() {
    let words = [OFF, OFF | LZ_ON, ON, ON | LZ_OFF, OFF, OFF | RESERVE, OFF | LZ_ON, ON];
    for count in 0..=words.len() {
        let one = play(&mut motor(&[0, 6], &[], 500, 300), &words[..count]);
        let other = play(&mut motor(&[0, 3, 6], &[], 500, 300), &words[..count]);
        assert_eq!(Record { ops_1: one.ops_1, ..other }, one);
    }
}

// Step 10 and lent records

/// The previous word is all of the last word, at every accepted scan.
#[test]
fn previous_word() {
    let mut m = usual();
    assert_eq!(play(&mut m, &[131_071]).previous, 131_071);
    assert!(scan_one(&mut m, 0, 0).is_err());
    assert_eq!(m.previous, 131_071);
}

/// Idle sums stay (rule 2.6).
#[test]
fn idle_sums() {
    // No command: its sum stays, and issuing sets it.
    let mut lent = Record { sum: 599_999, ..usual() };
    assert_eq!(step(&mut lent, OFF, 10_000).sum, 599_999);
    assert_eq!(step(&mut lent, OFF | KO_ON, 10_000).sum, 0);
    // No output: the pulse sum stays, and raising sets it.
    let mut lent = Record { pulse_sum: 599_999, ..usual() };
    assert_eq!(step(&mut lent, OFF, 10_000).pulse_sum, 599_999);
    assert_eq!(step(&mut lent, OFF | KO_ON, 10_000).pulse_sum, 0);
    // A command without output of its own does not set it.
    let mut lent = Record { pulse_sum: 5, ..usual() };
    assert_eq!(step(&mut lent, ON | SMA, 10_000).pulse_sum, 5);
    // Held outputs: not added to, never up.
    for record in [motor(&[0, 6], &[], 500, 0), motor(&[0], &[], 500, 1)] {
        let mut lent = Record { output: 1, pulse_sum: 77, ..record };
        let m = step(&mut lent, OFF, 10_000);
        assert_eq!((m.output, m.pulse_sum), (1, 77));
        // Dropping sets it.
        assert_eq!(step(&mut lent.clone(), ON | SMA, 1).pulse_sum, 0);
        // Raising a held output leaves its sum 0 too.
        let mut idle = Record { output: 0, pulse_sum: 77, ..record };
        let m = step(&mut idle, OFF | KO_ON, 1);
        assert_eq!((m.output, m.pulse_sum), (1, 0));
    }
}
