//! Random histories: the record against the book, the model against the fast
//! version, and the files against what they promise.

use motor_model::book::Book;
use motor_model::dump::Outputs;
use motor_model::file::{lines, run, run_watched, Bench, Done};
use motor_model::record::Record;
use motor_model::rules::scan_one;
use motor_model::story::{self, Dice};
use motor_model::tally::{Tally, DUMPS, KINDS, NUMBERS, READINGS, WAYS, WORDS};
use motor_model::{fast, shrink};

/// After every scan each record has what its book has, no chain has more than seven
/// commands, and the bound on every chain holds.
#[test]
fn records_and_books() {
    for index in 0..1500 {
        if story::is_long(index) {
            continue;
        }
        let file = story::file(77, index);
        let mut bench = Bench::default();
        let mut books: Vec<Book> = Vec::new();
        for raw in file.split_inclusive(|byte| *byte == b'\n') {
            let Some(line) = raw.strip_suffix(b"\n") else { break };
            match bench.take(line, true) {
                Ok(Done::Motor) => books.push(Book::of(bench.motors.last().unwrap())),
                Ok(Done::Word) => {}
                Ok(Done::Scan(..)) => {
                    let period: u32 = String::from_utf8_lossy(&line[2..]).parse().unwrap();
                    for ((book, record), word) in books.iter_mut().zip(&bench.motors).zip(&bench.words) {
                        book.scan(*word, period);
                        assert!(book.agrees_with(record), "file {index}");
                        assert!(book.chains.iter().all(|chain| chain.commands <= 7), "file {index}");
                        assert!(book.bound_holds(), "file {index}");
                        assert!(record.in_range());
                        tidy(record);
                    }
                }
                Err(_) => break,
            }
        }
    }
}

/// What holds of every record that began fresh.
fn tidy(record: &Record) {
    let pulses = record.ops_1 & 64 != 0 && record.pulse > 0;
    assert!(record.command != 0 || record.sum == 0);
    assert!(record.sum == 0 || record.sum < record.wait);
    assert!(pulses && record.output != 0 || record.pulse_sum == 0);
    assert!(record.pulse_sum == 0 || record.pulse_sum < record.pulse);
    assert!(record.position == 0 || record.position == record.last_sure || record.ops_2 & 12 == 12);
    flag_14_with_flag_1(record);
}

/// Holds after every accepted scan, lent records included: the word of the scan
/// is then the previous word.
fn flag_14_with_flag_1(record: &Record) {
    let both_closed = record.flags & 2 != 0 && record.previous & 48 == 48;
    assert_eq!(record.flags & 16_384 != 0, both_closed, "{record:?}");
}

#[test]
fn model_and_fast_version() {
    for seed in [3, 4] {
        for index in 0..4000 {
            let file = story::file(seed, index);
            let mut print = Vec::new();
            fast::run(&file[..], &mut print).unwrap();
            assert!(print == run(&file), "file {index} of seed {seed}");
        }
    }
}

/// Any record in range.
fn lent_record(dice: &mut Dice) -> Record {
    let mut below = |limit: u32| dice.within(0, limit);
    Record {
        ops_1: below(65_535),
        ops_2: below(31),
        wait: below(600_000),
        pulse: below(600_000),
        mode: below(2),
        last_sure: below(2),
        position: below(2),
        command: below(7),
        sum: below(599_999),
        end: below(3),
        output: below(2),
        pulse_sum: below(599_999),
        flags: below(32_767),
        previous: below(131_071),
    }
}

/// Any record in range stays in range and keeps its settings.
#[test]
fn lent_records_stay_in_range() {
    let mut dice = Dice::new(9, 9);
    for _ in 0..300_000 {
        let lent = lent_record(&mut dice);
        let (word, period) = (dice.within(0, 131_071), dice.within(1, 10_000));
        let mut record = lent;
        scan_one(&mut record, word, period).unwrap();
        assert!(record.in_range(), "{lent:?} {word} {period}");
        flag_14_with_flag_1(&record);
        let settings = |r: &Record| [r.ops_1, r.ops_2, r.wait, r.pulse];
        assert_eq!(settings(&record), settings(&lent));
        assert_eq!(record.previous, word);
        // Idle sums.
        if lent.command == 0 && record.command == 0 {
            assert_eq!(record.sum, lent.sum);
        }
        if lent.output == 0 && record.output == 0 {
            assert_eq!(record.pulse_sum, lent.pulse_sum);
        }
    }
}

/// Both open and both closed make the same of any record but for flag 14.
#[test]
fn unsure_either_way() {
    let mut dice = Dice::new(9, 10);
    let mut told = 0;
    for _ in 0..100_000 {
        let mut lent = lent_record(&mut dice);
        lent.ops_1 |= 1;
        if dice.percent(50) {
            lent.command = 0;
        }
        let (word, period) = (dice.within(0, 131_071), dice.within(1, 10_000));
        let (mut open, mut closed) = (lent, lent);
        scan_one(&mut open, word & !48, period).unwrap();
        scan_one(&mut closed, word | 48, period).unwrap();
        let flags = open.flags | if open.flags & 2 != 0 { 16_384 } else { 0 };
        assert_eq!(closed, Record { flags, previous: word | 48, ..open }, "{lent:?} {word} {period}");
        told += u32::from(closed.flags != open.flags);
    }
    assert!(told > 30_000, "{told}");
}

/// Files come from seed and number alone, and hold what they should.
#[test]
fn the_files_are_rich() {
    assert_eq!(story::file(5, 12), story::file(5, 12));
    assert_ne!(story::file(5, 12), story::file(6, 12));
    let mut tally = Tally::default();
    let mut mixed = 0;
    for index in 0..5000 {
        let (file, long) = (story::file(1, index), story::is_long(index));
        let (print, books) = run_watched(&file, |line, result| match long {
            true => tally.refusal(result),
            false => tally.line(line, result),
        });
        tally.file(file.len(), &print, books.as_deref(), long);
        let Some(outputs) = Outputs::of(&file) else { continue };
        tally.dump(&outputs);
        let mut after_a_word = lines(&file).skip_while(|line| !line.starts_with(b"I"));
        mixed += u32::from(!outputs.refused && after_a_word.any(|line| line.starts_with(b"M")));
    }
    for refusal in [1, 2, 3, 4, 5, 7, 8, 9, 10] {
        assert!(tally.refused[refusal] >= 15, "refusal {refusal}: {}", tally.refused[refusal]);
    }
    assert_eq!(tally.refused[6], 0);
    for command in 0..7 {
        assert!(tally.issued[command] > 500);
        assert!(tally.confirmed[command] > 100);
        assert!(tally.overdue[command] > 100);
        assert!(command == 0 || tally.displaced[command] > 100);
    }
    assert!(tally.acknowledged.iter().chain(&tally.modes).chain(&tally.dropped).all(|count| *count > 300));
    for unsure in [tally.both_open, tally.both_closed] {
        assert!(unsure.idle > 10_000, "{unsure:?}");
        assert!(unsure.idle_local.iter().chain(&unsure.under_way).all(|count| *count > 500), "{unsure:?}");
    }
    // Chains of every length, ended either way.
    assert!(tally.chains.as_flattened().iter().all(|count| *count > 20), "{:?}", tally.chains);
    // Sums at their limit and beside it, after one scan and after several.
    for (sums, least) in tally.sums.iter().zip([1200, 550]) {
        assert!(sums.at_once.iter().all(|count| *count > least), "{sums:?}");
        assert!(sums.later.iter().all(|count| *count > 150), "{sums:?}");
    }
    // Every way to read both switches, with each OPS_2.
    for (ops_2, counts) in tally.readings.iter().enumerate() {
        for (count, (title, _)) in counts.iter().zip(READINGS) {
            assert!(*count > 130, "OPS_2 {ops_2}, {title}: {count}");
        }
    }
    // Files of the greatest length, some accepted with commands in them, and beside it.
    let [below, at, above] = tally.lengths;
    assert!(below[0] > 4 && at[0] > 15 && above[0] > 15, "{:?}", tally.lengths);
    assert!(below[1] > 4 && at[1] > 10 && at[2] > 5, "{:?}", tally.lengths);
    // Totals of every kind, and files that had some but print none.
    for (count, (title, _)) in tally.told.iter().zip(KINDS) {
        assert!(*count > 100, "{title}: {count}");
    }
    assert!(tally.cut_short > 300, "{}", tally.cut_short);
    // Dumps of every kind, and motors after the first word.
    for (count, (title, _)) in tally.dumps.iter().zip(DUMPS) {
        assert!(*count > 40, "{title}: {count}");
    }
    assert!(mixed > 40, "{mixed}");
    // Words in hexadecimal: read in each number of digits, above the limit, wrong in
    // each way, and where there should be a number.
    let hexadecimal = tally.hexadecimal;
    for (kind, (name, ..)) in WORDS.iter().enumerate() {
        let (read, above) = (hexadecimal.read[kind], hexadecimal.above[kind]);
        assert!(read.iter().all(|count| *count > 20), "{name}: {read:?}");
        assert!(above > 10, "{name}: {above}");
        for (count, (way, _)) in hexadecimal.wrong[kind].iter().zip(WAYS) {
            assert!(*count > 2, "{name}, {way}: {count}");
        }
        assert!(hexadecimal.wrong[kind][0] > 60, "{name}");
    }
    for (count, (name, ..)) in hexadecimal.elsewhere.iter().zip(NUMBERS) {
        assert!(*count > 15, "{name}: {count}");
    }
}

#[test]
fn long_files_have_their_length() {
    let long = |seed| (0..5000).filter(|i| story::is_long(*i)).map(move |i| story::file(seed, i).len());
    let lengths: Vec<usize> = (1..=20).flat_map(long).collect();
    assert!(lengths.contains(&65_536) && lengths.contains(&65_537));
    for motors in [1, 32] {
        let file = story::rich(5, motors);
        assert!(file.len() <= 65_536 && file.len() > 64_000);
        assert!(!run(&file).windows(2).any(|pair| pair == b"E,"));
    }
}

/// A difference is cut down to what shows it.
#[test]
fn shrinking() {
    let file = b"M,1,193,0,500,300\nI,1,32\nS,100\nI,1,4128\nS,100\nI,1,16\nS,100\n";
    let mut shows = |trial: &[u8]| trial.windows(4).any(|part| part == b"4128");
    assert_eq!(shrink::shrink(file, 10_000, &mut shows), b"4128");
    let mut three_lines = |trial: &[u8]| trial.iter().filter(|byte| **byte == b'\n').count() >= 3;
    assert_eq!(shrink::shrink(file, 10_000, &mut three_lines), b"\n\n\n");
    assert_eq!(shrink::shrink(file, 0, &mut shows), file);
}
