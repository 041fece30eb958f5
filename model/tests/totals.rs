//! The totals of a sitting, rule 8.3. Every print here comes from the
//! model and from the fast version alike.

use motor_model::file::{run_watched, Done};
use motor_model::rules::{End, Reading};
use motor_model::{fast, story};

const SMA: u32 = 1;
const LOCAL: u32 = 2;
const ON: u32 = 16;
const OFF: u32 = 32;
const LZ_ON: u32 = 128;
const LZ_OFF: u32 = 256;
const REPAIR: u32 = 512;
const KO_ON: u32 = 4096;
const KO_OFF: u32 = 8192;

/// OPS_1, OPS_2, W and U of the usual motor.
const USUAL: [u32; 4] = [193, 0, 500, 300];

fn print(file: &[u8]) -> String {
    let model = run_watched(file, |_, _| {}).0;
    let mut other = Vec::new();
    fast::run(file, &mut other).unwrap();
    assert!(model == other, "{}", String::from_utf8_lossy(file));
    String::from_utf8(model).unwrap()
}

fn text(file: &str) -> String {
    print(file.as_bytes())
}

/// The T lines as numbers, which must be the last lines.
fn totals(print: &str) -> Vec<[u64; 9]> {
    let lines: Vec<&str> = print.lines().skip_while(|line| !line.starts_with('T')).collect();
    let numbers = |line: &str| {
        let mut fields = line.split(',');
        assert_eq!(fields.next(), Some("T"));
        let values: Vec<u64> = fields.map(|field| field.parse().unwrap()).collect();
        values.try_into().expect("nine numbers")
    };
    lines.into_iter().map(numbers).collect()
}

fn file_of([ops_1, ops_2, wait, pulse]: [u32; 4], scans: &[(u32, u32)]) -> String {
    let mut file = format!("M,1,{ops_1},{ops_2},{wait},{pulse}\n");
    for (word, period) in scans {
        file += &format!("I,1,{word}\nS,{period}\n");
    }
    file
}

/// Totals of one motor, without its number, after scans of word and period.
fn sitting(settings: [u32; 4], scans: &[(u32, u32)]) -> [u64; 8] {
    let all = totals(&text(&file_of(settings, scans)));
    let [[1, rest @ ..]] = all[..] else { panic!("{all:?}") };
    rest
}

fn usual(scans: &[(u32, u32)]) -> [u64; 8] {
    sitting(USUAL, scans)
}

/// The T line of sheets/first.txt.
#[test]
fn the_line_of_the_first_sheet() {
    assert_eq!(
        text("M,1,193,0,500,300\nI,1,32\nS,100\nI,1,4128\nS,100\nI,1,16\nS,100\n"),
        "R,1,1,2,1,0,0,0,0\nR,2,1,2,1,7,0,1,0\nR,3,1,2,2,0,1,0,0\nT,1,1,1,0,0,0,100,100,100\n"
    );
}

/// A line for each motor: also for one that was never scanned or never given a
/// command, and none where there is no motor.
#[test]
fn a_line_for_every_motor() {
    assert_eq!(text(""), "");
    assert_eq!(text("S,100\nS,10000\n"), "");
    assert_eq!(text("M,1,193,0,500,300\n"), "T,1,0,0,0,0,0,0,0,0\n");
    // A word alone is no scan.
    assert_eq!(text("M,1,193,0,500,300\nI,1,4112\n"), "T,1,0,0,0,0,0,0,0,0\n");
    assert_eq!(usual(&[(OFF, 100)]), [0; 8]);
    assert_eq!(usual(&[(OFF | KO_OFF, 100), (OFF, 100)]), [0; 8]);
}

/// Motors by rising number, each from its own
/// motor.
#[test]
fn by_rising_number() {
    let file = "M,1,193,0,500,300\nM,2,193,0,500,300\nI,1,32\nI,2,4128\nS,100\nI,1,16\nI,2,32\nS,30\n";
    assert_eq!(
        text(file),
        "R,1,1,2,1,0,0,0,0\nR,1,2,2,1,7,0,1,0\nR,2,1,2,2,0,0,0,4\nR,2,2,2,1,7,0,1,0\n\
         T,1,0,0,0,0,0,30,0,0\nT,2,1,0,0,0,1,0,0,0\n"
    );
    // Motor k is On for 33 - k ms; 10 comes after 9, not after 1.
    let mut file: String = (1..=32).map(|k| format!("M,{k},0,0,0,0\n")).collect();
    for k in 1..=32 {
        file += &format!("I,{k},16\nS,1\n");
    }
    let expected: Vec<[u64; 9]> = (1..=32).map(|k| [k, 0, 0, 0, 0, 0, 33 - k, 0, 0]).collect();
    assert_eq!(totals(&text(&file)), expected);
}

/// T lines come only after the last line was accepted: none otherwise,
/// wherever it is refused.
#[test]
fn none_after_a_refusal() {
    let good = "M,1,193,0,500,300\nI,1,4128\nS,100\nI,1,16\nS,100\n";
    assert_eq!(totals(&text(good)), [[1, 1, 1, 0, 0, 0, 100, 100, 100]]);
    let before = good.lines().count();
    let refused = [
        ("S,10001\n", 2),
        ("S,0\n", 2),
        ("I,1,131072\n", 3),
        ("M,2,193,32,500,300\n", 4),
        ("\n", 5),
        ("T,1,1,1,0,0,0,100,100,100\n", 5),
        ("M,2,193,0,500,300\n", 8),
        ("I,2,32\n", 10),
    ];
    let rows = "R,1,1,2,1,7,0,1,0\nR,2,1,2,2,0,1,0,0\n";
    for (line, refusal) in refused {
        let expected = format!("{rows}E,{},{refusal}\n", before + 1);
        assert_eq!(text(&format!("{good}{line}")), expected);
        assert_eq!(text(&format!("{good}{line}S,100\n")), expected);
    }
    assert_eq!(text(&format!("{good}S,100")), format!("{rows}E,{},5\n", before + 1));
    // Before any scan.
    assert_eq!(text("M,1,193,0,500,300\nM,3,193,0,500,300\n"), "E,2,9\n");
    let table: String = (1..=33).map(|k| format!("M,{k},193,0,500,300\n")).collect();
    assert_eq!(text(&table), "E,33,7\n");
}

/// None for a file over 65,536 bytes, however it goes on; one of just that
/// length has them.
#[test]
fn none_for_a_file_too_long() {
    let mut file = b"M,1,193,0,500,300\nI,1,4128\nS,100\nI,1,16\n".to_vec();
    while file.len() + 7 < 65_536 {
        file.extend_from_slice(b"S,1\n");
    }
    let last: &[u8] = [b"S,1\n", &b"S,10\n"[..], b"S,100\n", b"S,1000\n"][65_536 - file.len() - 4];
    file.extend_from_slice(last);
    assert_eq!(file.len(), 65_536);
    let lines = totals(&print(&file));
    assert!(matches!(lines[..], [[1, 1, 1, 0, 0, 0, _, 1, 1]]), "{lines:?}");
    file.extend_from_slice(b"S,1\n");
    assert_eq!(print(&file), "E,0,1\n");
}

/// On counts the scans that read On, and no pretended ones.
#[test]
fn on_by_sure_readings() {
    assert_eq!(usual(&[(ON, 7)])[5], 7);
    assert_eq!(usual(&[(ON, 7), (OFF, 100), (ON, 30), (0, 400), (ON | OFF, 1000), (ON, 2000)])[5], 2037);
    // Whatever else goes on: local mode, Repair, a command of either direction.
    assert_eq!(usual(&[(ON | LOCAL, 7)])[5], 7);
    assert_eq!(usual(&[(OFF | REPAIR, 100), (ON, 7)])[5], 7);
    assert_eq!(usual(&[(ON | KO_OFF, 7), (ON, 30), (OFF, 100)]), [1, 1, 0, 0, 0, 37, 130, 130]);
    // One switch: only its own bit counts.
    let one_switch = [192, 28, 500, 300];
    assert_eq!(sitting(one_switch, &[(ON, 7), (ON | OFF, 30), (OFF, 100), (0, 400)])[5], 37);
}

/// A pretended position is no reading: OPS_2 28 shows On while unsure, OPS_2 4
/// the last sure position.
#[test]
fn on_not_by_pretended_positions() {
    for unsure in [0, ON | OFF] {
        let file = file_of([193, 28, 500, 300], &[(unsure, 100), (ON, 7), (unsure, 1000)]);
        let print = text(&file);
        assert!(print
            .lines()
            .filter(|line| line.starts_with('R'))
            .all(|line| line.contains(",1,2,2,0,0,0,")));
        assert_eq!(totals(&print), [[1, 0, 0, 0, 0, 0, 7, 0, 0]]);
        assert_eq!(sitting([193, 4, 500, 300], &[(ON, 7), (unsure, 1000)])[5], 7);
        // Nor does a pretended Off take away.
        assert_eq!(sitting([193, 12, 500, 300], &[(ON, 7), (unsure, 1000), (ON, 30)])[5], 37);
    }
}

/// Issued and under way as long as nothing ends it.
#[test]
fn under_way_at_the_end() {
    assert_eq!(usual(&[(OFF | KO_ON, 100)]), [1, 0, 0, 0, 1, 0, 0, 0]);
    assert_eq!(usual(&[(OFF | KO_ON, 100), (OFF, 499)]), [1, 0, 0, 0, 1, 0, 0, 0]);
}

#[test]
fn overdue() {
    assert_eq!(usual(&[(OFF | KO_ON, 100), (OFF, 499), (OFF, 1)]), [1, 0, 0, 1, 0, 0, 0, 0]);
    // On too late is On, and no confirmation.
    assert_eq!(usual(&[(OFF | KO_ON, 100), (OFF, 500), (ON, 100)]), [1, 0, 0, 1, 0, 100, 0, 0]);
}

/// A displaced command ends displaced, neither overdue nor confirmed.
#[test]
fn displaced() {
    let words = [(OFF | KO_ON, 100), (OFF | LZ_OFF, 100)];
    assert_eq!(usual(&words), [2, 0, 1, 0, 1, 0, 0, 0]);
    // The confirmation is of the second one, and so is its time.
    assert_eq!(usual(&[words[0], words[1], (OFF, 40)]), [2, 1, 1, 0, 0, 0, 40, 40]);
    // SMA displaces an off command, too.
    assert_eq!(usual(&[words[0], words[1], (ON | SMA, 100), (ON, 499), (ON, 1)]), [3, 0, 2, 1, 0, 600, 0, 0]);
    // A chosen command that displaces nothing is not issued.
    assert_eq!(usual(&[(ON | KO_OFF, 100), (ON | LZ_OFF, 100)]), [1, 0, 0, 0, 1, 200, 0, 0]);
}

/// A command may end by its own in the scan that issues the next: nothing is
/// displaced then.
#[test]
fn ended_and_issued_in_one_scan() {
    // KO on confirmed, KO off issued, confirmed 30 ms later.
    let words = [(OFF | KO_ON, 100), (ON | KO_OFF, 20)];
    assert_eq!(usual(&words), [2, 1, 0, 0, 1, 20, 20, 20]);
    assert_eq!(usual(&[words[0], words[1], (OFF, 30)]), [2, 2, 0, 0, 0, 20, 20, 30]);
    // KO on overdue, though LZ off would displace it.
    assert_eq!(usual(&[(KO_ON, 100), (LZ_OFF, 500)]), [2, 0, 0, 1, 1, 0, 0, 0]);
    assert_eq!(usual(&[(KO_ON, 100), (LZ_OFF, 499)]), [2, 0, 1, 0, 1, 0, 0, 0]);
}

/// Best and worst, in either order of two commands.
#[test]
fn best_and_worst() {
    let slow = [(OFF | KO_ON, 100), (OFF, 250), (ON, 50)];
    let fast = [(ON | KO_OFF, 100), (OFF, 70)];
    assert_eq!(usual(&[&slow[..], &fast].concat()), [2, 2, 0, 0, 0, 150, 70, 300]);
    assert_eq!(usual(&[&fast[..], &slow].concat()), [2, 2, 0, 0, 0, 150, 70, 300]);
    // One in between moves neither.
    let middle = [(ON | LZ_OFF, 100), (OFF, 200)];
    assert_eq!(usual(&[&slow[..], &fast, &slow, &middle].concat())[6..], [70, 300]);
}

/// The scan that issues is not in the time, the one that confirms is.
#[test]
fn time_from_issue_to_confirmation() {
    assert_eq!(usual(&[(OFF | KO_ON, 10_000), (ON, 1)]), [1, 1, 0, 0, 0, 1, 1, 1]);
    assert_eq!(usual(&[(OFF | KO_ON, 1), (ON, 10_000)]), [1, 1, 0, 0, 0, 10_000, 10_000, 10_000]);
    // Scans after the confirmation are not in it either, nor those before the issue.
    assert_eq!(usual(&[(OFF, 300), (OFF | KO_ON, 1), (ON, 20), (ON, 300)])[6..], [20, 20]);
    // Confirmed goes before overdue: the last scan may lead beyond W.
    let mut scans = vec![(OFF | KO_ON, 1)];
    scans.extend([(OFF, 10_000); 59]);
    scans.extend([(OFF, 9_999), (ON, 10_000)]);
    let [.., best, worst] = sitting([193, 0, 600_000, 600_000], &scans);
    assert_eq!([best, worst], [609_999, 609_999]);
    assert_eq!(sitting([193, 0, 0, 0], &[(OFF | KO_ON, 1), (ON, 5)]), [1, 1, 0, 0, 0, 5, 5, 5]);
}

/// No confirmation, no times: other ends and what is under way have no part in
/// them.
#[test]
fn no_confirmation() {
    let mut scans = vec![(OFF | KO_ON, 100), (OFF, 500)];
    assert_eq!(usual(&scans)[6..], [0, 0]);
    scans.extend([(OFF | KO_ON, 100), (OFF | LZ_OFF, 200)]);
    assert_eq!(usual(&scans), [3, 0, 1, 1, 1, 0, 0, 0]);
    // With one confirmation among them it is best and worst alone.
    scans.push((OFF, 60));
    assert_eq!(usual(&scans), [3, 1, 1, 1, 0, 0, 60, 60]);
    scans.extend([(OFF | LZ_ON, 100), (OFF, 500)]);
    assert_eq!(usual(&scans), [4, 1, 1, 2, 0, 0, 60, 60]);
}

/// The greatest sum that a file has room for.
#[test]
fn long_sums() {
    let mut file = "M,1,0,0,0,0\nI,1,16\n".to_string();
    let mut scans = 0;
    while file.len() + 7 <= 65_536 {
        file += "S,9999\n";
        scans += 1;
    }
    let on = scans * 9_999;
    assert!(on > 93_000_000);
    assert_eq!(totals(&text(&file)), [[1, 0, 0, 0, 0, 0, on, 0, 0]]);
}

/// The balance of rule 8.4, on random files. The same counts
/// are taken from the ten steps here, whose records carry sums; the model takes
/// them from the book.
#[test]
fn random_files() {
    let mut whole = 0;
    for index in (0..3000).filter(|index| !story::is_long(*index)) {
        let file = story::file(21, index);
        let periods: Vec<u64> = file
            .split(|byte| *byte == b'\n')
            .filter_map(|line| line.strip_prefix(b"S,"))
            .filter_map(|period| String::from_utf8_lossy(period).parse().ok())
            .collect();
        let mut scan = 0;
        let mut expected: Vec<[u64; 9]> = Vec::new();
        // Time of the command under way, for each motor.
        let mut since: Vec<u64> = Vec::new();
        let (print, books) = run_watched(&file, |_, result| match result {
            Ok(Done::Motor) => {
                expected.push([expected.len() as u64 + 1, 0, 0, 0, 0, 0, 0, 0, 0]);
                since.push(0);
            }
            Ok(Done::Scan(_, traces)) => {
                let period = periods[scan];
                scan += 1;
                for ((trace, line), since) in traces.iter().zip(&mut expected).zip(&mut since) {
                    *since += period;
                    line[6] += if trace.reading == Some(Reading::On) { period } else { 0 };
                    match trace.ended {
                        Some((_, End::Confirmed)) => {
                            line[2] += 1;
                            line[7] = if line[7] == 0 { *since } else { line[7].min(*since) };
                            line[8] = line[8].max(*since);
                        }
                        Some((_, End::Displaced)) => line[3] += 1,
                        Some((_, End::Overdue)) => line[4] += 1,
                        None => {}
                    }
                    line[5] -= u64::from(trace.ended.is_some());
                    if trace.issued.is_some() {
                        line[1] += 1;
                        line[5] += 1;
                        *since = 0;
                    }
                }
            }
            _ => {}
        });
        let lines = totals(&String::from_utf8(print).unwrap());
        if books.is_none() {
            assert!(lines.is_empty(), "file {index}");
            continue;
        }
        whole += 1;
        assert_eq!(lines, expected, "file {index}");
        for [_, issued, confirmed, displaced, overdue, under_way, on, best, worst] in lines {
            assert_eq!(issued, confirmed + displaced + overdue + under_way, "file {index}");
            assert!(under_way <= 1 && on <= periods.iter().sum());
            assert!(best <= worst && (best > 0) == (confirmed > 0) && (best == worst || confirmed > 1));
        }
    }
    assert!(whole > 1800, "{whole}");
}
