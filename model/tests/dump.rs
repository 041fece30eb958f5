//! The dump of the outputs, rule 9. Every dump here comes from the
//! model and from the fast version alike, and is read back.

use motor_model::dump::{read_back, run, Outputs};
use motor_model::sheets::{dump_sheets, given_sheets, longest_dump, more_sheets};
use motor_model::viewer::Wave;
use motor_model::{ends, fast, story, words};

fn dump(file: &[u8]) -> String {
    let model = run(file);
    let mut other = Vec::new();
    fast::wave(file, &mut other).unwrap();
    assert!(model == other, "{}", file.escape_ascii());
    read_back(file, &model).unwrap_or_else(|fault| panic!("{}: {fault}", file.escape_ascii()));
    String::from_utf8(model).unwrap()
}

#[test]
fn dumps_worked_by_hand() {
    for sheet in dump_sheets() {
        assert_eq!(dump(sheet.file.as_bytes()), sheet.dump, "{}", sheet.name);
    }
}

/// A dump can be longer than the greatest file.
#[test]
fn a_long_dump() {
    let sheet = longest_dump();
    assert_eq!(sheet.file.len(), 65_535);
    assert!(sheet.dump.len() > 90_000, "{}", sheet.dump.len());
    assert_eq!(dump(sheet.file.as_bytes()), sheet.dump);
}

/// Codes 33 to 96, each once, and names by rising number.
#[test]
fn thirty_two_motors() {
    let file: String = (1..=32).map(|k| format!("M,{k},193,0,500,300\n")).collect();
    let wave = Wave::read(dump(file.as_bytes()).as_bytes()).unwrap();
    assert_eq!(wave.signals.len(), 64);
    for (place, signal) in wave.signals.iter().enumerate() {
        assert_eq!(signal.code.as_bytes(), [33 + place as u8]);
        assert_eq!(signal.name, format!("m{}{}", place / 2 + 1, ["on", "off"][place % 2]));
        assert_eq!((&signal.scope[..], signal.width), ("bench", 1));
    }
    assert_eq!(wave.signals[63].code, "`");
}

/// A file of one byte more has no dump.
#[test]
fn the_greatest_file() {
    let mut file = b"M,1,193,0,500,0\nI,1,4128\nS,1000\n".to_vec();
    let end = b"I,1,272\nS,1\n";
    let short = (65_536 - file.len() - end.len()) / 4;
    file.extend(b"S,1\n".repeat(short));
    file.extend_from_slice(end);
    assert_eq!(file.len(), 65_536);
    assert!(dump(&file).ends_with(&format!("\n#1000\n1!\n#{}\n0!\n1\"\n", 1000 + short + 1)));
    file.push(b'S');
    assert_eq!(dump(&file), "");
    for byte in [b'\n', b'S', 0] {
        assert_eq!(dump(&vec![byte; 65_537]), "");
        assert!(dump(&vec![byte; 65_536]).ends_with("$end\n#0\n"));
    }
}

/// The longest time of any file: a short M line and scans of 10,000 ms alone, the
/// last of which raises an output.
#[test]
fn the_longest_time() {
    let end = "I,1,4128\nS,10000\n";
    let mut file = "M,1,193,0,1,0\n".to_string();
    let mut scans = 1;
    while file.len() + "S,10000\n".len() + end.len() <= 65_536 {
        file += "S,10000\n";
        scans += 1;
    }
    file += end;
    assert!(scans > 8_000, "{scans}");
    assert!(dump(file.as_bytes()).ends_with(&format!("\n0\"\n#{scans}0000\n1!\n")));
}

/// A refusal leaves the dump that the lines before it have, and no trace of its own.
#[test]
fn a_refused_line_ends_the_dump() {
    let mut seen = 0;
    for index in 0..300 {
        let file = story::file(11, index);
        let Some(outputs) = Outputs::of(&file) else { continue };
        if outputs.refused || file.len() > 60_000 {
            continue;
        }
        let whole = dump(&file);
        for line in ["\n", "S,0\n", "S,10001\n", "M,40,0,0,0,0\n", "I,0,0\n", "S,1", "E,1,5\n"] {
            let refused = [&file, line.as_bytes(), b"S,10000\nS,10000\n"].concat();
            assert_eq!(dump(&refused), whole, "file {index}");
            seen += 1;
        }
    }
    assert!(seen > 500, "{seen}");
}

/// Each later time stands for a scan, and a scan that leaves all outputs alone has
/// none.
#[test]
fn times_are_those_of_changes() {
    for index in 0..600 {
        let file = story::file(12, index);
        let Some(outputs) = Outputs::of(&file) else { continue };
        let wave = Wave::read(dump(&file).as_bytes()).unwrap();
        let mut last = &outputs.fresh;
        let mut expected = vec![0];
        for (time, now) in &outputs.scans {
            if now != last {
                expected.push(*time);
            }
            last = now;
        }
        assert_eq!(wave.times, expected, "file {index}");
    }
}

/// The same outputs as in the R lines of the bench, which have no times.
#[test]
fn outputs_of_the_print() {
    for index in 0..600 {
        let file = story::file(13, index);
        let Some(outputs) = Outputs::of(&file) else { continue };
        let print = String::from_utf8(motor_model::file::run(&file)).unwrap();
        let printed: Vec<&str> = print
            .lines()
            .filter(|line| line.starts_with('R'))
            .map(|line| line.split(',').nth(7).expect("an output"))
            .collect();
        let told: Vec<String> =
            outputs.scans.iter().flat_map(|(_, now)| now).map(|output| output.to_string()).collect();
        assert_eq!(printed, told, "file {index}");
    }
}

#[test]
fn model_and_fast_version() {
    for sheet in given_sheets().into_iter().chain(more_sheets()) {
        dump(sheet.file.as_bytes());
    }
    for file in ends::files(given_sheets()[0].file.as_bytes()).into_iter().chain(words::files()) {
        dump(&file);
    }
    for index in 0..3000 {
        dump(&story::file(14, index));
    }
}

/// Reading back finds each of these, though all are good dumps.
#[test]
fn wrong_dumps() {
    let file = b"M,1,193,0,500,300\nI,1,32\nS,100\nI,1,4128\nS,100\nI,1,288\nS,100\n";
    let good = dump(file);
    for (right, wrong) in [
        ("1 ms", "1 us"),
        ("1 ms", "10 ms"),
        ("module bench", "module top"),
        ("! m1on", "! m1off_"),
        ("! m1on $end\n$var wire 1 \" m1off", "! m1off $end\n$var wire 1 \" m1on"),
        ("m1off", "m2off"),
        ("#0", "#1"),
        ("#200", "#199"),
        ("#200", "#201"),
        ("#200", "#100"),
        ("#300", "#299"),
        ("#300", "#301"),
        ("0!\n0\"\n#200\n1!\n#300\n0!\n1\"", "1!\n1\"\n#200\n0!\n#300\n1!\n0\""),
        ("#300\n0!\n1\"\n", ""),
        ("#300\n0!\n1\"\n", "#300\n0!\n"),
        ("#300\n0!\n1\"\n", "#300\n1\"\n"),
        ("#300\n0!\n1\"\n", "#300\n0!\n1\"\n#301\n0\"\n"),
        ("#300\n0!\n1\"\n", "#300\n0!\n1\"\n#9999\n0\"\n"),
        ("#200\n", "#120\n1!\n#140\n0!\n#200\n"),
        ("$upscope", "$var wire 1 # m2on $end\n$upscope"),
        ("$var wire 1 \" m1off $end\n", ""),
    ] {
        let mut dump = good.replacen(right, wrong, 1);
        assert_ne!(dump, good);
        // Whole again where a signal came or went.
        match wrong {
            "" if right.starts_with("$var") => dump = dump.replace("0\"\n", "").replace("1\"\n", ""),
            "$var wire 1 # m2on $end\n$upscope" => dump = dump.replacen("0\"\n", "0\"\n0#\n", 1),
            _ => {}
        }
        Wave::read(dump.as_bytes()).unwrap_or_else(|fault| panic!("{dump}{fault}"));
        assert!(read_back(file, dump.as_bytes()).is_err(), "{dump}");
    }
    // By number is the writer's rule, not the reader's.
    assert!(read_back(file, good.replace("0!\n1\"\n", "1\"\n0!\n").as_bytes()).is_ok());
    assert!(read_back(file, b"").is_err());
    assert!(read_back(&[b'\n'; 65_537], good.as_bytes()).is_err());
    assert_eq!(read_back(&[b'\n'; 65_537], b""), Ok(0));
    // Times 0, 99 to 101, 199 to 201, 299 to 301.
    assert_eq!(read_back(file, good.as_bytes()), Ok(20));
}
