//! Each refusal with an example, and the order among them.

use motor_model::file::{number, run};
use motor_model::record::Record;
use motor_model::rules::{scan_one, scan_table};

fn text(file: &str) -> String {
    String::from_utf8(run(file.as_bytes())).unwrap()
}

fn full_table() -> String {
    (1..=32).map(|k| format!("M,{k},0,0,0,0\n")).collect()
}

/// The totals of so many motors that were given no command and never On.
fn no_totals(motors: u32) -> String {
    (1..=motors).map(|k| format!("T,{k},0,0,0,0,0,0,0,0\n")).collect()
}

/// One byte too many: `E,0,1` alone.
#[test]
fn refusal_1() {
    let mut file = b"M,1,0,0,0,0\n".to_vec();
    while file.len() < 65_536 {
        file.extend_from_slice(b"S,1\n");
    }
    assert_eq!(file.len(), 65_536);
    let print = run(&file);
    assert!(print.starts_with(b"R,1,1,2,1,0,0,0,0\n"));
    assert!(print.ends_with(b"\nR,16381,1,2,1,0,0,0,0\nT,1,0,0,0,0,0,0,0,0\n"));
    assert_eq!(print.iter().filter(|b| **b == b'\n').count(), 16_382);
    file.push(b'S');
    assert_eq!(run(&file), b"E,0,1\n");
    assert_eq!(run(&vec![b'\n'; 65_537]), b"E,0,1\n");
    assert_eq!(run(&vec![b'\n'; 65_536]), b"E,1,5\n");
}

#[test]
fn refusal_2() {
    assert_eq!(text("S,0\n"), "E,1,2\n");
    assert_eq!(text("M,1,0,0,0,0\nS,1\nS,10001\nS,1\n"), "R,1,1,2,1,0,0,0,0\nE,3,2\n");
    assert_eq!(text("S,4294967295\n"), "E,1,2\n");
    assert_eq!(text("S,10000\n"), "");
}

#[test]
fn refusal_3() {
    assert_eq!(text("M,1,0,0,0,0\nI,1,131072\n"), "E,2,3\n");
    assert_eq!(text("M,1,0,0,0,0\nI,1,4294967295\n"), "E,2,3\n");
    assert_eq!(text("M,1,0,0,0,0\nI,1,131071\n"), no_totals(1));
}

#[test]
fn refusal_4() {
    for line in
        ["M,1,65536,0,0,0", "M,1,0,32,0,0", "M,1,0,0,600001,0", "M,1,0,0,0,600001", "M,1,0,0,0,4294967295"]
    {
        assert_eq!(text(&format!("{line}\n")), "E,1,4\n", "{line}");
    }
    assert_eq!(text("M,1,65535,31,600000,600000\n"), no_totals(1));
}

#[test]
fn refusal_5() {
    let wrong = [
        "",
        " ",
        ",",
        "X",
        "X,1",
        "m,1,0,0,0,0",
        "s,1",
        "i,1,1",
        "R,1,1,2,1,0,0,0,0",
        "E,1,5",
        "M",
        "M,",
        "I",
        "S",
        "S,",
        "S,,",
        "S,1,",
        ",S,1",
        "S,1,1",
        "SS,1",
        "S 1",
        " S,1",
        "S ,1",
        "S, 1",
        "S,1 ",
        "S,+1",
        "S,-1",
        "S,-0",
        "S,01",
        "S,00",
        "S,000100",
        "S,1.0",
        "S,1e2",
        "S,0x1",
        "S,\"1\"",
        "S,4294967296",
        "S,99999999999999999999",
        "S,1\r",
        "S,1\0",
        "S,\u{ff11}",
        "I,1",
        "I,1,1,1",
        "I,,1",
        "I,1,",
        "M,1,0,0,0",
        "M,1,0,0,0,0,0",
        "M,1,0,0,0,0,",
        "M,1,0,0,00,0",
        "M,01,0,0,0,0",
        "M,1,0,0,0,4294967296",
        "\u{feff}S,1",
    ];
    for line in wrong {
        assert_eq!(text(&format!("M,1,0,0,0,0\n{line}\nS,1\n")), "E,2,5\n", "{line:?}");
    }
    // without LF, however good it is otherwise
    for line in ["S,1", "S", "M,2,0,0,0,0", "I,1,0"] {
        assert_eq!(text(&format!("M,1,0,0,0,0\n{line}")), "E,2,5\n", "{line:?}");
    }
    // bytes that are no text
    assert_eq!(run(b"S,\xff\n"), b"E,1,5\n");
    assert_eq!(run(b"\xff\xfe\n"), b"E,1,5\n");
}

/// The limit of 80 bytes: no line that long can be good for its fields
/// either, so the bound itself never shows.
#[test]
fn longest_good_line() {
    let longest = "M,4294967295,4294967295,4294967295,4294967295,4294967295";
    assert_eq!(longest.len(), 56);
    assert_eq!(text(&format!("{longest}\n")), "E,1,4\n");
    for length in 57..=90 {
        assert_eq!(text(&format!("S,{}\n", "1".repeat(length - 2))), "E,1,5\n");
        assert_eq!(text(&format!("{}\n", "S,1,".repeat(length / 4))), "E,1,5\n");
    }
}

#[test]
fn refusal_7() {
    assert_eq!(text(&(full_table() + "M,33,0,0,0,0\n")), "E,33,7\n");
    assert_eq!(text(&full_table()), no_totals(32));
}

/// M after a scan that was accepted, also one of an empty table.
#[test]
fn refusal_8() {
    assert_eq!(text("S,1\nM,1,0,0,0,0\n"), "E,2,8\n");
    assert_eq!(text("M,1,0,0,0,0\nS,1\nM,2,0,0,0,0\n"), "R,1,1,2,1,0,0,0,0\nE,3,8\n");
}

#[test]
fn refusal_9() {
    for line in ["M,0,0,0,0,0", "M,1,0,0,0,0", "M,3,0,0,0,0", "M,4294967295,0,0,0,0"] {
        assert_eq!(text(&format!("M,1,0,0,0,0\n{line}\n")), "E,2,9\n", "{line}");
    }
}

#[test]
fn refusal_10() {
    assert_eq!(text("I,1,0\n"), "E,1,10\n");
    for line in ["I,0,0", "I,2,0", "I,4294967295,0", "I,33,0"] {
        assert_eq!(text(&format!("M,1,0,0,0,0\n{line}\n")), "E,2,10\n", "{line}");
    }
}

/// The orders of lines (rule 4.3).
#[test]
fn order_of_refusals() {
    let full = full_table();
    let scanned = format!("{full}S,1\n");
    let ends_in = |file: &str, refusal: u32| {
        let print = text(file);
        assert!(print.ends_with(&format!(",{refusal}\n")), "{file} gave {print}");
        assert!(print.lines().last().unwrap().starts_with("E,"));
    };
    ends_in(&format!("{scanned}M,99,65536,0,0,x\n"), 5);
    ends_in(&format!("{scanned}M,99,65536,0,0,0\n"), 4);
    ends_in(&format!("{full}M,99,0,32,0,0\n"), 4);
    ends_in("M,2,0,32,0,0\n", 4);
    ends_in(&format!("{scanned}M,99,0,0,0,0\n"), 8);
    ends_in(&format!("{scanned}M,33,0,0,0,0\n"), 8);
    ends_in("S,1\nM,2,0,0,0,0\n", 8);
    ends_in(&format!("{full}M,99,0,0,0,0\n"), 7);
    ends_in(&format!("{full}M,1,0,0,0,0\n"), 7);
    ends_in("M,2,0,0,0,0\n", 9);
    ends_in("I,1,131072,0\n", 5);
    ends_in("I,1,131072\n", 10);
    ends_in("M,1,0,0,0,0\nI,1,131072\n", 3);
    ends_in("S,0,0\n", 5);
    ends_in("S,0\n", 2);
}

/// The orders of scans (rule 4.3), which leave table and words as they are.
#[test]
fn refusals_of_the_scans() {
    let fresh = Record::fresh(193, 0, 500, 300);
    let broken = Record { mode: 3, ..fresh };
    let refused = |records: &[Record], words: &[u32], period| {
        let mut table = records.to_vec();
        let refusal = scan_table(&mut table, words, period).err();
        assert!(refusal.is_none() || table == records);
        refusal.unwrap_or(0)
    };
    assert_eq!(refused(&[broken], &[131_072, 0], 0), 1);
    assert_eq!(refused(&[], &[0], 0), 1);
    assert_eq!(refused(&[broken; 33], &[0; 33], 0), 1);
    assert_eq!(refused(&[fresh, broken], &[131_072, 0], 0), 6);
    assert_eq!(refused(&[fresh, fresh], &[131_072, 0], 0), 2);
    assert_eq!(refused(&[fresh, fresh], &[0, 131_072], 1), 3);
    assert_eq!(refused(&[fresh; 32], &[0; 32], 1), 0);
    assert_eq!(refused(&[], &[], 1), 0);
    assert_eq!(refused(&[], &[], 0), 2);

    let single = |record: Record, word, period| {
        let mut lent = record;
        let refusal = scan_one(&mut lent, word, period).err();
        assert!(refusal.is_none() || lent == record);
        refusal.unwrap_or(0)
    };
    assert_eq!(single(broken, 131_072, 0), 6);
    assert_eq!(single(fresh, 131_072, 0), 2);
    assert_eq!(single(fresh, 131_072, 10_001), 2);
    assert_eq!(single(fresh, 131_072, 1), 3);
    assert_eq!(single(fresh, 131_071, 10_000), 0);
}

/// Every field one above its range, and at its end.
#[test]
fn ranges_of_a_lent_record() {
    let fresh = Record::fresh(0, 0, 0, 0);
    type Field = fn(&mut Record) -> &mut u32;
    let edges: [(Field, u32); 14] = [
        (|r| &mut r.ops_1, 65_535),
        (|r| &mut r.ops_2, 31),
        (|r| &mut r.wait, 600_000),
        (|r| &mut r.pulse, 600_000),
        (|r| &mut r.mode, 2),
        (|r| &mut r.last_sure, 2),
        (|r| &mut r.position, 2),
        (|r| &mut r.command, 7),
        (|r| &mut r.sum, 599_999),
        (|r| &mut r.end, 3),
        (|r| &mut r.output, 2),
        (|r| &mut r.pulse_sum, 599_999),
        (|r| &mut r.flags, 32_767),
        (|r| &mut r.previous, 131_071),
    ];
    for (field, greatest) in edges {
        let mut record = fresh;
        *field(&mut record) = greatest;
        assert!(scan_one(&mut record.clone(), 0, 1).is_ok());
        *field(&mut record) = greatest + 1;
        assert_eq!(scan_one(&mut record.clone(), 0, 1).err(), Some(6));
        *field(&mut record) = u32::MAX;
        assert_eq!(scan_one(&mut record, 0, 1).err(), Some(6));
    }
}

#[test]
fn numbers() {
    for (field, value) in [("0", 0), ("1", 1), ("10", 10), ("4294967295", u32::MAX)] {
        assert_eq!(number(field.as_bytes()), Some(value));
    }
    for field in ["", "00", "01", "+1", "-1", " 1", "1 ", "4294967296", "42949672950", "a", "1a"] {
        assert_eq!(number(field.as_bytes()), None, "{field:?}");
    }
}
