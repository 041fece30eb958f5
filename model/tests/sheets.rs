//! The sheets, against the model and against the fast version.

use motor_model::sheets::{given_sheets, more_sheets, Mark};
use motor_model::{fast, file};

#[test]
fn sheets_of_the_rule_book() {
    let all = given_sheets();
    assert_eq!(all.len(), 26);
    for sheet in all {
        sheet.judge(&file::run(sheet.file.as_bytes())).unwrap_or_else(|e| panic!("{}: {e}", sheet.name));
    }
}

#[test]
fn sheets_worked_by_hand() {
    for sheet in more_sheets() {
        sheet.judge(&file::run(sheet.file.as_bytes())).unwrap_or_else(|e| panic!("{}: {e}", sheet.name));
    }
}

#[test]
fn sheets_in_the_fast_version() {
    for sheet in given_sheets().into_iter().chain(more_sheets()) {
        let mut print = Vec::new();
        fast::run(sheet.file.as_bytes(), &mut print).unwrap();
        sheet.judge(&print).unwrap_or_else(|e| panic!("{}: {e}", sheet.name));
    }
}

#[test]
fn a_wrong_print_is_no_mark() {
    for sheet in given_sheets() {
        for print in [&b""[..], b"\n", b"R,1,1,2,1,0,0,0,0", b"E,1,6\n", b"R,9,9,9,9,9,9,9,9\n"] {
            assert!(sheet.judge(print).is_err(), "{}", sheet.name);
        }
    }
}

/// The totals belong to the mark wherever it has the end of the print.
#[test]
fn totals_belong_to_the_mark() {
    for sheet in given_sheets().into_iter().chain(more_sheets()) {
        let print = String::from_utf8(file::run(sheet.file.as_bytes())).unwrap();
        let without: String = print.split_inclusive('\n').filter(|line| !line.starts_with('T')).collect();
        if without != print && !matches!(sheet.mark, Mark::Field(..)) {
            assert!(sheet.judge(without.as_bytes()).is_err(), "{}", sheet.name);
        }
        assert!(sheet.judge(format!("{print}E,9,5\n").as_bytes()).is_err(), "{}", sheet.name);
    }
}
