//! The totals of a sitting (rule 8.3), each counted by itself from a
//! motor's history. Nothing is carried along from scan to scan.

use crate::book::Book;
use crate::rules::{End, Reading};

/// What a T line tells of a motor, in its order.
#[derive(Clone, Copy, Debug, Default, PartialEq, Eq)]
pub struct Totals {
    pub issued: u64,
    pub confirmed: u64,
    pub displaced: u64,
    pub overdue: u64,
    /// 0 or 1.
    pub under_way: u64,
    /// Time of all scans with a sure On reading, whatever position was pretended
    /// in the others.
    pub on: u64,
    /// Least and greatest time from issue to confirmation, 0 if there was none.
    pub best: u64,
    pub worst: u64,
}

impl Totals {
    pub fn of(book: &Book) -> Totals {
        let scans = &book.history;
        let ended = |end| scans.iter().filter(|scan| scan.end == Some(end)).count() as u64;
        let times = confirmation_times(book);
        Totals {
            issued: scans.iter().filter(|scan| scan.issued.is_some()).count() as u64,
            confirmed: ended(End::Confirmed),
            displaced: ended(End::Displaced),
            overdue: ended(End::Overdue),
            under_way: u64::from(book.under_way().is_some()),
            on: scans
                .iter()
                .filter(|scan| scan.reading == Reading::On)
                .map(|scan| u64::from(scan.period))
                .sum(),
            best: times.iter().copied().min().unwrap_or(0),
            worst: times.iter().copied().max().unwrap_or(0),
        }
    }

    /// The line for motor `number`.
    pub fn line(&self, number: usize) -> String {
        let Totals { issued, confirmed, displaced, overdue, under_way, on, best, worst } = self;
        format!("T,{number},{issued},{confirmed},{displaced},{overdue},{under_way},{on},{best},{worst}\n")
    }
}

/// For each confirmed command the periods of the scans after the one that issued
/// it, up to and with the one that confirmed it.
fn confirmation_times(book: &Book) -> Vec<u64> {
    let scans = &book.history;
    let mut times = Vec::new();
    for (place, scan) in scans.iter().enumerate() {
        if scan.end == Some(End::Confirmed) {
            // The confirming scan may itself issue one more, so the search ends before it.
            let issuing = scans[..place].iter().rposition(|earlier| earlier.issued.is_some());
            let after = issuing.expect("a confirmed command was issued") + 1;
            times.push(scans[after..=place].iter().map(|scan| u64::from(scan.period)).sum());
        }
    }
    times
}
