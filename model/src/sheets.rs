//! The sheets of the rule book (docs/RULES.md), some at a limit, and others
//! worked by hand. The rule book marks R lines; the totals below them are
//! worked by hand too, and so are the dumps.

/// What a sheet marks.
#[derive(Clone, Debug)]
pub enum Mark {
    /// The whole print.
    Whole(String),
    /// The last lines of the print.
    Last(&'static str),
    /// One field of the last line before the totals, which is an R line.
    Field(Field, &'static str),
}

#[derive(Clone, Copy, Debug)]
pub enum Field {
    Mode = 3,
    Output = 7,
}

#[derive(Clone, Debug)]
pub struct Sheet {
    pub name: &'static str,
    pub file: String,
    pub mark: Mark,
}

impl Sheet {
    /// Nothing if the print bears the mark, otherwise what is missing.
    pub fn judge(&self, print: &[u8]) -> Result<(), String> {
        let text = String::from_utf8_lossy(print);
        match &self.mark {
            Mark::Whole(whole) if text == *whole => Ok(()),
            Mark::Whole(whole) => Err(format!("expected the print {whole:?}, got {text:?}")),
            Mark::Last(lines) if text == *lines || text.ends_with(&format!("\n{lines}")) => Ok(()),
            Mark::Last(lines) => Err(format!("expected {lines:?} at the end, got the print {text:?}")),
            Mark::Field(field, value) => {
                let lines = text.strip_suffix('\n').unwrap_or("");
                let last = lines.rsplit('\n').find(|line| !line.starts_with("T,"));
                let fields: Vec<&str> = last.unwrap_or("").split(',').collect();
                if fields.len() == 9 && fields[0] == "R" && fields[*field as usize] == *value {
                    Ok(())
                } else {
                    Err(format!("expected {field:?} {value}, got the print {text:?}"))
                }
            }
        }
    }
}

const MOTOR: &str = "M,1,193,0,500,300\n";
const TWO_SCANS: &str = "I,1,32\nS,100\nI,1,4128\nS,100\n";

fn sheet(name: &'static str, parts: &[&str], mark: Mark) -> Sheet {
    Sheet { name, file: parts.concat(), mark }
}

fn whole(print: &str) -> Mark {
    Mark::Whole(print.to_string())
}

/// The sheets of the rule book, and those at a limit of a period, a word, a
/// setting and the table.
pub fn given_sheets() -> Vec<Sheet> {
    use Field::*;
    use Mark::{Field as Only, Last};
    let table_32: String = (1..=32).map(|k| format!("M,{k},193,0,500,300\n")).collect();
    let print_32: String = (1..=32).map(|k| format!("R,1,{k},2,0,0,0,0,2\n")).collect();
    let totals_32: String = (1..=32).map(|k| format!("T,{k},0,0,0,0,0,0,0,0\n")).collect();
    vec![
        sheet(
            "the whole print",
            &["M,1,193,0,500,300\nI,1,32\nS,100\nI,1,4128\nS,100\nI,1,16\nS,100\n"],
            whole("R,1,1,2,1,0,0,0,0\nR,2,1,2,1,7,0,1,0\nR,3,1,2,2,0,1,0,0\nT,1,1,1,0,0,0,100,100,100\n"),
        ),
        sheet(
            "scan 1, word 4128",
            &[MOTOR, "I,1,4128\nS,100\n"],
            whole("R,1,1,2,1,7,0,1,0\nT,1,1,0,0,0,1,0,0,0\n"),
        ),
        sheet(
            "scan 4",
            &[MOTOR, TWO_SCANS, "I,1,32\nS,100\nS,100\n"],
            Last("R,4,1,2,1,7,0,1,0\nT,1,1,0,0,0,1,0,0,0\n"),
        ),
        sheet("scan 5", &[MOTOR, TWO_SCANS, "I,1,32\nS,100\nS,100\nS,100\n"], Only(Output, "0")),
        sheet(
            "scan 6",
            &[MOTOR, TWO_SCANS, "I,1,32\nS,100\nS,100\nS,100\nS,100\n"],
            Last("R,6,1,2,1,7,0,0,0\nT,1,1,0,0,0,1,0,0,0\n"),
        ),
        sheet(
            "scan 7",
            &[MOTOR, TWO_SCANS, "I,1,32\nS,100\nS,100\nS,100\nS,100\nS,100\n"],
            Last("R,7,1,2,1,0,3,0,8192\nT,1,1,0,0,1,0,0,0,0\n"),
        ),
        sheet(
            "scan 7, word 16",
            &[MOTOR, TWO_SCANS, "I,1,32\nS,100\nS,100\nS,100\nS,100\nI,1,16\nS,100\n"],
            Last("R,7,1,2,2,0,1,0,0\nT,1,1,1,0,0,0,100,500,500\n"),
        ),
        sheet(
            "scan 3, word 288",
            &[MOTOR, TWO_SCANS, "I,1,288\nS,100\n"],
            Last("R,3,1,2,1,2,2,2,32\nT,1,2,0,1,0,1,0,0,0\n"),
        ),
        sheet(
            "scan 3, word 416",
            &[MOTOR, TWO_SCANS, "I,1,416\nS,100\n"],
            Last("R,3,1,2,1,2,2,2,32\nT,1,2,0,1,0,1,0,0,0\n"),
        ),
        sheet(
            "scan 3, word 288, then 32",
            &[MOTOR, TWO_SCANS, "I,1,288\nS,100\nI,1,32\nS,100\n"],
            Last("R,4,1,2,1,0,1,0,32\nT,1,2,1,1,0,0,0,100,100\n"),
        ),
        sheet(
            "scan 3, word 416, then 32",
            &[MOTOR, TWO_SCANS, "I,1,416\nS,100\nI,1,32\nS,100\n"],
            Last("R,4,1,2,1,0,1,0,32\nT,1,2,1,1,0,0,0,100,100\n"),
        ),
        sheet(
            "W = 0, scan 3",
            &["M,1,193,0,0,300\n", TWO_SCANS, "I,1,32\nS,100\n"],
            Last("R,3,1,2,1,0,3,0,8192\nT,1,1,0,0,1,0,0,0,0\n"),
        ),
        sheet(
            "words 32, 16",
            &[MOTOR, "I,1,32\nS,100\nI,1,16\nS,100\n"],
            Last("R,2,1,2,2,0,0,0,4\nT,1,0,0,0,0,0,100,0,0\n"),
        ),
        sheet(
            "scan 1, word 48",
            &[MOTOR, "I,1,48\nS,100\n"],
            whole("R,1,1,2,0,0,0,0,16386\nT,1,0,0,0,0,0,0,0,0\n"),
        ),
        sheet(
            "word 48, OPS_2 28",
            &["M,1,193,28,500,300\nI,1,48\nS,100\n"],
            whole("R,1,1,2,2,0,0,0,16386\nT,1,0,0,0,0,0,0,0,0\n"),
        ),
        sheet(
            "word 48, OPS_2 12",
            &["M,1,193,12,500,300\nI,1,48\nS,100\n"],
            whole("R,1,1,2,1,0,0,0,16386\nT,1,0,0,0,0,0,0,0,0\n"),
        ),
        sheet("scan 1, word 544", &[MOTOR, "I,1,544\nS,100\n"], Only(Mode, "0")),
        sheet("scan 1, word 2592", &[MOTOR, "I,1,2592\nS,100\n"], Only(Mode, "2")),
        sheet(
            "period 10,000",
            &[MOTOR, "I,1,32\nS,10000\n"],
            whole("R,1,1,2,1,0,0,0,0\nT,1,0,0,0,0,0,0,0,0\n"),
        ),
        sheet("period 10,001", &[MOTOR, "I,1,32\nS,10001\n"], whole("E,3,2\n")),
        // Local mode forms no flags; SMA is chosen, sets flag 6, has no output.
        sheet(
            "word 131,071",
            &[MOTOR, "I,1,131071\nS,100\n"],
            whole("R,1,1,2,0,1,0,0,64\nT,1,1,0,0,0,1,0,0,0\n"),
        ),
        sheet("word 131,072", &[MOTOR, "I,1,131072\nS,100\n"], whole("E,2,3\n")),
        sheet(
            "W 600,000",
            &["M,1,193,0,600000,300\nI,1,32\nS,100\n"],
            whole("R,1,1,2,1,0,0,0,0\nT,1,0,0,0,0,0,0,0,0\n"),
        ),
        sheet("W 600,001", &["M,1,193,0,600001,300\nI,1,32\nS,100\n"], whole("E,1,4\n")),
        // Word 0: both open, so unsure with flag 1 alone.
        sheet("32 motors", &[&table_32, "S,100\n"], Mark::Whole(print_32 + &totals_32)),
        sheet("33 motors", &[&table_32, "M,33,193,0,500,300\nS,100\n"], whole("E,33,7\n")),
    ]
}

/// Other sheets, worked by hand.
pub fn more_sheets() -> Vec<Sheet> {
    use Mark::Last;
    let long_line = format!("S,{}\n", "1".repeat(79));
    let line_of_80 = format!("S,{}\n", "1".repeat(78));
    let ten_minutes = "S,10000\n".repeat(61);
    vec![
        sheet("settings at their limits", &["M,1,65535,31,600000,600000\n"], whole("T,1,0,0,0,0,0,0,0,0\n")),
        sheet("OPS_1 65,536", &["M,1,65536,31,600000,600000\n"], whole("E,1,4\n")),
        sheet("OPS_2 32", &["M,1,65535,32,600000,600000\n"], whole("E,1,4\n")),
        sheet("U 600,001", &["M,1,65535,31,600000,600001\n"], whole("E,1,4\n")),
        sheet("period 0", &[MOTOR, "S,0\n"], whole("E,2,2\n")),
        sheet("motor 0", &[MOTOR, "I,0,0\n"], whole("E,2,10\n")),
        sheet("motor 2 of 1", &[MOTOR, "I,2,131072\n"], whole("E,2,10\n")),
        sheet("not the next number", &[MOTOR, "M,3,0,0,0,0\n"], whole("E,2,9\n")),
        sheet("an empty file", &[], whole("")),
        sheet("a lone LF", &["\n"], whole("E,1,5\n")),
        sheet("no motors", &["S,1\nS,1\nM,1,0,0,0,0\n"], whole("E,3,8\n")),
        sheet("81 bytes", &[MOTOR, "S,1\n", &long_line], whole("R,1,1,2,0,0,0,0,2\nE,3,5\n")),
        sheet("80 bytes", &[MOTOR, &line_of_80], whole("E,2,5\n")),
        sheet("no LF at the end", &[MOTOR, "S,100"], whole("E,2,5\n")),
        sheet("CR before LF", &[MOTOR, "S,100\r\n"], whole("E,2,5\n")),
        sheet("greatest number and one", &["S,4294967296\n"], whole("E,1,5\n")),
        sheet("32 bits and one", &["S,4294967297\n"], whole("E,1,5\n")),
        sheet("64 bits and one", &["S,18446744073709551617\n"], whole("E,1,5\n")),
        sheet("128 bits and one", &["S,340282366920938463463374607431768211457\n"], whole("E,1,5\n")),
        // Both closed in local mode: flags 1 and 14 where they are formed, though
        // Reset is 1 and SMA is issued in this very scan.
        sheet(
            "word 131,071, OPS_2 2",
            &["M,1,193,2,500,300\nI,1,131071\nS,100\n"],
            whole("R,1,1,2,0,1,0,0,16450\nT,1,1,0,0,0,1,0,0,0\n"),
        ),
        sheet(
            "both closed, both open, Off",
            &[MOTOR, "I,1,48\nS,100\nI,1,0\nS,100\nI,1,32\nS,100\n"],
            whole("R,1,1,2,0,0,0,0,16386\nR,2,1,2,0,0,0,0,2\nR,3,1,2,1,0,0,0,0\nT,1,0,0,0,0,0,0,0,0\n"),
        ),
        // Under way nothing is told; once overdue, all of it.
        sheet(
            "both closed until overdue",
            &[MOTOR, "I,1,4128\nS,100\nI,1,48\nS,499\nS,1\n"],
            whole("R,1,1,2,1,7,0,1,0\nR,2,1,2,0,7,0,0,0\nR,3,1,2,0,0,3,0,24578\nT,1,1,0,0,1,0,0,0,0\n"),
        ),
        sheet(
            "one switch, word 48",
            &["M,1,192,0,500,300\nI,1,48\nS,100\n"],
            whole("R,1,1,2,2,0,0,0,0\nT,1,0,0,0,0,0,100,0,0\n"),
        ),
        // A favourite error: confirming from the position.
        sheet(
            "a pretended position does not confirm",
            &["M,1,193,28,500,300\nI,1,4128\nS,100\nI,1,48\nS,100\n"],
            Last("R,2,1,2,2,7,0,1,0\nT,1,1,0,0,0,1,0,0,0\n"),
        ),
        // A favourite error: asking what displaces before the choice.
        sheet(
            "the choice comes first",
            &[MOTOR, "I,1,16\nS,100\nI,1,8208\nS,100\nI,1,400\nS,100\n"],
            whole("R,1,1,2,2,0,0,0,0\nR,2,1,2,2,6,0,2,0\nR,3,1,2,2,6,0,2,0\nT,1,1,0,0,0,1,300,0,0\n"),
        ),
        // Sums that grow where nothing runs would be out of range by then.
        sheet(
            "a held output has no sum",
            &["M,1,193,0,500,0\nI,1,4128\nS,100\n", &ten_minutes],
            Last("R,62,1,2,1,0,0,1,8192\nT,1,1,0,0,1,0,0,0,0\n"),
        ),
        // A favourite error: a held output that drops at the end.
        sheet(
            "a held output outlives the command",
            &["M,1,193,0,500,0\nI,1,4128\nS,100\nS,500\n"],
            Last("R,2,1,2,1,0,3,1,8192\nT,1,1,0,0,1,0,0,0,0\n"),
        ),
        // A rise is measured against the last scan, not the last I line.
        sheet(
            "no rise between two scans",
            &[MOTOR, "I,1,4128\nS,100\nI,1,16\nS,100\nI,1,4112\nI,1,32\nS,100\nI,1,0\nI,1,32\nS,100\n"],
            Last("R,4,1,2,1,0,0,0,8\nT,1,1,1,0,0,0,100,100,100\n"),
        ),
        // Totals.
        sheet(
            "two motors, no scan",
            &[MOTOR, "M,2,0,0,0,0\nI,1,16\n"],
            whole("T,1,0,0,0,0,0,0,0,0\nT,2,0,0,0,0,0,0,0,0\n"),
        ),
        sheet(
            "no totals after a refusal",
            &[MOTOR, "I,1,4128\nS,100\nI,1,16\nS,100\nI,2,0\n"],
            whole("R,1,1,2,1,7,0,1,0\nR,2,1,2,2,0,1,0,0\nE,6,10\n"),
        ),
        // 70 ms and 300 ms from issue to confirmation, 100 + 50 ms On.
        sheet(
            "best and worst",
            &[MOTOR, "I,1,8208\nS,100\nI,1,32\nS,70\nI,1,4128\nS,100\nS,250\nI,1,16\nS,50\n"],
            Last("R,5,1,2,2,0,1,0,0\nT,1,2,2,0,0,0,150,70,300\n"),
        ),
        // None of the three is confirmed: no best and no worst.
        sheet(
            "displaced, overdue, under way",
            &[MOTOR, "I,1,4128\nS,100\nI,1,256\nS,40\nI,1,0\nS,500\nI,1,4096\nS,100\n"],
            Last("R,4,1,2,0,7,0,1,258\nT,1,3,0,1,1,1,0,0,0\n"),
        ),
        // One and the same scan confirms KO on and issues KO off.
        sheet(
            "confirmed and issued in one scan",
            &[MOTOR, "I,1,4128\nS,100\nI,1,8208\nS,20\nI,1,32\nS,30\n"],
            Last("R,3,1,2,1,0,1,0,0\nT,1,2,2,0,0,0,20,20,30\n"),
        ),
        sheet(
            "a pretended On is no On reading",
            &["M,1,193,28,500,300\nI,1,48\nS,100\nI,1,16\nS,7\nI,1,0\nS,100\n"],
            Last("R,3,1,2,2,0,0,0,2\nT,1,0,0,0,0,0,7,0,0\n"),
        ),
        // Words in hexadecimal.
        sheet(
            "the whole print, in hexadecimal",
            &["M,1,0xC1,0x0,500,300\nI,1,0x20\nS,100\nI,1,0x1020\nS,100\nI,1,0x10\nS,100\n"],
            whole("R,1,1,2,1,0,0,0,0\nR,2,1,2,1,7,0,1,0\nR,3,1,2,2,0,1,0,0\nT,1,1,1,0,0,0,100,100,100\n"),
        ),
        sheet(
            "the whole print, in both notations",
            &["M,1,0x000000C1,0,500,300\nI,1,0x0020\nS,100\nI,1,4128\nS,100\nI,1,0x00000010\nS,100\n"],
            whole("R,1,1,2,1,0,0,0,0\nR,2,1,2,1,7,0,1,0\nR,3,1,2,2,0,1,0,0\nT,1,1,1,0,0,0,100,100,100\n"),
        ),
        // 0x1C is 28, a pretended On.
        sheet(
            "word 0x30, OPS_2 0x1C",
            &["M,1,193,0x1C,500,300\nI,1,0x30\nS,100\n"],
            whole("R,1,1,2,2,0,0,0,16386\nT,1,0,0,0,0,0,0,0,0\n"),
        ),
        sheet(
            "words at their limits, in hexadecimal",
            &["M,1,0xFFFF,0x1F,600000,600000\nI,1,0x1FFFF\n"],
            whole("T,1,0,0,0,0,0,0,0,0\n"),
        ),
        sheet("OPS_1 0x10000", &["M,1,0x10000,0x1F,600000,600000\n"], whole("E,1,4\n")),
        sheet("OPS_2 0x20", &["M,1,0xFFFF,0x20,600000,600000\n"], whole("E,1,4\n")),
        sheet("OPS_1 0xFFFFFFFF", &["M,1,0xFFFFFFFF,0,500,300\n"], whole("E,1,4\n")),
        sheet("word 0x20000", &[MOTOR, "I,1,0x20000\n"], whole("E,2,3\n")),
        sheet("word 0xFFFFFFFF", &[MOTOR, "I,1,0xFFFFFFFF\n"], whole("E,2,3\n")),
        sheet("word 0x80000020", &[MOTOR, "I,1,0x80000020\n"], whole("E,2,3\n")),
        sheet("motor 2 of 1, word 0x20000", &[MOTOR, "I,2,0x20000\n"], whole("E,2,10\n")),
        sheet("OPS_1 with a small letter", &["M,1,0xc1,0,500,300\n"], whole("E,1,5\n")),
        sheet("OPS_2 with a small letter", &["M,1,193,0x1c,500,300\n"], whole("E,1,5\n")),
        sheet("word with a small letter", &[MOTOR, "I,1,0x2a\n"], whole("E,2,5\n")),
        sheet("word with 0X", &[MOTOR, "I,1,0X20\n"], whole("E,2,5\n")),
        sheet("word without a digit", &[MOTOR, "I,1,0x\n"], whole("E,2,5\n")),
        sheet("word in nine digits", &[MOTOR, "I,1,0x000000020\n"], whole("E,2,5\n")),
        sheet("32 bits and more, in hexadecimal", &[MOTOR, "I,1,0x100000020\n"], whole("E,2,5\n")),
        sheet("number of M in hexadecimal", &["M,0x1,193,0,500,300\n"], whole("E,1,5\n")),
        sheet("W in hexadecimal", &["M,1,193,0,0x1F4,300\n"], whole("E,1,5\n")),
        sheet("U in hexadecimal", &["M,1,193,0,500,0x12C\n"], whole("E,1,5\n")),
        sheet("number of I in hexadecimal", &[MOTOR, "I,0x1,32\n"], whole("E,2,5\n")),
        sheet("period in hexadecimal", &[MOTOR, "S,0x64\n"], whole("E,2,5\n")),
    ]
}

/// A file with its whole dump.
#[derive(Clone, Debug)]
pub struct DumpSheet {
    pub name: &'static str,
    pub file: String,
    pub dump: String,
}

fn dump_sheet(name: &'static str, parts: &[&str], dump: &[&str]) -> DumpSheet {
    DumpSheet { name, file: parts.concat(), dump: dump.concat() }
}

/// Up to the values at time 0.
const NO_MOTOR: &str =
    "$timescale 1 ms $end\n$scope module bench $end\n$upscope $end\n$enddefinitions $end\n#0\n";
const ONE_MOTOR: &str = "\
$timescale 1 ms $end
$scope module bench $end
$var wire 1 ! m1on $end
$var wire 1 \" m1off $end
$upscope $end
$enddefinitions $end
#0
0!
0\"
";
/// The characters of codes 33 to 96.
const CODES: &str = "!\"#$%&'()*+,-./0123456789:;<=>?@ABCDEFGHIJKLMNOPQRSTUVWXYZ[\\]^_`";

/// Up to the values at time 0, of a full table.
fn full_table() -> String {
    let codes: Vec<char> = CODES.chars().collect();
    let motors: String = (1..)
        .zip(codes.chunks(2))
        .map(|(k, pair)| {
            format!("$var wire 1 {} m{k}on $end\n$var wire 1 {} m{k}off $end\n", pair[0], pair[1])
        })
        .collect();
    let values: String = codes.iter().map(|code| format!("0{code}\n")).collect();
    format!(
        "$timescale 1 ms $end\n$scope module bench $end\n{motors}$upscope $end\n$enddefinitions $end\n#0\n{values}"
    )
}

/// A pulse in every other scan, On by MU and Off by SMA in turn, each by the fewest
/// bytes: nearly the longest dump of any file, and longer than the file.
pub fn longest_dump() -> DumpSheet {
    let turns = 0..2340;
    let file = "M,1,4165,0,0,1\n".to_string() + &"I,1,6\nS,9\nS,9\nI,1,1\nS,9\nS,9\n".repeat(turns.len());
    let turn = |start: u32| {
        let [rise, fall, other_rise, other_fall] = [9, 18, 27, 36].map(|time| start + time);
        format!("#{rise}\n1!\n#{fall}\n0!\n#{other_rise}\n1\"\n#{other_fall}\n0\"\n")
    };
    let dump = ONE_MOTOR.to_string() + &turns.map(|count| turn(36 * count)).collect::<String>();
    DumpSheet { name: "a long dump", file, dump }
}

/// The dump of the rule book, and others worked by hand.
pub fn dump_sheets() -> Vec<DumpSheet> {
    let table_32: String = (1..=32).map(|k| format!("M,{k},193,0,500,300\n")).collect();
    let a_minute = "S,10000\n".repeat(6);
    vec![
        dump_sheet(
            "the whole print",
            &[MOTOR, TWO_SCANS, "I,1,16\nS,100\n"],
            &[ONE_MOTOR, "#200\n1!\n#300\n0!\n"],
        ),
        dump_sheet("an empty file", &[], &[NO_MOTOR]),
        dump_sheet("no motors", &["S,100\nS,1\n"], &[NO_MOTOR]),
        dump_sheet("no scan", &[MOTOR, "I,1,4128\n"], &[ONE_MOTOR]),
        dump_sheet("refused at once", &["\n", MOTOR], &[NO_MOTOR]),
        dump_sheet("refused before any scan", &[MOTOR, "I,2,0\nS,100\n"], &[ONE_MOTOR]),
        dump_sheet("refused in the first scan", &[MOTOR, "I,1,4128\nS,0\nS,100\n"], &[ONE_MOTOR]),
        dump_sheet("refused for want of an LF", &[MOTOR, "I,1,4128\nS,100"], &[ONE_MOTOR]),
        // The later scans would drop the pulse.
        dump_sheet(
            "refused after a change",
            &[MOTOR, "I,1,4128\nS,100\nS,10001\nS,10000\nI,1,16\nS,100\n"],
            &[ONE_MOTOR, "#100\n1!\n"],
        ),
        dump_sheet(
            "nothing changes in some scans",
            &[MOTOR, "I,1,32\nS,100\nS,100\nI,1,4128\nS,7\nS,1\nS,298\nS,1\nS,1\n"],
            &[ONE_MOTOR, "#207\n1!\n#507\n0!\n"],
        ),
        dump_sheet(
            "On falls as Off rises",
            &[MOTOR, TWO_SCANS, "I,1,288\nS,100\n"],
            &[ONE_MOTOR, "#200\n1!\n#300\n0!\n1\"\n"],
        ),
        dump_sheet(
            "On rises as Off falls",
            &[MOTOR, "I,1,8208\nS,100\nI,1,144\nS,100\n"],
            &[ONE_MOTOR, "#100\n1\"\n#200\n1!\n0\"\n"],
        ),
        // KO on is overdue and LZ on issued: the output is what it was.
        dump_sheet(
            "a pulse drops and is raised again in one scan",
            &["M,1,193,0,100,100\nI,1,4128\nS,100\nI,1,160\nS,100\nI,1,16\nS,50\n"],
            &[ONE_MOTOR, "#100\n1!\n#250\n0!\n"],
        ),
        dump_sheet(
            "times above 65,536",
            &["M,1,193,0,500,0\n", &a_minute, "I,1,4128\nS,10000\nI,1,288\nS,1\n"],
            &[ONE_MOTOR, "#70000\n1!\n#70001\n0!\n1\"\n"],
        ),
        dump_sheet("32 motors", &[&table_32], &[&full_table()]),
        dump_sheet("33 motors", &[&table_32, "M,33,193,0,500,300\nS,100\n"], &[&full_table()]),
        dump_sheet(
            "a word before the next motor",
            &["M,1,193,0,500,300\nI,1,4128\nM,2,193,0,500,300\nI,2,8208\nS,100\n"],
            &[
                "$timescale 1 ms $end\n$scope module bench $end\n",
                "$var wire 1 ! m1on $end\n$var wire 1 \" m1off $end\n",
                "$var wire 1 # m2on $end\n$var wire 1 $ m2off $end\n",
                "$upscope $end\n$enddefinitions $end\n#0\n0!\n0\"\n0#\n0$\n#100\n1!\n1$\n",
            ],
        ),
        // Motor 2 On and motor 32 Off, then motor 2 alone falls.
        dump_sheet(
            "two of 32 motors change",
            &[&table_32, "I,32,8208\nI,2,4128\nS,100\nI,2,16\nS,100\n"],
            &[&full_table(), "#100\n1#\n1`\n#200\n0#\n"],
        ),
        longest_dump(),
    ]
}
