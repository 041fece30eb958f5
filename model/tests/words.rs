//! Words in hexadecimal, rule 7.4. Every print here comes from the model
//! and from the fast version alike.

use motor_model::file::{number, run, word};
use motor_model::story::{self, Dice};
use motor_model::words::{self, with_field, NUMBER_PLACES, ODD, WORD_PLACES};
use motor_model::{ends, fast, sheets};
use std::collections::HashMap;

/// The digits, each at the place of its value.
const DIGITS: &[u8] = b"0123456789ABCDEF";

fn value_of(byte: u8) -> Option<u32> {
    DIGITS.iter().position(|digit| *digit == byte).map(|place| place as u32)
}

fn print(file: &[u8]) -> String {
    let model = run(file);
    let mut other = Vec::new();
    fast::run(file, &mut other).unwrap();
    assert!(model == other, "{}", file.escape_ascii());
    String::from_utf8(model).unwrap()
}

fn text(file: &str) -> String {
    print(file.as_bytes())
}

/// The field at each place where a word may stand.
fn with_word(field: &[u8]) -> [Vec<u8>; 3] {
    WORD_PLACES.map(|place| with_field(place, field))
}

/// What such files print for a value, or for none.
fn prints(value: Option<u32>) -> [String; 3] {
    [(1, 4, 65_535), (1, 4, 31), (2, 3, 131_071)].map(|(line, refusal, limit)| match value {
        Some(value) if value <= limit => "T,1,0,0,0,0,0,0,0,0\n".to_string(),
        Some(_) => format!("E,{line},{refusal}\n"),
        None => format!("E,{line},5\n"),
    })
}

/// The field is this value, or none, by itself and in each file.
fn is(field: &[u8], value: Option<u32>) {
    assert_eq!(word(field), value, "{}", field.escape_ascii());
    for (file, expected) in with_word(field).iter().zip(prints(value)) {
        assert_eq!(print(file), expected, "{}", file.escape_ascii());
    }
}

/// Every byte at each place of a field of one digit, and of two.
#[test]
fn every_byte_at_each_place() {
    for field in [&b"0x1"[..], b"0x0", b"0xF", b"0x10", b"0x1F", b"0x0A"] {
        let good = word(field).unwrap();
        for place in 0..field.len() {
            for byte in 0..=255 {
                let mut trial = field.to_vec();
                trial[place] = byte;
                let weight = 16u32.pow((field.len() - 1 - place) as u32);
                let value = match place {
                    0 | 1 => (byte == field[place]).then_some(good),
                    _ => value_of(byte).map(|v| good - weight * value_of(field[place]).unwrap() + weight * v),
                };
                // LF ends the line, so that less of the field is left.
                match byte {
                    b'\n' => with_word(&trial).iter().for_each(|file| drop(print(file))),
                    _ => is(&trial, value),
                }
            }
        }
    }
}

/// Every pair of bytes after `0x`.
#[test]
fn every_two_bytes() {
    for one in 0..=255 {
        for two in 0..=255 {
            let value = value_of(one).zip(value_of(two)).map(|(one, two)| 16 * one + two);
            assert_eq!(word(&[b'0', b'x', one, two]), value, "{one} {two}");
        }
    }
}

/// From no digit to ten, with zeros in front and without.
#[test]
fn every_length() {
    for length in 0..=10 {
        let all = |digit: u32| match length {
            1..=8 => Some((0..length).fold(0, |value, _| value << 4 | digit)),
            _ => None,
        };
        for (digit, byte) in DIGITS.iter().enumerate() {
            is(&[b"0x", &vec![*byte; length][..]].concat(), all(digit as u32));
        }
        // Zeros in front, however many, count as digits.
        for digits in 1..=length {
            let field = format!("0x{}{}", "0".repeat(length - digits), "1".repeat(digits));
            let value = u32::from_str_radix(&"1".repeat(digits), 16).ok().filter(|_| length <= 8);
            is(field.as_bytes(), value);
        }
        // A digit at each place among zeros.
        for place in 0..length {
            let mut field = [b"0x", &vec![b'0'; length][..]].concat();
            field[2 + place] = b'A';
            is(&field, (length <= 8).then(|| 10 << (4 * (length - 1 - place))));
        }
    }
    // Up to more than a line has room for.
    for length in 11..=90 {
        is(format!("0x{:0length$}", 1).as_bytes(), None);
    }
}

/// Numbers are read back from every width that has room for them.
#[test]
fn read_back() {
    let mut values: Vec<u32> = (0..=0x2_0010).collect();
    for bit in 0..32 {
        values.extend([(1 << bit) - 1, 1 << bit, (1 << bit) + 1, !(1 << bit)]);
    }
    values.extend([0x0123_4567, 0x89AB_CDEF, 0xFEDC_BA98, 0x7654_3210, u32::MAX - 1, u32::MAX]);
    let mut dice = Dice::new(4, 4);
    values.extend((0..100_000).map(|_| dice.within(0, u32::MAX)));
    for value in values {
        let least = format!("{value:X}").len();
        for width in least..=8 {
            let field = format!("0x{value:0width$X}");
            assert_eq!((field.len(), word(field.as_bytes())), (2 + width, Some(value)), "{field}");
        }
    }
}

/// The greatest value of each field and the next one, in every width that has room
/// for it.
#[test]
fn limits() {
    for limit in [31, 65_535, 131_071, u32::MAX - 1] {
        for value in [limit, limit + 1] {
            is(value.to_string().as_bytes(), Some(value));
            for width in format!("{value:X}").len()..=8 {
                is(format!("0x{value:0width$X}").as_bytes(), Some(value));
            }
        }
    }
    let one = "T,1,0,0,0,0,0,0,0,0\n";
    assert_eq!(text("M,1,0xFFFF,0x1F,600000,600000\nI,1,0x1FFFF\n"), one);
    assert_eq!(text("M,1,0x0000FFFF,0x0000001F,600000,600000\nI,1,0x0001FFFF\n"), one);
    assert_eq!(text("M,1,0x10000,0x1F,600000,600000\n"), "E,1,4\n");
    assert_eq!(text("M,1,0xFFFF,0x20,600000,600000\n"), "E,1,4\n");
    assert_eq!(text("M,1,0,0,0,0\nI,1,0x20000\n"), "E,2,3\n");
    assert_eq!(text("M,1,0xFFFFFFFF,0,0,0\n"), "E,1,4\n");
    assert_eq!(text("M,1,0,0xFFFFFFFF,0,0\n"), "E,1,4\n");
    assert_eq!(text("M,1,0,0,0,0\nI,1,0xFFFFFFFF\n"), "E,2,3\n");
}

/// Other writings: none of them is read.
#[test]
fn wrong_fields() {
    for field in ODD {
        is(field, None);
    }
    // A comma more is a field more.
    for field in ["0x,1", "0x1,", ",0x1", "0x1,0x1"] {
        let files = with_word(field.as_bytes());
        assert_eq!(files.map(|file| print(&file)), prints(None), "{field:?}");
    }
}

/// Hexadecimal is for the three word fields: no other field of any line takes it.
#[test]
fn only_words() {
    for field in ["0x1", "0x01", "0x00000001", "0x0", "0xA", "0x1F4", "0xFFFFFFFF"] {
        for place in NUMBER_PLACES {
            let file = with_field(place, field.as_bytes());
            let line = place.lines().count();
            assert_eq!(print(&file), format!("E,{line},5\n"), "{}", file.escape_ascii());
            // Were it not for the field, the line would be good.
            assert!(!print(&with_field(place, b"1")).contains('E'), "{place}");
        }
        assert_eq!(number(field.as_bytes()), None);
        // Not beside words in hexadecimal either, nor as a first field.
        for line in [format!("M,1,0xC1,0x0,{field},300"), format!("{field},1"), field.to_string()] {
            assert_eq!(text(&format!("{line}\n")), "E,1,5\n", "{line}");
        }
        assert_eq!(text(&format!("M,1,0xC1,0x0,500,300\nI,{field},0x20\n")), "E,2,5\n");
    }
}

/// A decimal number is the same in every field.
#[test]
fn decimal_words() {
    let same = |field: &[u8]| assert_eq!(word(field), number(field), "{}", field.escape_ascii());
    // All fields of up to three bytes, good or not, but for `0x` and a third.
    for one in 0..=255u8 {
        same(&[one]);
        for two in 0..=255 {
            same(&[one, two]);
            for three in (0..=255).filter(|_| (one, two) != (b'0', b'x')) {
                assert_eq!(word(&[one, two, three]), number(&[one, two, three]), "{one} {two} {three}");
            }
        }
    }
    let decimal = |value: u32| {
        let field = value.to_string();
        assert_eq!(word(field.as_bytes()), Some(value));
        same(field.as_bytes());
        same(format!("0{field}").as_bytes());
    };
    (0..=200_000).for_each(decimal);
    let mut dice = Dice::new(4, 5);
    (0..100_000).for_each(|_| decimal(dice.within(0, u32::MAX)));
    (u32::MAX - 1000..=u32::MAX).for_each(decimal);
    for field in ["4294967296", "9999999999", "10000000000", "18446744073709551617"] {
        is(field.as_bytes(), None);
    }
}

/// The orders of M and I (rule 4.3), in hexadecimal as in decimal.
#[test]
fn order_of_refusals() {
    let full: String = (1..=32).map(|k| format!("M,{k},0x{k:X},0x{:X},0,0\n", k % 32)).collect();
    let scanned = format!("{full}S,1\n");
    let one = "M,1,0xC1,0x0,500,300\n";
    let cases = [
        (&scanned[..], "M,99,0x10000,0,0,x", 5),
        (&scanned, "M,99,0x10000,0x,0,0", 5),
        (&scanned, "M,99,0xg,0x20,600001,0", 5),
        (&full, "M,33,0x0,0x0,0x0,0", 5),
        (&scanned, "M,99,0x10000,0x1F,0,0", 4),
        (&full, "M,99,0xFFFF,0x20,0,0", 4),
        ("", "M,2,0x10000,0x1F,0,0", 4),
        (&scanned, "M,99,0xFFFF,0x1F,0,0", 8),
        (&full, "M,99,0xFFFF,0x1F,0,0", 7),
        (&full, "M,1,0xFFFF,0x1F,0,0", 7),
        ("", "M,2,0xFFFF,0x1F,0,0", 9),
        (one, "I,2,0x2000a", 5),
        (one, "I,2,0x000020000", 5),
        (one, "I,1,0x20000,0x0", 5),
        (one, "I,2,0x20000", 10),
        (one, "I,0,0xFFFFFFFF", 10),
        (one, "I,1,0x20000", 3),
    ];
    for (before, line, refusal) in cases {
        let print = text(&format!("{before}{line}\nS,1\n"));
        let last = format!("E,{},{refusal}", before.lines().count() + 1);
        assert_eq!(print.lines().last(), Some(&last[..]), "{line}");
    }
}

/// A line without LF, however good it is otherwise; and one over 80 bytes.
#[test]
fn ends_of_lines() {
    assert_eq!(text("M,1,0xC1,0x0,500,300"), "E,1,5\n");
    assert_eq!(text("M,1,0xC1,0x0,500,300\nI,1,0x20"), "E,2,5\n");
    assert_eq!(text("M,4294967295,0xFFFFFFFF,0xFFFFFFFF,4294967295,4294967295\n"), "E,1,4\n");
    for length in 70..=90 {
        let line = format!("I,1,0x{}", "0".repeat(length - 6));
        assert_eq!(text(&format!("M,1,0xC1,0x0,500,300\n{line}\n")), "E,2,5\n");
    }
    for file in ends::files(b"M,1,0x000000C1,0x1F,500,300\nI,1,0x0001FFFF\nS,100\n") {
        print(&file);
    }
}

/// The files that a program is run on: each kind of answer is among them.
#[test]
fn files_of_words() {
    let mut answers: HashMap<String, u32> = HashMap::new();
    for file in words::files() {
        let last = print(&file).lines().last().expect("a print").to_string();
        let answer = if last.starts_with('E') { last } else { "T".to_string() };
        *answers.entry(answer).or_default() += 1;
    }
    for answer in ["T", "E,1,4", "E,1,5", "E,2,3", "E,2,5"] {
        assert!(answers[answer] > 20, "{answers:?}");
    }
    // The word stands in line 1 or 2, and so does what is wrong.
    let refused = |answer: &String| answer.split(',').nth(1)?.parse::<u32>().ok();
    assert!(answers.keys().filter_map(refused).all(|line| line <= 2), "{answers:?}");
}

/// The file with its words written anew. What is no word stays.
fn rewritten(file: &[u8], write: &mut dyn FnMut(u32) -> String) -> Vec<u8> {
    let mut lines: Vec<Vec<u8>> = Vec::new();
    for line in file.split_inclusive(|byte| *byte == b'\n') {
        let mut fields: Vec<Vec<u8>> = line.split(|byte| *byte == b',').map(<[u8]>::to_vec).collect();
        let places = match (&fields[0][..], fields.len()) {
            (b"M", 6) => &[2, 3][..],
            (b"I", 3) => &[2],
            _ => &[],
        };
        for place in places {
            let field = fields[*place].clone();
            let (field, end) = field.strip_suffix(b"\n").map_or((&field[..], &b""[..]), |f| (f, b"\n"));
            if let Some(value) = word(field) {
                fields[*place] = [write(value).as_bytes(), end].concat();
            }
        }
        lines.push(fields.join(&b','));
    }
    lines.concat()
}

fn decimal(value: u32) -> String {
    value.to_string()
}

/// All files, also refused ones, print the same in decimal, in hexadecimal of any
/// width and in both.
#[test]
fn notation_does_not_matter() {
    let mut dice = Dice::new(4, 6);
    let mut share = |chance| {
        let mut dice = Dice::new(dice.below(1 << 60), 0);
        move |value: u32| {
            let width = dice.within(1, 8) as usize;
            if dice.percent(chance) {
                format!("0x{value:0width$X}")
            } else {
                value.to_string()
            }
        }
    };
    let (mut whole, mut mixed) = (0, 0);
    let sheets =
        sheets::given_sheets().into_iter().chain(sheets::more_sheets()).map(|sheet| sheet.file.into_bytes());
    let random = (0..1500).filter(|index| !story::is_long(*index)).map(|index| story::file(41, index));
    for file in sheets.chain(random) {
        let expected = print(&file);
        let plain = rewritten(&file, &mut decimal);
        whole += usize::from(!expected.contains('E'));
        mixed += usize::from(plain != file);
        for chance in [0, 20, 50, 100] {
            let other = rewritten(&file, &mut share(chance));
            assert!(other.len() <= 65_536);
            assert!(print(&other) == expected, "{}", file.escape_ascii());
        }
    }
    assert!(whole > 900 && mixed > 700, "{whole} {mixed}");
}
