//! Files in which the ways of writing a word are gone through one by one, those
//! of rule 7.4 and others, wherever a field stands.

/// Fields that are no word, though many nearly are.
pub const ODD: [&[u8]; 88] = [
    b"",
    b"x",
    b"X",
    b"x1",
    b"X1",
    b"0x",
    b"0X",
    b"0X1",
    b"0XF",
    b"0X00000001",
    b"00x",
    b"00x1",
    b"000x1",
    b"1x1",
    b"Ox1",
    b"0xx1",
    b"0x0x",
    b"0x0x1",
    b"0x10x1",
    b"0x1x",
    b"0x1;0x1",
    // Small letters, and bytes beside the digits.
    b"0xa",
    b"0xf",
    b"0x1f",
    b"0xf1",
    b"0xaB",
    b"0xBa",
    b"0x0000001f",
    b"0x/",
    b"0x:",
    b"0x@",
    b"0xG",
    b"0x`",
    b"0xg",
    b"0x1/",
    b"0x1:",
    b"0x1@",
    b"0x1G",
    b"0x1`",
    b"0x1g",
    // Signs and blanks.
    b"+0x1",
    b"-0x1",
    b"-0x0",
    b"0x+1",
    b"0x-1",
    b"0x1+",
    b"0x1-",
    b"0-x1",
    b"-x1",
    b" 0x1",
    b"0 x1",
    b"0x 1",
    b"0x1 ",
    b"0x1 F",
    b"\t0x1",
    b"0x1\t",
    b"0x1\r",
    b"0x1\x00",
    b"0x\x00",
    // More than eight digits.
    b"0x000000000",
    b"0x000000001",
    b"0x00000001F",
    b"0x100000000",
    b"0x100000001",
    b"0x123456789",
    b"0xFFFFFFFFF",
    b"0x0000000000000001",
    b"0x10000000000000001",
    b"0x100000000000000000000000000000001",
    // Other ways to write numbers.
    b"0b1",
    b"0o7",
    b"0h1",
    b"1h",
    b"1Fh",
    b"1F",
    b"A",
    b"$1F",
    b"#1F",
    b"&H1F",
    b"\"0x1\"",
    b"0x'1",
    b"0x1_F",
    b"0x1.0",
    b"0x1u",
    b"0x\xff",
    b"0x\xb1",
    b"0x\xef\xbc\x91",
    b"01",
];

/// Files in which `#` stands for a word.
pub const WORD_PLACES: [&str; 3] = ["M,1,#,0,500,300\n", "M,1,193,#,500,300\n", "M,1,193,0,500,300\nI,1,#\n"];
/// Files in which it stands for a number.
pub const NUMBER_PLACES: [&str; 5] = [
    "M,#,193,0,500,300\n",
    "M,1,193,0,#,300\n",
    "M,1,193,0,500,#\n",
    "M,1,193,0,500,300\nI,#,32\n",
    "M,1,193,0,500,300\nS,#\n",
];
/// What follows, so that a word that was read shows.
const AFTER: &[u8] = b"S,100\nI,1,4128\nS,100\nI,1,16\nS,100\n";

/// Such a file with a field put in.
pub fn with_field(file: &str, field: &[u8]) -> Vec<u8> {
    let (before, after) = file.split_once('#').expect("a place for the field");
    [before.as_bytes(), field, after.as_bytes()].concat()
}

/// 0, the limits and the numbers beside them, and each bit alone.
fn values() -> Vec<u32> {
    let mut values = vec![0, u32::MAX];
    values.extend([31, 65_535, 131_071].iter().flat_map(|limit| [limit - 1, *limit, limit + 1]));
    values.extend((0..32).map(|bit| 1 << bit));
    values
}

/// Words in order and out of it at each place, and numbers in hexadecimal. No
/// file comes twice.
pub fn files() -> Vec<Vec<u8>> {
    let mut fields: Vec<Vec<u8>> = ODD.iter().map(|field| field.to_vec()).collect();
    for value in values() {
        fields.push(value.to_string().into_bytes());
        fields.extend([1, 8, 9].map(|digits| format!("0x{value:0digits$X}").into_bytes()));
    }
    fields.extend((0..=255).map(|byte| vec![b'0', b'x', byte]));
    let mut files = Vec::new();
    for place in WORD_PLACES {
        files.extend(fields.iter().map(|field| [&with_field(place, field), AFTER].concat()));
    }
    for place in NUMBER_PLACES {
        for field in [&b"1"[..], b"0x1", b"0x01", b"0x00000001", b"0x64", b"0x"] {
            files.push([&with_field(place, field), AFTER].concat());
        }
    }
    files.sort();
    files.dedup();
    files
}
