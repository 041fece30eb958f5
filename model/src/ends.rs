//! Files in which the places of LFs are gone through one by one.

/// M lines, which are read whole at some lengths and so show where their LF was
/// found, `#` being the number of the next motor; an I line in each notation and
/// an S line; and one that is always refused. Each has room for an LF at the last
/// place.
const LINES: [&[u8]; 7] = [
    b"M,#,0,0,1,100000000000",
    b"M,#,193,0,500,30000000",
    b"M,#,193,0,600000,100000",
    b"I,1,131071000000000000",
    b"I,1,0x0001FFFF00000000",
    b"S,1000000000000000000",
    b"\x0b\x8a\xff\x00\x09\x0b\x8a\xff\x00\x09\x0b\x8a\xff\x00\x09\x0b\x8a\xff\x00\x09\x0b\x8a",
];

/// What stands before such a line: nothing, or a motor in a line of one of
/// several lengths, so that the search starts at several places.
const BEFORE: [&[u8]; 6] = [
    b"",
    b"M,1,0,0,1,1\n",
    b"M,1,0,0,1,10\n",
    b"M,1,0,0,1,100\n",
    b"M,1,0,0,1,1000\n",
    b"M,1,193,0,500,300\n",
];
/// What stands after its LF.
const AFTER: [&[u8]; 5] = [b"", b"\n", b"I,1,32\nS,100\nI,1,4128\nS,100\n", b"\x0b\x8a\xff", b"S,100"];

/// The last place of an LF in a line.
const LAST_PLACE: usize = 20;
/// The length of the longest file without LF, and of the longest cut one.
const LONGEST: usize = 40;

fn numbered(line: &[u8], before: &[u8]) -> Vec<u8> {
    let next = if before.is_empty() { b'1' } else { b'2' };
    line.iter().map(|byte| if *byte == b'#' { next } else { *byte }).collect()
}

/// An LF at each of the first places of each line, in all surroundings; files
/// without LF, of each length; and a whole file, cut at each length. No file
/// comes twice.
pub fn files(whole: &[u8]) -> Vec<Vec<u8>> {
    let mut files = Vec::new();
    for line in LINES {
        for before in BEFORE {
            let line = numbered(line, before);
            for place in 0..=LAST_PLACE {
                for after in AFTER {
                    files.push([before, &line[..place], b"\n", after].concat());
                }
            }
        }
        let line = numbered(line, b"");
        files.extend((0..=LONGEST).map(|length| line.iter().copied().cycle().take(length).collect()));
    }
    files.extend((0..=LONGEST.min(whole.len())).map(|length| whole[..length].to_vec()));
    files.sort();
    files.dedup();
    files
}
