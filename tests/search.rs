//! The proved search for LF, called from Rust. Without arguments: it is tested
//! against a plain one on slices of all kinds. With `speed`: it is timed on
//! 65,536 bytes with their LF last, against the proved search byte by byte and
//! against plain Rust, the searches taking turns.

use std::hint::black_box;
use std::process::ExitCode;
use std::time::Instant;

const LF: u8 = b'\n';

extern "C" {
    // Of the library `line_ends_c`; a slice is handed over as its place and its length.
    fn first_lf(bytes: *const u8, length: usize, at: usize) -> usize;
    fn first_lf_by_bytes(bytes: *const u8, length: usize, at: usize) -> usize;
}

fn by_words(s: &[u8], at: usize) -> usize {
    // SAFETY: the place and the length are those of a slice.
    unsafe { first_lf(s.as_ptr(), s.len(), at) }
}

fn by_bytes(s: &[u8], at: usize) -> usize {
    // SAFETY: as above.
    unsafe { first_lf_by_bytes(s.as_ptr(), s.len(), at) }
}

/// What both should answer.
fn plain(s: &[u8], at: usize) -> usize {
    let mut i = at;
    while i < s.len() {
        if s[i] == LF {
            return i;
        }
        i += 1;
    }
    s.len()
}

/// A word at a time in plain Rust, as the usual `memchr` without vectors does it.
fn plain_by_words(s: &[u8], at: usize) -> usize {
    const ONES: u64 = 0x0101_0101_0101_0101;
    let mut i = at;
    while let Some(eight) = s.get(i..i + 8) {
        let word = u64::from_le_bytes(eight.try_into().unwrap()) ^ (ONES * u64::from(LF));
        if word.wrapping_sub(ONES) & !word & (ONES << 7) != 0 {
            break;
        }
        i += 8;
    }
    plain(s, i)
}

/// The standard library's own, which looks at two words at a time.
fn standard(s: &[u8], at: usize) -> usize {
    // SAFETY: called on ASCII only.
    let text = unsafe { std::str::from_utf8_unchecked(&s[at..]) };
    text.find('\n').map_or(s.len(), |i| at + i)
}

struct Tested {
    slices: u64,
    searches: u64,
}

impl Tested {
    /// A slice, from each start in it and some past it.
    fn slice(&mut self, s: &[u8]) -> Result<(), String> {
        self.slices += 1;
        for at in (0..s.len() + 10).chain([usize::MAX - 8, usize::MAX]) {
            self.searches += 1;
            let expected = plain(s, at);
            for (name, found) in [("by words", by_words(s, at)), ("by bytes", by_bytes(s, at))] {
                if found != expected {
                    return Err(format!("{name} from {at}: {found}, not {expected}, in {s:02X?}"));
                }
            }
        }
        Ok(())
    }

    /// A slice at each place of a word, LFs around it that are not to be found.
    fn moved(&mut self, s: &[u8]) -> Result<(), String> {
        for before in 0..8 {
            let mut room = vec![LF; before + s.len() + 16];
            room[before..before + s.len()].copy_from_slice(s);
            self.slice(&room[before..before + s.len()])?;
        }
        Ok(())
    }
}

/// Bytes near LF in value, in bits, or in what they carry.
const OTHERS: [u8; 12] = [0x0B, 0x8A, 0xFF, 0x00, 0x09, 0x0D, 0x1A, 0x2C, 0x74, 0x75, 0x7F, 0x80];

fn test() -> Result<Tested, String> {
    let mut tested = Tested { slices: 0, searches: 0 };
    // Each length, without LF, and with it at each place.
    for length in 0..=40 {
        for other in OTHERS {
            let mut s = vec![other; length];
            tested.moved(&s)?;
            for place in 0..length {
                s[place] = LF;
                tested.slice(&s)?;
                s[place] = other;
            }
        }
    }
    // Each pair of bytes side by side, so that a carry that hides an LF shows. (A carry that raises a
    // false alarm changes no answer.)
    for low in 0..=255 {
        for high in 0..=255 {
            for place in [0, 3, 6] {
                let mut s = [0x0B; 8];
                s[place] = low;
                s[place + 1] = high;
                tested.slice(&s)?;
            }
        }
    }
    // Random slices, of any bytes and of few.
    let mut state: u64 = 0x9E37_79B9_7F4A_7C15;
    let mut next = || {
        state ^= state << 13;
        state ^= state >> 7;
        state ^= state << 17;
        (state >> 32) as usize
    };
    for round in 0..20_000 {
        let length = next() % 200;
        let s: Vec<u8> = (0..length)
            .map(|_| match round % 2 {
                0 => next() as u8,
                _ if next() % 30 == 0 => LF,
                _ => OTHERS[next() % OTHERS.len()],
            })
            .collect();
        tested.slice(&s)?;
    }
    Ok(tested)
}

/// Prints how many times as long each search takes as the one by words: the
/// median over the rounds, and what half of the rounds lie between.
fn speed() {
    const LENGTH: usize = 65_536;
    const ROUNDS: usize = 301;
    const CALLS: usize = 20;
    let mut s = vec![b'x'; LENGTH];
    s[LENGTH - 1] = LF;
    type Search = fn(&[u8], usize) -> usize;
    let searches: [(&str, Search); 5] = [
        ("proved, by words", by_words),
        ("proved, byte by byte", by_bytes),
        ("plain Rust, byte by byte", plain),
        ("plain Rust, by words", plain_by_words),
        ("Rust's own str::find", standard),
    ];
    let mut times = vec![Vec::with_capacity(ROUNDS); searches.len()];
    for _ in 0..ROUNDS {
        for ((_, search), times) in searches.iter().zip(&mut times) {
            let start = Instant::now();
            for _ in 0..CALLS {
                assert_eq!(black_box(search)(black_box(&s), black_box(0)), LENGTH - 1);
            }
            times.push(start.elapsed().as_secs_f64() / CALLS as f64);
        }
    }
    for ((name, _), own) in searches.iter().zip(&times) {
        let mut ratios: Vec<f64> = own.iter().zip(&times[0]).map(|(own, words)| own / words).collect();
        let mut own = own.clone();
        own.sort_by(f64::total_cmp);
        ratios.sort_by(f64::total_cmp);
        let part = |k: usize| ratios[ROUNDS * k / 4];
        println!(
            "{name:26} {:7.2} us {:7.3} ({:.3} to {:.3})",
            own[ROUNDS / 2] * 1e6,
            part(2),
            part(1),
            part(3)
        );
    }
}

fn main() -> ExitCode {
    match std::env::args().nth(1).as_deref() {
        None => match test() {
            Ok(tested) => println!("ok: the search for LF, {} slices, {} searches", tested.slices, tested.searches),
            Err(fault) => {
                println!("the search for LF: {fault}");
                return ExitCode::from(1);
            }
        },
        Some("speed") => speed(),
        Some(_) => {
            eprintln!("usage: search [speed]");
            return ExitCode::from(2);
        }
    }
    ExitCode::SUCCESS
}
