//! Makes a file small while a test still holds of it.

/// Takes out runs of pieces, long runs first, as long as the test holds.
fn thin<T: Clone>(pieces: Vec<T>, holds: &mut dyn FnMut(&[T]) -> bool) -> Vec<T> {
    let mut kept = pieces;
    let mut run = kept.len();
    while run > 0 {
        let mut start = 0;
        while start < kept.len() {
            let end = (start + run).min(kept.len());
            let mut trial = kept[..start].to_vec();
            trial.extend_from_slice(&kept[end..]);
            if holds(&trial) {
                kept = trial;
            } else {
                start = end;
            }
        }
        run /= 2;
    }
    kept
}

fn lines_of(file: &[u8]) -> Vec<Vec<u8>> {
    file.split_inclusive(|byte| *byte == b'\n').map(<[u8]>::to_vec).collect()
}

/// The file without motor `gone`, the later ones renumbered.
fn without_motor(file: &[u8], gone: u32) -> Vec<u8> {
    let mut out = Vec::new();
    for line in lines_of(file) {
        let text = String::from_utf8_lossy(&line).into_owned();
        let mut parts = text.splitn(3, ',');
        let (kind, number, rest) = (parts.next(), parts.next(), parts.next());
        match (kind, number.and_then(|n| n.parse::<u32>().ok()), rest) {
            (Some("M" | "I"), Some(n), Some(_)) if n == gone => {}
            (Some(kind @ ("M" | "I")), Some(n), Some(rest)) if n > gone => {
                out.extend_from_slice(format!("{kind},{},{rest}", n - 1).as_bytes());
            }
            _ => out.extend_from_slice(&line),
        }
    }
    out
}

/// The smallest file found that still shows the difference: whole lines go
/// first, then whole motors, then bytes of lines. `runs` bounds the trials.
pub fn shrink(file: &[u8], mut runs: u32, shows: &mut dyn FnMut(&[u8]) -> bool) -> Vec<u8> {
    let mut ask = |trial: &[u8]| {
        if runs == 0 {
            return false;
        }
        runs -= 1;
        shows(trial)
    };
    let mut best = file.to_vec();
    loop {
        let before = best.clone();
        best = thin(lines_of(&best), &mut |lines| ask(&lines.concat())).concat();
        for motor in (1..=32).rev() {
            let trial = without_motor(&best, motor);
            if trial.len() < best.len() && ask(&trial) {
                best = trial;
            }
        }
        let mut lines = lines_of(&best);
        for place in 0..lines.len() {
            let (head, rest) = (lines[..place].concat(), lines[place + 1..].concat());
            lines[place] =
                thin(lines[place].clone(), &mut |bytes| ask(&[&head[..], bytes, &rest[..]].concat()));
        }
        best = lines.concat();
        if best == before {
            return best;
        }
    }
}
