//! `speed PROGRAM [--wave] [--rounds N] [--plain PLAIN]`: the program against the
//! fast plain version, run in turn as programs of the same kind. `PLAIN` is
//! otherwise the binary `plain` beside this one. With `--wave` the program is the
//! one for the dump, and runs against `PLAIN --wave`.
//! `speed --files FOLDER [--wave]` measures nothing: it writes the files into a
//! folder, for a count of instructions.
//!
//! Clock time is taken with the print going into a pipe that is drained here;
//! `cat` of the same print through the same pipe is the floor. Processor time
//! is taken by the system's count over many runs with the print thrown away;
//! what an empty file costs is start alone and is taken off in the last ratio.

use motor_model::{fast, sheets, story};
use std::ffi::{c_int, c_long};
use std::fs::{self, File};
use std::io::Read;
use std::path::{Path, PathBuf};
use std::process::{Command, ExitCode, Stdio};
use std::time::{Duration, Instant};

const USAGE: &str =
    "usage: speed PROGRAM [--wave] [--rounds N] [--plain PLAIN], or speed --files FOLDER [--wave]";

#[repr(C)]
#[derive(Default)]
struct Usage {
    user: [c_long; 2],
    system: [c_long; 2],
    rest: [c_long; 14],
}

extern "C" {
    fn getrusage(who: c_int, usage: *mut Usage) -> c_int;
}

/// User and system time of all ended children, in seconds.
fn children_time() -> (f64, f64) {
    const CHILDREN: c_int = -1;
    let mut usage = Usage::default();
    // SAFETY: the struct has the size and layout the call writes.
    let result = unsafe { getrusage(CHILDREN, &mut usage) };
    assert_eq!(result, 0, "no processor times");
    let seconds = |pair: [c_long; 2]| pair[0] as f64 + pair[1] as f64 / 1e6;
    (seconds(usage.user), seconds(usage.system))
}

struct Case {
    title: &'static str,
    file: Vec<u8>,
}

/// Thirty-two motors and as many scans as fit.
fn scans_only() -> Vec<u8> {
    let mut file: Vec<u8> = (1..=32).flat_map(|k| format!("M,{k},193,0,500,300\n").into_bytes()).collect();
    while file.len() + 4 <= 65_536 {
        file.extend_from_slice(b"S,1\n");
    }
    file
}

/// Thirty-two motors with a command under way in all scans but the first two.
/// The buttons come after a scan, so that they rise in the next.
fn under_way() -> Result<Vec<u8>, String> {
    let mut file: Vec<u8> =
        (1..=32).flat_map(|k| format!("M,{k},193,0,600000,600000\n").into_bytes()).collect();
    for word in [32, 4128] {
        file.extend((1..=32).flat_map(|k| format!("I,{k},{word}\n").into_bytes()));
        file.extend_from_slice(b"S,1\n");
    }
    while file.len() + 4 <= 65_536 {
        file.extend_from_slice(b"S,1\n");
    }
    let mut print = Vec::new();
    fast::run(&file[..], &mut print).expect("a buffer takes any print");
    let text = String::from_utf8_lossy(&print);
    let row = text.lines().rfind(|line| line.starts_with("R,")).unwrap_or("");
    match row.split(',').nth(5) {
        Some("7") => Ok(file),
        _ => Err(format!("no command is under way at the end of its file, whose last row is {row}")),
    }
}

/// Input words for one motor after another, written so, as many as fit, and no
/// scan.
fn words_only(motors: usize, written: impl Fn(usize) -> String) -> Vec<u8> {
    let mut file: Vec<u8> =
        (1..=motors).flat_map(|k| format!("M,{k},193,0,500,300\n").into_bytes()).collect();
    for turn in 0.. {
        let line = format!("I,{},{}\n", turn % motors + 1, written(4096 + turn % 64));
        if file.len() + line.len() > 65_536 {
            break;
        }
        file.extend_from_slice(line.as_bytes());
    }
    file
}

/// Each kind of file for 32 motors and, where a line of it costs the same
/// whatever the number of motors, for one; then, for dumps, one with a change in
/// each scan.
fn cases(wave: bool) -> Result<Vec<Case>, String> {
    let decimal = |word: usize| word.to_string();
    let hexadecimal = |word: usize| format!("0x{word:X}");
    let mut cases = vec![
        Case { title: "scans only, 32 motors", file: scans_only() },
        Case { title: "many commands, 32 motors", file: story::rich(5, 32) },
        Case { title: "many commands, 1 motor", file: story::rich(5, 1) },
        Case { title: "words only, 32 motors", file: words_only(32, decimal) },
        Case { title: "words only, 1 motor", file: words_only(1, decimal) },
        Case { title: "words in hexadecimal, 32 motors", file: words_only(32, hexadecimal) },
        Case { title: "words in hexadecimal, 1 motor", file: words_only(1, hexadecimal) },
        Case { title: "commands under way, 32 motors", file: under_way()? },
    ];
    if wave {
        let file = sheets::longest_dump().file.into_bytes();
        cases.push(Case { title: "a change in each scan, 1 motor", file });
    }
    Ok(cases)
}

/// The files of the benchmark, by their titles.
fn write_files(folder: &Path, wave: bool) -> Result<(), String> {
    let failed = |e| format!("cannot write into {}: {e}", folder.display());
    fs::create_dir_all(folder).map_err(failed)?;
    for case in cases(wave)? {
        let name = case.title.replace(", ", "_").replace(' ', "_");
        fs::write(folder.join(name + ".txt"), case.file).map_err(failed)?;
    }
    Ok(())
}

/// What the program takes for a line read or printed, by the number of motors.
fn by_motors(times: &[f64]) {
    println!("\nprocessor time without start, a line read or printed, 1 motor against 32:");
    for (kind, pair) in ["many commands", "words only", "hexadecimal"].iter().zip(times[1..].chunks(2)) {
        let (many, one) = (pair[0] * 1e9, pair[1] * 1e9);
        println!("    {kind:<14} {one:.1} ns against {many:.1} ns, ratio {:.3}", one / many);
    }
}

/// A program with what it is called with.
struct Call {
    program: PathBuf,
    option: Option<&'static str>,
}

impl Call {
    fn command(&self) -> Command {
        let mut command = Command::new(&self.program);
        command.args(self.option);
        command
    }
}

/// Clock time of one run, its print read from a pipe.
fn clock(call: &Call, input: &Path, buffer: &mut [u8]) -> Duration {
    let stdin = File::open(input).expect("the input can be read");
    let start = Instant::now();
    let mut child = call.command().stdin(stdin).stdout(Stdio::piped()).spawn().expect("the program starts");
    let mut output = child.stdout.take().expect("a pipe");
    while output.read(buffer).expect("the print can be read") > 0 {}
    child.wait().expect("the program ends");
    start.elapsed()
}

/// Processor time of one run with the print thrown away: user alone, and user
/// and system.
fn processor(call: &Call, input: &Path) -> (f64, f64) {
    let stdin = File::open(input).expect("the input can be read");
    let before = children_time();
    call.command().stdin(stdin).stdout(Stdio::null()).status().expect("the program starts");
    let after = children_time();
    let user = after.0 - before.0;
    (user, user + after.1 - before.1)
}

/// Lowest, lower quarter, median, upper quarter and highest.
fn spread(values: &[f64]) -> [f64; 5] {
    let mut sorted = values.to_vec();
    sorted.sort_by(f64::total_cmp);
    [0, 1, 2, 3, 4].map(|quarter| sorted[(sorted.len() - 1) * quarter / 4])
}

fn median(values: &[f64]) -> f64 {
    spread(values)[2]
}

fn ratio_text(program: &[f64], plain: &[f64]) -> String {
    let ratios: Vec<f64> = program.iter().zip(plain).map(|(a, b)| a / b).collect();
    let [low, lower, middle, upper, high] = spread(&ratios);
    format!("{middle:.3} (half of them {lower:.3} to {upper:.3}, all {low:.3} to {high:.3})")
}

fn print_of(call: &Call, input: &Path) -> Vec<u8> {
    let stdin = File::open(input).expect("the input can be read");
    call.command().stdin(stdin).stderr(Stdio::null()).output().expect("the program starts").stdout
}

struct Bench {
    program: Call,
    plain: Call,
    /// Whether they write dumps.
    wave: bool,
    rounds: usize,
    folder: PathBuf,
}

impl Bench {
    fn put(&self, name: &str, bytes: &[u8]) -> PathBuf {
        let path = self.folder.join(name);
        fs::write(&path, bytes).expect("the folder for temporary files can be written");
        path
    }

    /// The program's processor time without start, in seconds a line read or printed.
    fn measure(&self, case: &Case) -> Result<f64, String> {
        let input = self.put("input", &case.file);
        let nothing = self.put("nothing", b"");
        let mut print = Vec::new();
        if self.wave {
            fast::wave(&case.file[..], &mut print).expect("a buffer takes any print");
        } else {
            fast::run(&case.file[..], &mut print).expect("a buffer takes any print");
        }
        for call in [&self.program, &self.plain] {
            if print_of(call, &input) != print {
                return Err(format!("{}: {} prints something else", case.title, call.program.display()));
            }
        }
        let copy = self.put("print", &print);
        let file_lines = case.file.iter().filter(|byte| **byte == b'\n').count();
        let print_lines = print.iter().filter(|byte| **byte == b'\n').count();
        let lines = (file_lines + print_lines) as f64;
        println!(
            "\n{}: {} bytes and {file_lines} lines in, {} bytes and {print_lines} lines out",
            case.title,
            case.file.len(),
            print.len()
        );

        let cat = Call { program: PathBuf::from("cat"), option: None };
        let mut buffer = vec![0; 1 << 16];
        let mut times: [Vec<f64>; 3] = Default::default();
        let sides = [(&self.program, &*input), (&self.plain, &*input), (&cat, &*copy)];
        for (call, input) in sides {
            clock(call, input, &mut buffer);
        }
        for round in 0..self.rounds {
            for turn in 0..3 {
                let side = (round + turn) % 3;
                let (call, input) = sides[side];
                times[side].push(clock(call, input, &mut buffer).as_secs_f64());
            }
        }
        println!("  clock time, median of {} rounds and lowest:", self.rounds);
        for (name, times) in ["program", "plain", "cat"].iter().zip(&times) {
            let [low, _, middle, _, _] = spread(times);
            println!(
                "    {name:<8} {:>9.3} ms, lowest {:>9.3} ms, {:>8.1} ns a line read or printed",
                middle * 1e3,
                low * 1e3,
                middle * 1e9 / lines
            );
        }
        println!("    program/plain {}", ratio_text(&times[0], &times[1]));

        // Batches of about a fifth of a second of the plain version.
        let runs = (0.2 / median(&times[1])).ceil().clamp(5.0, 200.0) as u32;
        let batches = self.rounds.min(15);
        let mut user: [Vec<f64>; 2] = Default::default();
        let mut both: [Vec<f64>; 2] = Default::default();
        let mut start: [Vec<f64>; 2] = Default::default();
        let mut net: [Vec<f64>; 2] = Default::default();
        for batch in 0..batches {
            // The sides take turns run by run. How the system parts user from
            // system time is rough for short runs, so user time is a mean.
            let mut all: [[Vec<f64>; 3]; 2] = Default::default();
            for run in 0..runs as usize {
                for turn in 0..2 {
                    let side = (batch + run + turn) % 2;
                    let (of_user, of_both) = processor(sides[side].0, &input);
                    let (_, of_start) = processor(sides[side].0, &nothing);
                    all[side][0].push(of_user);
                    all[side][1].push(of_both);
                    all[side][2].push(of_start);
                }
            }
            for side in 0..2 {
                let [of_user, of_both, of_start] = &all[side];
                user[side].push(of_user.iter().sum::<f64>() / of_user.len() as f64);
                both[side].push(median(of_both));
                start[side].push(median(of_start));
                net[side].push((median(of_both) - median(of_start)).max(1e-9));
            }
        }
        println!("  processor time a run, median of {batches} batches of {runs} runs each:");
        for (side, name) in ["program", "plain"].iter().enumerate() {
            println!(
                "    {name:<8} user {:>8.3} ms, user and system {:>8.3} ms, start alone {:>7.3} ms, {:>7.1} ns a line without start",
                median(&user[side]) * 1e3,
                median(&both[side]) * 1e3,
                median(&start[side]) * 1e3,
                median(&net[side]) * 1e9 / lines
            );
        }
        println!("    program/plain, user              {}", ratio_text(&user[0], &user[1]));
        println!("    program/plain, user and system   {}", ratio_text(&both[0], &both[1]));
        println!("    program/plain, without start     {}", ratio_text(&net[0], &net[1]));
        Ok(median(&net[0]) / lines)
    }
}

enum Wish {
    Measure(Bench),
    Files(PathBuf, bool),
}

fn wish() -> Result<Wish, String> {
    let mut args = std::env::args().skip(1);
    let (mut program, mut plain, mut folder, mut wave, mut rounds) = (None, None, None, false, 31);
    while let Some(arg) = args.next() {
        match arg.as_str() {
            "--files" => folder = Some(args.next().ok_or(format!("--files needs a folder\n{USAGE}"))?),
            "--rounds" => {
                let text = args.next().unwrap_or_default();
                rounds = text
                    .parse()
                    .ok()
                    .filter(|n| *n > 0)
                    .ok_or(format!("--rounds needs a number\n{USAGE}"))?;
            }
            "--wave" => wave = true,
            "--plain" => plain = Some(args.next().ok_or(format!("--plain needs a program\n{USAGE}"))?),
            other if other.starts_with("--") => return Err(format!("unknown option {other}\n{USAGE}")),
            _ if program.is_none() => program = Some(arg),
            other => return Err(format!("one program only, not also {other}\n{USAGE}")),
        }
    }
    if let Some(folder) = folder {
        return Ok(Wish::Files(PathBuf::from(folder), wave));
    }
    let found =
        |name: &Path| fs::canonicalize(name).map_err(|e| format!("cannot find {}: {e}", name.display()));
    let program = found(Path::new(&program.ok_or(format!("no program given\n{USAGE}"))?))?;
    let plain = match plain {
        Some(name) => found(Path::new(&name))?,
        None => {
            let own = std::env::current_exe().map_err(|e| format!("cannot find plain: {e}"))?;
            found(&own.with_file_name("plain"))?
        }
    };
    let program = Call { program, option: None };
    let plain = Call { program: plain, option: wave.then_some("--wave") };
    for call in [&program, &plain] {
        let child = call.command().stdin(Stdio::null()).stdout(Stdio::null()).stderr(Stdio::null()).status();
        child.map_err(|e| format!("cannot start {}: {e}", call.program.display()))?;
    }
    let folder = std::env::temp_dir().join(format!("motor-speed-{}", std::process::id()));
    fs::create_dir_all(&folder).map_err(|e| format!("cannot make a folder for temporary files: {e}"))?;
    Ok(Wish::Measure(Bench { program, plain, wave, rounds, folder }))
}

fn measure_all(bench: &Bench) -> Result<(), String> {
    let times: Vec<f64> =
        cases(bench.wave)?.iter().map(|case| bench.measure(case)).collect::<Result<_, _>>()?;
    by_motors(&times);
    Ok(())
}

fn main() -> ExitCode {
    let done = match wish() {
        Ok(Wish::Files(folder, wave)) => write_files(&folder, wave),
        Ok(Wish::Measure(bench)) => {
            let done = measure_all(&bench);
            let _ = fs::remove_dir_all(&bench.folder);
            done
        }
        Err(message) => {
            eprintln!("speed: {message}");
            return ExitCode::from(2);
        }
    };
    match done {
        Ok(()) => ExitCode::SUCCESS,
        Err(message) => {
            eprintln!("speed: {message}");
            ExitCode::from(1)
        }
    }
}
