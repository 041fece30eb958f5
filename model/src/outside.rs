//! Runs a program on a file given to its standard input.

use std::collections::HashMap;
use std::fs;
use std::io::{Read, Write};
use std::path::{Path, PathBuf};
use std::process::{Child, Command, Stdio};
use std::sync::{Arc, Mutex};
use std::thread;
use std::time::{Duration, Instant};

/// What came of a run.
#[derive(Clone, Debug, PartialEq, Eq)]
pub enum Outcome {
    Print(Vec<u8>),
    /// Ended by a signal, too slow or printing without end, and what it had
    /// printed by then.
    Broken(&'static str, Vec<u8>),
}

pub const TOO_SLOW: &str = "did not end in time";
const TIME_LIMIT: Duration = Duration::from_secs(10);
/// No file can make the bench print as much.
const PRINT_LIMIT: u64 = 64 << 20;
/// What any pipe takes in one piece without a reader.
const SURE_PIPE: usize = 4096;

#[derive(Default)]
struct Running {
    count: u64,
    children: HashMap<u64, (Instant, Child, bool)>,
}

/// A program that can be run, also from several threads at once.
pub struct Program {
    path: PathBuf,
    running: Arc<Mutex<Running>>,
}

impl Program {
    /// Looks whether there is such a program and whether it starts.
    pub fn find(name: &str) -> Result<Program, String> {
        let path = fs::canonicalize(name).map_err(|e| format!("cannot find the program {name}: {e}"))?;
        if path.is_dir() {
            return Err(format!("{name} is a folder, not a program"));
        }
        fs::File::open(&path).map_err(|e| format!("cannot read the program {name}: {e}"))?;
        let mut child = quiet(&path).spawn().map_err(|e| format!("cannot start the program {name}: {e}"))?;
        drop(child.stdin.take());
        drop(child.stdout.take());
        let running = Arc::new(Mutex::new(Running::default()));
        running.lock().unwrap().children.insert(0, (Instant::now(), child, false));
        let program = Program { path, running };
        program.watch();
        program.collect(0);
        Ok(program)
    }

    pub fn path(&self) -> &Path {
        &self.path
    }

    /// Ends runs that take too long, as long as the program is in use.
    fn watch(&self) {
        let running = Arc::downgrade(&self.running);
        thread::spawn(move || loop {
            thread::sleep(Duration::from_millis(500));
            let Some(running) = running.upgrade() else {
                return;
            };
            for (start, child, ended) in running.lock().unwrap().children.values_mut() {
                if start.elapsed() > TIME_LIMIT && !*ended {
                    *ended = true;
                    let _ = child.kill();
                }
            }
        });
    }

    /// Waits for a child, without keeping the watch from it.
    fn collect(&self, ticket: u64) -> (bool, bool) {
        let mut pause = Duration::from_micros(20);
        loop {
            {
                let mut running = self.running.lock().unwrap();
                let (_, child, ended) = running.children.get_mut(&ticket).expect("a child in the list");
                if let Ok(Some(status)) = child.try_wait() {
                    let too_slow = *ended;
                    running.children.remove(&ticket);
                    return (status.code().is_none(), too_slow);
                }
            }
            thread::sleep(pause);
            pause = (pause * 2).min(Duration::from_millis(20));
        }
    }

    /// Its print for this file. The exit status does not count, a signal does.
    pub fn run(&self, file: &[u8]) -> Outcome {
        let mut child = quiet(&self.path).spawn().expect("the program started before");
        let mut input = child.stdin.take().expect("a pipe");
        let mut output = child.stdout.take().expect("a pipe");
        let ticket = {
            let mut running = self.running.lock().unwrap();
            running.count += 1;
            let ticket = running.count;
            running.children.insert(ticket, (Instant::now(), child, false));
            ticket
        };
        let mut read = || {
            let mut print = Vec::new();
            let _ = (&mut output).take(PRINT_LIMIT).read_to_end(&mut print);
            if print.len() as u64 == PRINT_LIMIT {
                self.stop(ticket);
            }
            print
        };
        // A program may stop before it has read everything: no matter.
        let print = if file.len() <= SURE_PIPE {
            let _ = input.write_all(file);
            drop(input);
            read()
        } else {
            thread::scope(|scope| {
                scope.spawn(move || {
                    let _ = input.write_all(file);
                });
                read()
            })
        };
        let endless = print.len() as u64 == PRINT_LIMIT;
        drop(output);
        let (signal, too_slow) = self.collect(ticket);
        match (endless, too_slow, signal) {
            (true, _, _) => Outcome::Broken("prints without end", print),
            (_, true, _) => Outcome::Broken(TOO_SLOW, print),
            (_, _, true) => Outcome::Broken("was ended by a signal", print),
            _ => Outcome::Print(print),
        }
    }

    fn stop(&self, ticket: u64) {
        if let Some((_, child, _)) = self.running.lock().unwrap().children.get_mut(&ticket) {
            let _ = child.kill();
        }
    }
}

fn quiet(path: &Path) -> Command {
    let mut command = Command::new(path);
    command.stdin(Stdio::piped()).stdout(Stdio::piped()).stderr(Stdio::null());
    command
}

/// A file or print for reading: bytes that are no text are written as escapes,
/// equal lines are gathered, and a long one is cut in the middle.
pub fn legible(bytes: &[u8]) -> String {
    const HEAD: usize = 60;
    const TAIL: usize = 20;
    let mut runs: Vec<(&[u8], usize)> = Vec::new();
    for line in bytes.split_inclusive(|byte| *byte == b'\n') {
        match runs.last_mut() {
            Some((same, count)) if *same == line => *count += 1,
            _ => runs.push((line, 1)),
        }
    }
    let show = |part: &[(&[u8], usize)]| -> String {
        part.iter()
            .map(|(line, count)| {
                let (text, note) = match line.strip_suffix(b"\n") {
                    Some(line) => (line, ""),
                    None => (*line, " (no LF)"),
                };
                let times = if *count > 1 { format!("   ({count} times)") } else { String::new() };
                format!("  {}{note}{times}\n", text.escape_ascii())
            })
            .collect()
    };
    if runs.is_empty() {
        "  (nothing)\n".to_string()
    } else if runs.len() <= HEAD + TAIL {
        show(&runs)
    } else {
        let left_out = runs.len() - HEAD - TAIL;
        let (head, tail) = (&runs[..HEAD], &runs[runs.len() - TAIL..]);
        format!("{}  ... {left_out} lines left out ...\n{}", show(head), show(tail))
    }
}
