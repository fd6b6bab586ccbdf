//! A run of the program or of ./desk: what goes in, what comes out, and an end to waiting.

use std::fs::File;
use std::io::{Read, Write};
use std::os::unix::process::{CommandExt, ExitStatusExt};
use std::process::{Child, Command, ExitStatus, Stdio};
use std::sync::atomic::{AtomicUsize, Ordering};
use std::sync::mpsc::{channel, RecvTimeoutError};
use std::thread;
use std::time::Duration;

/// After this a run is said to hang, and is killed.
const PATIENCE: Duration = Duration::from_secs(20);

const SIGKILL: i32 = 9;

/// How a stream goes in.
#[derive(Clone, Copy)]
pub enum Input<'a> {
    /// As a file.
    File(&'a [u8]),
    /// Through a pipe, so many bytes at a time.
    Pieces(&'a [u8], usize),
}

/// What came of it.
pub struct Run {
    /// Standard output.
    pub out: Vec<u8>,
    /// Standard error.
    pub err: String,
    /// The status; None if it hung.
    pub status: Option<ExitStatus>,
}

impl Run {
    /// Status 0 and nothing on standard error.
    pub fn good(&self) -> bool {
        self.succeeded() && self.err.is_empty()
    }

    /// Status 0.
    pub fn succeeded(&self) -> bool {
        self.status.is_some_and(|status| status.success())
    }

    /// Killed by the fault that was meant to.
    pub fn killed(&self) -> bool {
        self.status
            .is_some_and(|status| status.signal() == Some(SIGKILL))
    }

    /// One plain line on standard error.
    pub fn told_in_a_line(&self) -> bool {
        let plain = |byte: u8| byte == b'\n' || (b' '..=b'~').contains(&byte);
        let text = self.err.as_bytes();
        self.err.lines().count() == 1 && text.ends_with(b"\n") && text.iter().copied().all(plain)
    }

    /// As a failed run of ./desk ends: one plain line, a status of its own, no totals.
    pub fn refused(&self) -> Result<(), String> {
        let totals = String::from_utf8_lossy(&self.out).contains("total");
        let status = self.status.and_then(|status| status.code());
        match status {
            None => Err(format!("it hung or was killed, and said {:?}", self.err)),
            Some(0) => Err(format!("status 0 beside {:?}", self.err)),
            _ if !self.told_in_a_line() => Err(format!("it said {:?}", self.err)),
            _ if totals => Err("totals in spite of a failure".to_string()),
            _ => Ok(()),
        }
    }

    /// The same, with nothing printed at all.
    pub fn refused_silently(&self) -> Result<(), String> {
        self.refused()?;
        match self.out.as_slice() {
            [] => Ok(()),
            // The header may be out before the register is looked at.
            b"no unit answer warn part stamp\n" => Ok(()),
            _ => Err(format!(
                "it printed {:?}",
                self.out.escape_ascii().to_string()
            )),
        }
    }
}

/// Starts it in a process group of its own, all three streams being pipes.
pub fn start(command: &mut Command) -> Result<Child, String> {
    let child = command
        .stdin(Stdio::piped())
        .stdout(Stdio::piped())
        .stderr(Stdio::piped())
        .process_group(0)
        .spawn();
    child.map_err(|error| format!("can't run {command:?}: {error}"))
}

/// Runs it to its end.
pub fn run(command: &mut Command, input: Input) -> Result<Run, String> {
    match input {
        Input::File(bytes) => run_on_file(command, bytes),
        Input::Pieces(bytes, size) => {
            let mut child = start(command)?;
            let stdin = child.stdin.take();
            thread::scope(|scope| {
                scope.spawn(move || {
                    let mut stdin = stdin;
                    for piece in bytes.chunks(size.max(1)) {
                        let written = stdin.as_mut().map(|stdin| stdin.write_all(piece));
                        if !matches!(written, Some(Ok(()))) {
                            return;
                        }
                        thread::sleep(Duration::from_micros(20));
                    }
                });
                Ok(collect(child))
            })
        }
    }
}

fn run_on_file(command: &mut Command, bytes: &[u8]) -> Result<Run, String> {
    static NUMBER: AtomicUsize = AtomicUsize::new(0);
    let number = NUMBER.fetch_add(1, Ordering::SeqCst);
    let name = format!("register_faults-{}-{number}.stream", std::process::id());
    let path = std::env::temp_dir().join(name);
    let opened = std::fs::write(&path, bytes).and_then(|()| File::open(&path));
    let file = opened.map_err(|error| format!("no stream at {}: {error}", path.display()))?;
    let _ = std::fs::remove_file(&path);
    let child = command
        .stdin(file)
        .stdout(Stdio::piped())
        .stderr(Stdio::piped())
        .process_group(0)
        .spawn();
    let child = child.map_err(|error| format!("can't run {command:?}: {error}"))?;
    Ok(collect(child))
}

/// Kills a process, or the group that it leads.
pub fn kill(id: u32, group: bool) {
    let sign = if group { "-" } else { "" };
    let mut kill = Command::new("kill");
    kill.args(["-KILL", "--", &format!("{sign}{id}")]);
    let _ = kill.stderr(Stdio::null()).status();
}

/// What it prints up to its end; the group is killed if that takes too long.
pub fn collect(mut child: Child) -> Run {
    let (ended, waiting) = channel::<()>();
    let id = child.id();
    let (out, err) = (child.stdout.take(), child.stderr.take());
    thread::scope(|scope| {
        let watch = scope.spawn(move || {
            let hangs = waiting.recv_timeout(PATIENCE) == Err(RecvTimeoutError::Timeout);
            if hangs {
                kill(id, true);
            }
            hangs
        });
        let err = scope.spawn(move || all_of(err));
        let out = all_of(out);
        let status = child.wait().ok();
        let err = err.join().unwrap_or_default();
        drop(ended);
        let hung = watch.join().unwrap_or(true);
        Run {
            out,
            err: String::from_utf8_lossy(&err).into_owned(),
            status: status.filter(|_| !hung),
        }
    })
}

fn all_of(pipe: Option<impl Read>) -> Vec<u8> {
    let mut bytes = Vec::new();
    if let Some(mut pipe) = pipe {
        let _ = pipe.read_to_end(&mut bytes);
    }
    bytes
}
