//! Times the register on disk beside the file operations alone and beside the pure answer, on accepted reports.

use reference::answer;
use reference::register::BLOCK_SIZE;
use reference::roster::ENTRY_SIZE;
use reference::source::Source;
use std::fs::{self, File};
use std::io::{BufRead, BufReader, Write};
use std::path::{Path, PathBuf};
use std::process::{Child, Command, ExitCode, Output, Stdio};
use std::time::{Duration, Instant};

const REGISTERS: usize = 16;

/// A register and reports that it accepts.
struct Load {
    register: Vec<u8>,
    reports: Vec<Vec<u8>>,
}

impl Load {
    /// Of so many units.
    fn of(seed: u64, units: usize, reports: usize) -> Load {
        let mut seeds = (seed << 32..).map(|seed| Source::new(seed, units));
        let fits = |source: &Source| source.roster().len() == units * ENTRY_SIZE;
        let mut source = seeds.find(fits).expect("seeds don't run out");
        let first = source.register().to_vec();
        let (mut register, mut accepted) = (first.clone(), Vec::new());
        while accepted.len() < reports {
            let report = source.report();
            if answer(&mut register, &report).number == 0 {
                accepted.push(report);
            }
        }
        Load {
            register: first,
            reports: accepted,
        }
    }

    fn rate(&self, time: Duration) -> f64 {
        self.reports.len() as f64 / time.as_secs_f64()
    }

    /// The reference's answers alone.
    fn pure(&self) -> f64 {
        let mut register = self.register.clone();
        let begun = Instant::now();
        for report in &self.reports {
            assert_eq!(answer(&mut register, report).number, 0);
        }
        self.rate(begun.elapsed())
    }

    /// A new file, fsync, rename, fsync of the folder for each report.
    fn files_alone(&self, folder: &Path) -> std::io::Result<f64> {
        let (new, register) = (folder.join("limit.new"), folder.join("limit"));
        let begun = Instant::now();
        for _ in &self.reports {
            let mut file = File::create_new(&new)?;
            file.write_all(&self.register)?;
            file.sync_all()?;
            fs::rename(&new, &register)?;
            File::open(folder)?.sync_all()?;
        }
        Ok(self.rate(begun.elapsed()))
    }

    /// The register as a file, and the program on it.
    fn start(&self, program: &Path, path: &Path, input: Stdio) -> std::io::Result<Child> {
        fs::write(path, &self.register)?;
        let mut command = Command::new(program);
        command.arg("answer").arg(path);
        command.stdin(input).stdout(Stdio::piped()).spawn()
    }

    fn stream_file(&self, path: &Path) -> std::io::Result<File> {
        let stream = path.with_extension("stream");
        fs::write(&stream, self.reports.concat())?;
        File::open(stream)
    }

    fn at_once(&self, program: &Path, path: &Path) -> std::io::Result<f64> {
        let stream = self.stream_file(path)?;
        let begun = Instant::now();
        let child = self.start(program, path, stream.into())?;
        let output = child.wait_with_output()?;
        let time = begun.elapsed();
        self.all_accepted(&output.stdout);
        Ok(self.rate(time))
    }

    /// Each report once the line of the one before is there.
    fn one_by_one(&self, program: &Path, path: &Path) -> std::io::Result<f64> {
        let mut child = self.start(program, path, Stdio::piped())?;
        let (stdin, stdout) = (child.stdin.take(), child.stdout.take());
        let (mut stdin, stdout) = (stdin.expect("a pipe"), stdout.expect("a pipe"));
        let mut lines = BufReader::new(stdout).split(b'\n');
        let mut log = Vec::new();
        let begun = Instant::now();
        for report in &self.reports {
            stdin.write_all(report)?;
            let header = log.is_empty();
            for line in lines.by_ref().take(if header { 2 } else { 1 }) {
                log.extend_from_slice(&line?);
                log.push(b'\n');
            }
        }
        let time = begun.elapsed();
        drop(stdin);
        for line in lines {
            log.extend_from_slice(&line?);
            log.push(b'\n');
        }
        child.wait()?;
        self.all_accepted(&log);
        Ok(self.rate(time))
    }

    /// The totals refuse nothing.
    fn all_accepted(&self, log: &[u8]) {
        let log = String::from_utf8_lossy(log);
        let totals = log.lines().last().unwrap_or_default();
        let mut words = totals
            .split(' ')
            .skip(1)
            .map(|word| word.parse().unwrap_or(0));
        let accepted = words.next().unwrap_or(0) + words.next().unwrap_or(0);
        assert_eq!(accepted, self.reports.len(), "{totals}");
        assert_eq!(words.next(), Some(0), "{totals}");
    }
}

fn main() -> ExitCode {
    let words: Vec<_> = std::env::args_os().skip(1).collect();
    let [program] = words.as_slice() else {
        eprintln!("use: register_bench PROGRAM");
        return ExitCode::FAILURE;
    };
    let folder = std::env::temp_dir().join(format!("register_bench-{}", std::process::id()));
    let measured = fs::create_dir_all(&folder)
        .and_then(|()| fs::canonicalize(program))
        .and_then(|program| measure(&program, &folder));
    let _ = fs::remove_dir_all(&folder);
    match measured {
        Ok(()) => ExitCode::SUCCESS,
        Err(error) => {
            eprintln!("register_bench: {error}");
            ExitCode::FAILURE
        }
    }
}

fn measure(program: &Path, folder: &Path) -> std::io::Result<()> {
    println!(
        "accepted reports a second, registers in {}",
        folder.display()
    );
    println!("| units | a stream at once | one at a time | files alone | pure answer, Rust |");
    println!("|---|---|---|---|---|");
    for units in [1, 64] {
        let (many, few) = (Load::of(1, units, 20_000), Load::of(2, units, 1_000));
        let path = folder.join("register");
        let at_once = many.at_once(program, &path)?;
        let one_by_one = few.one_by_one(program, &path)?;
        let alone = few.files_alone(folder)?;
        let pure = many.pure();
        println!("| {units} | {at_once:.0} | {one_by_one:.0} | {alone:.0} | {pure:.0} |");
    }
    let loads: Vec<Load> = (0..REGISTERS as u64)
        .map(|seed| Load::of(seed, 64, 5_000))
        .collect();
    let rate = side_by_side(&loads, program, folder)?;
    println!("{REGISTERS} registers of 64 units at once, streams: {rate:.0} in all");
    let rate = one_by_one_at_once(program, folder)?;
    println!("{REGISTERS} registers of 64 units at once, one report at a time: {rate:.0} in all");
    Ok(())
}

/// All of them at once, each with one report at a time.
fn one_by_one_at_once(program: &Path, folder: &Path) -> std::io::Result<f64> {
    let loads: Vec<Load> = (0..REGISTERS as u64)
        .map(|seed| Load::of(seed, 64, 200))
        .collect();
    std::thread::scope(|scope| {
        let start = |(load, number)| {
            let load: &Load = load;
            let path = folder.join(format!("{number}"));
            scope.spawn(move || load.one_by_one(program, &path))
        };
        let running: Vec<_> = loads.iter().zip(0..REGISTERS).map(start).collect();
        let rates = running
            .into_iter()
            .map(|run| run.join().expect("a run was lost"));
        rates.sum()
    })
}

/// Read side by side, so that no pipe fills up.
fn all_outputs(children: Vec<Child>) -> std::io::Result<Vec<Output>> {
    std::thread::scope(|scope| {
        let wait = |child: Child| scope.spawn(move || child.wait_with_output());
        let waiting: Vec<_> = children.into_iter().map(wait).collect();
        let outputs = waiting
            .into_iter()
            .map(|wait| wait.join().expect("a run was lost"));
        outputs.collect()
    })
}

/// All of them at once, each in a process of its own; each register is compared with the reference's.
fn side_by_side(loads: &[Load], program: &Path, folder: &Path) -> std::io::Result<f64> {
    let paths: Vec<PathBuf> = (0..loads.len())
        .map(|number| folder.join(format!("{number}")))
        .collect();
    let mut streams = Vec::new();
    for (load, path) in loads.iter().zip(&paths) {
        streams.push(load.stream_file(path)?);
    }
    let begun = Instant::now();
    let mut children = Vec::new();
    for ((load, path), stream) in loads.iter().zip(&paths).zip(streams) {
        children.push(load.start(program, path, stream.into())?);
    }
    let outputs = all_outputs(children)?;
    let time = begun.elapsed();
    for ((load, path), output) in loads.iter().zip(&paths).zip(outputs) {
        load.all_accepted(&output.stdout);
        let mut register = load.register.clone();
        for report in &load.reports {
            answer(&mut register, report);
        }
        assert_eq!(register.len() / BLOCK_SIZE, 64);
        assert!(fs::read(path)? == register, "{} differs", path.display());
    }
    let reports: usize = loads.iter().map(|load| load.reports.len()).sum();
    Ok(reports as f64 / time.as_secs_f64())
}
