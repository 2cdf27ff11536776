//! Runs random scripts through a program and through the twin, and compares
//! what they print.
//!
//!     compare_scripts PROGRAM COUNT SEED [WORKERS]

use std::fs::{self, File};
use std::io::{self, Write};
use std::path::{Path, PathBuf};
use std::process::{Command, ExitCode, Output, Stdio};
use std::sync::atomic::{AtomicU64, Ordering};
use std::sync::Mutex;
use std::thread;

use twin::random::Random;
use twin::script;

mod scripts;
mod tally;

use tally::Tally;

/// The run stops after so many differences.
const MOST_DIFFERENCES: u64 = 5;
/// From so many scripts on, every class must have been reached.
const ENOUGH: u64 = 2_000;

struct Job {
    program: String,
    count: u64,
    seed: u64,
    workers: u64,
}

impl Job {
    fn from_arguments(arguments: &[String]) -> Option<Job> {
        let (program, numbers) = arguments.split_first()?;
        let numbers: Vec<u64> = numbers
            .iter()
            .map(|number| number.parse().ok())
            .collect::<Option<_>>()?;
        let (count, seed, workers) = match numbers[..] {
            [count, seed] => (count, seed, 1),
            [count, seed, workers] if workers >= 1 => (count, seed, workers),
            _ => return None,
        };
        Some(Job {
            program: program.clone(),
            count,
            seed,
            workers,
        })
    }
}

/// What the workers share.
struct Progress {
    next: AtomicU64,
    differences: AtomicU64,
    tally: Mutex<Tally>,
}

fn main() -> ExitCode {
    let arguments: Vec<String> = std::env::args().skip(1).collect();
    let Some(job) = Job::from_arguments(&arguments) else {
        eprintln!("usage: compare_scripts PROGRAM COUNT SEED [WORKERS]");
        return ExitCode::FAILURE;
    };
    match compare(&job) {
        Ok(true) => ExitCode::SUCCESS,
        Ok(false) => ExitCode::FAILURE,
        Err(error) => {
            eprintln!("compare_scripts: {error}");
            ExitCode::FAILURE
        }
    }
}

fn compare(job: &Job) -> io::Result<bool> {
    let progress = Progress {
        next: AtomicU64::new(0),
        differences: AtomicU64::new(0),
        tally: Mutex::new(Tally::default()),
    };
    thread::scope(|scope| {
        let workers: Vec<_> = (0..job.workers)
            .map(|worker| {
                let progress = &progress;
                scope.spawn(move || work(job, worker, progress))
            })
            .collect();
        workers
            .into_iter()
            .try_for_each(|worker| worker.join().expect("a worker does not panic"))
    })?;
    let tally = progress.tally.into_inner().expect("no worker panicked");
    let differences = progress.differences.into_inner();
    print!("{tally}");
    let missed = tally.missed();
    if !missed.is_empty() {
        println!("never reached: {}", missed.join(", "));
    }
    println!("{} scripts, {differences} differences", tally.scripts());
    Ok(differences == 0 && (job.count < ENOUGH || missed.is_empty()))
}

fn work(job: &Job, worker: u64, progress: &Progress) -> io::Result<()> {
    let input = Input::new(worker)?;
    let mut tally = Tally::default();
    while progress.differences.load(Ordering::Relaxed) < MOST_DIFFERENCES {
        let number = progress.next.fetch_add(1, Ordering::Relaxed);
        if number >= job.count {
            break;
        }
        let mut random = Random::for_piece(job.seed, number);
        let bytes = scripts::write(&mut random, number);
        let mut expected = Vec::new();
        tally.begin(&bytes);
        script::run_observed(&bytes, &mut expected, &mut tally)?;
        let output = if random.once_in(16) {
            run_piped(&job.program, &bytes, &mut random)?
        } else {
            input.run(&job.program, &bytes)?
        };
        let same = output.status.success() && output.stdout == expected;
        if !same && progress.differences.fetch_add(1, Ordering::Relaxed) < MOST_DIFFERENCES {
            report(job, number, &bytes, &expected, &output)?;
        }
    }
    progress
        .tally
        .lock()
        .expect("no worker panicked")
        .add(&tally);
    Ok(())
}

/// A worker's file that scripts are fed from. A file cannot run full, so
/// neither side ever waits for the other.
struct Input {
    path: PathBuf,
}

impl Input {
    fn new(worker: u64) -> io::Result<Input> {
        let name = format!("compare_scripts.{}.{worker}", std::process::id());
        let path = std::env::temp_dir().join(name);
        File::create(&path)?;
        Ok(Input { path })
    }

    fn run(&self, program: &str, bytes: &[u8]) -> io::Result<Output> {
        fs::write(&self.path, bytes)?;
        Command::new(program)
            .stdin(File::open(&self.path)?)
            .output()
    }
}

impl Drop for Input {
    fn drop(&mut self) {
        // What is left in the temporary folder does no harm.
        let _ = fs::remove_file(&self.path);
    }
}

/// Feeds the script through a pipe in pieces, so that reads come short.
fn run_piped(program: &str, bytes: &[u8], random: &mut Random) -> io::Result<Output> {
    let mut child = Command::new(program)
        .stdin(Stdio::piped())
        .stdout(Stdio::piped())
        .stderr(Stdio::piped())
        .spawn()?;
    let piece = random.between(1, 600) as usize;
    let input = child.stdin.take();
    thread::scope(|scope| {
        scope.spawn(move || {
            let Some(mut input) = input else { return };
            for piece in bytes.chunks(piece) {
                // The program may end before it has read everything.
                if input.write_all(piece).is_err() {
                    break;
                }
            }
        });
        child.wait_with_output()
    })
}

/// Keeps the script and tells where the answers part.
fn report(
    job: &Job,
    number: u64,
    bytes: &[u8],
    expected: &[u8],
    output: &Output,
) -> io::Result<()> {
    let name = format!("script.{}.{number}", job.seed);
    let path = std::env::temp_dir().join(name);
    fs::write(&path, bytes)?;
    println!("difference in script {number} of seed {}", job.seed);
    println!("  kept as {}", Path::display(&path));
    if !output.status.success() {
        println!("  the program ended with {}", output.status);
    }
    let (twin, program) = (
        String::from_utf8_lossy(expected),
        String::from_utf8_lossy(&output.stdout),
    );
    let (mut twin, mut program) = (twin.split('\n'), program.split('\n'));
    for line in 1.. {
        let (ours, theirs) = (twin.next(), program.next());
        if ours.is_none() && theirs.is_none() {
            break;
        }
        if ours != theirs {
            println!("  line {line}: twin {ours:?}, program {theirs:?}");
            break;
        }
    }
    Ok(())
}
