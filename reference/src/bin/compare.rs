//! Runs a program on many sheets and compares what it prints with what the
//! reference prints.
//!
//!     compare PROGRAM [SEED [COUNT]]
//!
//! Every second sheet is lent as a file, the others through a pipe in pieces.
//! The last line counts what occurred. The exit status is 1 if the program
//! printed something else for a sheet, which is then kept in a file, or ended
//! in another way than with 0, or if something that should occur in the sheets
//! did not; 2 if it did not run.

use darthog_reference::compare::{compare, Difference, Ended};
use darthog_reference::random::Random;
use std::fs::{self, File};
use std::io::{self, Write};
use std::path::{Path, PathBuf};
use std::process::{Child, Command, ExitCode, Output, Stdio};
use std::thread;

const SEED: u64 = 1;
const COUNT: u64 = 2_000;

struct Arguments {
    program: PathBuf,
    seed: u64,
    count: u64,
}

fn main() -> ExitCode {
    let Some(arguments) = arguments() else {
        eprintln!("state: compare PROGRAM [SEED [COUNT]]");
        return ExitCode::from(2);
    };
    println!("seed {}, {} sheets", arguments.seed, arguments.count);
    let lent = std::env::temp_dir().join(format!("darthog-lent-{}.sheet", std::process::id()));
    let ended = compare(arguments.seed, arguments.count, |number, sheet| {
        if number % 2 == 0 {
            by_file(&arguments.program, sheet, &lent)
        } else {
            by_pipe(&arguments.program, sheet, number)
        }
    });
    // The file may never have been written.
    let _ = fs::remove_file(&lent);
    match ended {
        Ok(Ended::Same(counts)) => {
            let missing = counts.missing();
            for words in &missing {
                println!("did not occur: {words}");
            }
            println!("{counts}");
            ExitCode::from(u8::from(!missing.is_empty()))
        }
        Ok(Ended::Differs(difference)) => match report(arguments.seed, &difference) {
            Ok(()) => ExitCode::from(1),
            Err(error) => failed(&error),
        },
        Err(error) => failed(&error),
    }
}

fn failed(error: &io::Error) -> ExitCode {
    eprintln!("{error}");
    ExitCode::from(2)
}

fn arguments() -> Option<Arguments> {
    let mut words = std::env::args().skip(1);
    let program = PathBuf::from(words.next()?);
    let seed = words.next().map_or(Some(SEED), |word| word.parse().ok())?;
    let count = words.next().map_or(Some(COUNT), |word| word.parse().ok())?;
    words.next().is_none().then_some(Arguments {
        program,
        seed,
        count,
    })
}

fn start(program: &Path, input: Stdio) -> io::Result<Child> {
    Command::new(program)
        .stdin(input)
        .stdout(Stdio::piped())
        .spawn()
        .map_err(|error| io::Error::other(format!("{}: {error}", program.display())))
}

fn by_file(program: &Path, sheet: &[u8], lent: &Path) -> io::Result<Vec<u8>> {
    fs::write(lent, sheet)?;
    let child = start(program, Stdio::from(File::open(lent)?))?;
    Ok(printed(child.wait_with_output()?))
}

/// What the program printed; another end than exit status 0 is a difference
/// too, and is told after it.
fn printed(output: Output) -> Vec<u8> {
    let mut bytes = output.stdout;
    if !output.status.success() {
        bytes.extend_from_slice(format!("ended with {}\n", output.status).as_bytes());
    }
    bytes
}

/// The pipe's writer may be ahead of the program or behind it: the program
/// gets its input in pieces of any length.
fn by_pipe(program: &Path, sheet: &[u8], number: u64) -> io::Result<Vec<u8>> {
    let mut child = start(program, Stdio::piped())?;
    let mut pipe = child.stdin.take().expect("the input is a pipe");
    let sheet = sheet.to_vec();
    let writer = thread::spawn(move || {
        let mut random = Random::new(number);
        let mut rest = &sheet[..];
        while !rest.is_empty() {
            let most = random.among(&[29, 30, 31, 1000, 70_000]);
            let piece = random.between(1, most).min(rest.len() as u64) as usize;
            // A program that has read its 64 KiB may close its end.
            if pipe.write_all(&rest[..piece]).is_err() {
                return;
            }
            rest = &rest[piece..];
        }
    });
    let output = child.wait_with_output()?;
    writer.join().expect("the writer does not panic");
    Ok(printed(output))
}

fn report(seed: u64, difference: &Difference) -> io::Result<()> {
    let name = format!("darthog-{seed}-{}.sheet", difference.number);
    let kept = std::env::temp_dir().join(name);
    fs::write(&kept, &difference.sheet)?;
    println!("sheet {} differs: {}", difference.number, kept.display());
    println!("first at line {}", difference.line);
    println!("expected: {}", words(&difference.expected));
    println!("found:    {}", words(&difference.found));
    Ok(())
}

fn words(line: &[u8]) -> String {
    if line.is_empty() {
        return "nothing".to_string();
    }
    format!("{:?}", String::from_utf8_lossy(line))
}
