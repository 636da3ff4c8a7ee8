//! One run of a program.

use std::io::{ErrorKind, Read, Write};
use std::path::Path;
use std::process::{Child, Command, Stdio};
use std::thread::sleep;
use std::time::{Duration, Instant};

/// How long a run may take.
const LIMIT: Duration = Duration::from_secs(60);
/// The pause between two pieces of the input.
const PAUSE: Duration = Duration::from_millis(1);

/// What a run leaves: standard output, standard error, and the exit status unless a signal ended
/// it.
#[derive(Clone, Debug, Default, PartialEq, Eq)]
pub struct Ran {
    pub output: Vec<u8>,
    pub errors: Vec<u8>,
    pub status: Option<i32>,
}

/// What the program leaves when it is fed the input in so many pieces.
pub fn run(program: &Path, input: &[u8], pieces: usize) -> Result<Ran, String> {
    let failed = |error: std::io::Error| format!("{}: {error}", program.display());
    let mut child = Command::new(program)
        .stdin(Stdio::piped())
        .stdout(Stdio::piped())
        .stderr(Stdio::piped())
        .spawn()
        .map_err(failed)?;
    let fed = feed(&mut child, input, pieces);
    let status = wait(&mut child)?;
    fed.map_err(failed)?;
    Ok(Ran {
        output: rest(child.stdout.take()).map_err(failed)?,
        errors: rest(child.stderr.take()).map_err(failed)?,
        status,
    })
}

/// Writes the input and closes it. The program may stop reading once it knows the input to be too
/// long.
fn feed(child: &mut Child, input: &[u8], pieces: usize) -> std::io::Result<()> {
    let mut pipe = child.stdin.take().expect("a piped input");
    for (number, piece) in input
        .chunks(input.len().div_ceil(pieces).max(1))
        .enumerate()
    {
        if number > 0 {
            sleep(PAUSE);
        }
        match pipe.write_all(piece) {
            Err(error) if error.kind() == ErrorKind::BrokenPipe => return Ok(()),
            other => other?,
        }
    }
    Ok(())
}

/// Waits for the end, and stops a run that takes too long. What a right program writes fits in the
/// pipes meanwhile.
fn wait(child: &mut Child) -> Result<Option<i32>, String> {
    let start = Instant::now();
    loop {
        match child.try_wait() {
            Ok(Some(status)) => return Ok(status.code()),
            Ok(None) if start.elapsed() < LIMIT => sleep(Duration::from_micros(200)),
            _ => {
                let _ = child.kill();
                let _ = child.wait();
                return Err("it did not end in time".to_string());
            }
        }
    }
}

/// All that a pipe still holds.
fn rest(pipe: Option<impl Read>) -> std::io::Result<Vec<u8>> {
    let mut bytes = vec![];
    pipe.expect("a pipe").read_to_end(&mut bytes)?;
    Ok(bytes)
}
