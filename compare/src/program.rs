//! A program that is run: what it is given, and what it writes.
use std::io::{self, ErrorKind, Write};
use std::process::{ChildStdin, Command, Stdio};
use std::thread;
use std::time::Duration;

// Its arguments, and its input, a piece of so many bytes at a time.
#[derive(Clone)]
pub struct Input {
    pub words: Vec<String>,
    pub bytes: Vec<u8>,
    pub piece: usize,
}

impl Input {
    pub fn at_once(bytes: Vec<u8>) -> Input {
        Input {
            words: Vec::new(),
            bytes,
            piece: usize::MAX,
        }
    }

    pub fn by_byte(bytes: Vec<u8>) -> Input {
        Input {
            piece: 1,
            ..Input::at_once(bytes)
        }
    }
}

// To standard output, and to standard error.
#[derive(PartialEq)]
pub struct Written {
    pub out: Vec<u8>,
    pub err: Vec<u8>,
}

impl Written {
    pub fn to_output(out: impl Into<Vec<u8>>) -> Written {
        let (out, err) = (out.into(), Vec::new());
        Written { out, err }
    }

    pub fn to_error(err: impl Into<Vec<u8>>) -> Written {
        let (out, err) = (Vec::new(), err.into());
        Written { out, err }
    }
}

// Long enough that a piece is read before the next is there.
const PAUSE: Duration = Duration::from_millis(5);

// A program that has read enough may end before it is given all.
fn give(mut stdin: ChildStdin, input: &Input) -> io::Result<()> {
    for part in input.bytes.chunks(input.piece) {
        match stdin.write_all(part) {
            Err(error) if error.kind() == ErrorKind::BrokenPipe => return Ok(()),
            given => given?,
        }
        if input.piece < input.bytes.len() {
            thread::sleep(PAUSE);
        }
    }
    Ok(())
}

// What it writes when it is given the input.
pub fn written(program: &[String], input: &Input) -> io::Result<Written> {
    let mut child = Command::new(&program[0])
        .args(&program[1..])
        .args(&input.words)
        .stdin(Stdio::piped())
        .stdout(Stdio::piped())
        .stderr(Stdio::piped())
        .spawn()?;
    let stdin = child.stdin.take().unwrap();
    // from a thread of its own, since the pipes can fill
    let output = thread::scope(|scope| {
        let giver = scope.spawn(|| give(stdin, input));
        let output = child.wait_with_output()?;
        giver.join().unwrap().map(|()| output)
    })?;
    if !output.status.success() {
        let ended = format!("the program ended with {}", output.status);
        return Err(io::Error::other(ended));
    }
    Ok(Written {
        out: output.stdout,
        err: output.stderr,
    })
}
