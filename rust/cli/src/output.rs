//! Writing: what cannot be written is an error, and who closes a pipe wants no more.

use std::io::{self, BufWriter, IsTerminal, Write};
use std::process::{Command, Stdio};

use crate::input::{is_closed, words};
use crate::Stop;

/// Standard output.
pub struct Out {
    to: BufWriter<io::Stdout>,
    /// Whether it is a terminal.
    pub terminal: bool,
}

impl Out {
    pub fn new() -> Out {
        Out { to: BufWriter::new(io::stdout()), terminal: io::stdout().is_terminal() }
    }

    /// That there is something to write to.
    pub fn open(&mut self) -> Result<(), Stop> {
        match is_closed(1) {
            true => Err(Stop::Failed("cannot write: standard output is closed".to_string())),
            false => Ok(()),
        }
    }

    pub fn write(&mut self, text: &str) -> Result<(), Stop> {
        self.write_bytes(text.as_bytes())
    }

    pub fn write_bytes(&mut self, bytes: &[u8]) -> Result<(), Stop> {
        self.to.write_all(bytes).map_err(stopped)
    }

    pub fn flush(&mut self) -> Result<(), Stop> {
        self.to.flush().map_err(stopped)
    }

    /// The text in a colour, where there is a terminal that wants colours.
    pub fn coloured(&self, code: &str, text: &str) -> String {
        match self.has_colour() {
            true => format!("\x1b[{code}m{text}\x1b[0m"),
            false => text.to_string(),
        }
    }

    fn has_colour(&self) -> bool {
        let unset = |name| std::env::var_os(name).is_none_or(|value| value.is_empty());
        self.terminal && unset("NO_COLOR") && std::env::var_os("TERM").is_none_or(|value| value != "dumb")
    }

    /// How many characters a line may have; `None` where it is no terminal.
    pub fn width(&self) -> Option<usize> {
        if !self.terminal {
            return None;
        }
        let told = std::env::var("COLUMNS").ok().and_then(|text| text.parse().ok());
        told.or_else(asked_width).filter(|&width| width > 0).or(Some(80))
    }
}

/// The terminal's width by `stty`, which knows it where no variable tells it.
fn asked_width() -> Option<usize> {
    let tty = std::fs::File::open("/dev/tty").ok()?;
    let said = Command::new("stty").arg("size").stdin(Stdio::from(tty)).stderr(Stdio::null()).output().ok()?;
    String::from_utf8(said.stdout).ok()?.split_whitespace().nth(1)?.parse().ok()
}

fn stopped(error: io::Error) -> Stop {
    match error.kind() {
        io::ErrorKind::BrokenPipe => Stop::Closed,
        _ => Stop::Failed(format!("cannot write to standard output: {}", words(&error))),
    }
}

/// Writes to standard error, if that takes it: there is nowhere else to say that it does not.
pub fn complain(text: &str) {
    let _ = io::stderr().write_all(text.as_bytes());
}
