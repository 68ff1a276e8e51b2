//! The command for people: it reads files, asks the proved archive, words what it answers and writes it. No rule is decided here.
#![forbid(unsafe_code)]

mod alone;
mod args;
mod cause;
mod check;
mod escape;
mod explain;
mod help;
mod input;
mod json;
mod list;
mod lookup;
mod output;
mod rescue;
mod resolve;
mod saved;
mod show;
mod states;
mod units;

use std::process::ExitCode;

use args::Args;
use output::Out;

/// How a command ends.
pub enum End {
    /// All is well.
    Done,
    /// A stream is refused, or a value is not found; what was to be said is said.
    Refused,
}

/// Why a command could not do its work.
pub enum Stop {
    /// It was called the wrong way. Its help follows.
    Usage(String),
    /// Reading or writing failed.
    Failed(String),
    /// Who reads the output has closed it, and wants no more.
    Closed,
}

fn main() -> ExitCode {
    let given: Vec<_> = std::env::args_os().skip(1).collect();
    let mut out = Out::new();
    match run(given, &mut out) {
        Ok(End::Done) => ExitCode::SUCCESS,
        Ok(End::Refused) => ExitCode::from(1),
        Err(Stop::Closed) => ExitCode::SUCCESS,
        Err(Stop::Failed(why)) => {
            output::complain(&format!("cdf: {why}\n"));
            ExitCode::from(2)
        }
        Err(Stop::Usage(why)) => {
            output::complain(&format!("cdf: {why}\n{}", help::short()));
            ExitCode::from(2)
        }
    }
}

fn run(given: Vec<std::ffi::OsString>, out: &mut Out) -> Result<End, Stop> {
    let mut args = Args::new(given)?;
    out.open()?;
    let end = match args.command()? {
        args::Command::Help(about) => {
            out.write(&help::about(about.as_deref())?)?;
            End::Done
        }
        args::Command::Man => {
            out.write(&help::man())?;
            End::Done
        }
        args::Command::Version => {
            out.write(&format!("cdf {}, over the archive's version {}\n", env!("CARGO_PKG_VERSION"), cdf::version()))?;
            End::Done
        }
        args::Command::List => list::run(&mut args, out)?,
        args::Command::Check => check::run(&mut args, out)?,
        args::Command::Explain => explain::run(&mut args, out)?,
        args::Command::Lookup => lookup::run(&mut args, out)?,
        args::Command::Rescue => rescue::run(&mut args, out)?,
        args::Command::Resolve => resolve::run(&mut args, out)?,
        args::Command::Show => show::run(&mut args, out)?,
        args::Command::States => states::run(&mut args, out)?,
    };
    out.flush()?;
    Ok(end)
}
