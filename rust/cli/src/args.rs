//! The words of a call: options wherever they stand, up to '--', and the rest in order.

use std::collections::VecDeque;
use std::ffi::{OsStr, OsString};

use crate::Stop;

pub enum Command {
    List,
    Check,
    Explain,
    Lookup,
    Rescue,
    Resolve,
    Show,
    States,
    /// The help, of one command or of all.
    Help(Option<String>),
    Man,
    Version,
}

pub struct Args {
    name: String,
    options: Vec<String>,
    words: VecDeque<OsString>,
}

impl Args {
    pub fn new(given: Vec<OsString>) -> Result<Args, Stop> {
        let (mut options, mut words, mut ended) = (Vec::new(), VecDeque::new(), false);
        for word in given {
            match word.to_str() {
                Some("--") if !ended => ended = true,
                Some(text) if !ended && text.len() > 1 && text.starts_with('-') => options.push(text.to_string()),
                _ => words.push_back(word),
            }
        }
        let name = match words.pop_front() {
            Some(word) => word.to_string_lossy().into_owned(),
            None => String::new(),
        };
        Ok(Args { name, options, words })
    }

    pub fn command(&mut self) -> Result<Command, Stop> {
        let wants_help = self.flag("--help") | self.flag("-h");
        if self.name.is_empty() && self.flag("--version") {
            return Ok(Command::Version);
        }
        if wants_help {
            return Ok(Command::Help((!self.name.is_empty()).then(|| self.name.clone())));
        }
        match self.name.as_str() {
            "list" => Ok(Command::List),
            "check" => Ok(Command::Check),
            "explain" => Ok(Command::Explain),
            "lookup" => Ok(Command::Lookup),
            "rescue" => Ok(Command::Rescue),
            "resolve" => Ok(Command::Resolve),
            "show" => Ok(Command::Show),
            "states" => Ok(Command::States),
            "help" => {
                if self.flag("--man") {
                    self.finish()?;
                    return Ok(Command::Man);
                }
                let about = self.words.pop_front().map(|word| word.to_string_lossy().into_owned());
                self.finish()?;
                Ok(Command::Help(about))
            }
            "" => Err(Stop::Usage("no command".to_string())),
            other => Err(Stop::Usage(format!("no command '{}'", crate::escape::escaped(other.as_bytes())))),
        }
    }

    /// Whether an option is there. It is then taken.
    pub fn flag(&mut self, name: &str) -> bool {
        let before = self.options.len();
        self.options.retain(|option| option != name);
        self.options.len() < before
    }

    /// The next word, if there is one.
    pub fn word(&mut self) -> Option<OsString> {
        self.words.pop_front()
    }

    pub fn left(&self) -> usize {
        self.words.len()
    }

    /// The one file that a command takes; standard input where none is named.
    pub fn one_file(&mut self) -> Result<OsString, Stop> {
        let file = self.word().unwrap_or_else(|| OsString::from("-"));
        self.finish()?;
        Ok(file)
    }

    /// That nothing is left that the command does not know.
    pub fn finish(&self) -> Result<(), Stop> {
        if let Some(option) = self.options.first() {
            return Err(Stop::Usage(format!("{}no option '{}'", self.of(), crate::escape::escaped(option.as_bytes()))));
        }
        if let Some(word) = self.words.front() {
            let word = crate::escape::escaped_name(word);
            return Err(Stop::Usage(format!("{}too many words: '{word}'", self.of())));
        }
        Ok(())
    }

    fn of(&self) -> String {
        format!("{}: ", self.name)
    }
}

/// The text of a word that names something in a stream.
pub fn text_of(word: &OsStr) -> &[u8] {
    use std::os::unix::ffi::OsStrExt;
    word.as_bytes()
}
