//! A case of the builder: calls on one buffer, how they are written, and what the model answers.

use crate::builder::{add_stream, finish, next, start, Request};
use crate::numbers::{builder_place, of_builder_place, BuilderNumbers};

#[derive(Clone)]
pub enum Step {
    Start(u64),
    Next(Request),
    Add(Vec<u8>),
    Finish,
    /// A place to go on with.
    Place(BuilderNumbers),
}

pub struct BuildCase {
    pub label: String,
    pub size: usize,
    pub steps: Vec<Step>,
}

/// What was answered, and the place and the buffer then.
pub struct Run {
    pub words: Vec<String>,
    pub place: BuilderNumbers,
    pub buffer: Vec<u8>,
}

/// Each byte of a buffer before anything is written.
pub const UNWRITTEN: u8 = 0xEE;

/// The steps from the empty place.
pub fn run(size: usize, steps: &[Step]) -> Run {
    let mut run = Run { words: vec![], place: [0; 10], buffer: vec![UNWRITTEN; size] };
    for step in steps {
        let place = builder_place(&run.place);
        let (letter, built) = match step {
            Step::Start(root) => {
                run.place = [0; 10];
                ('S', start(&mut run.buffer, *root))
            }
            Step::Next(request) => ('N', next(&mut run.buffer, &place, request)),
            Step::Add(group) => ('A', add_stream(&mut run.buffer, &place, group)),
            Step::Finish => {
                let said = finish(&run.buffer, &place);
                run.words.push(format!("F{} L{}", said.err().unwrap_or(0), said.unwrap_or(0)));
                continue;
            }
            Step::Place(numbers) => {
                run.place = *numbers;
                continue;
            }
        };
        run.words.push(format!("{letter}{}", built.as_ref().err().unwrap_or(&0)));
        if let Ok(place) = built {
            run.place = of_builder_place(&place);
        }
    }
    run
}

fn hex(bytes: &[u8]) -> String {
    bytes.iter().map(|byte| format!("{byte:02x}")).collect()
}

/// The bytes in hexadecimal; *CCCCBB is CCCC bytes, each BB.
fn in_hex(bytes: &[u8]) -> String {
    let text = |run: &[u8]| match run.len() {
        0..=7 => hex(run).to_uppercase(),
        count => format!("*{count:04X}{:02X}", run[0]),
    };
    bytes.chunk_by(|one, other| one == other).map(text).collect()
}

fn spaced(numbers: &[u64]) -> String {
    numbers.iter().map(u64::to_string).collect::<Vec<_>>().join(" ")
}

impl Step {
    /// As the program reads it.
    fn written(&self) -> String {
        match self {
            Step::Start(root) => format!("S{root}"),
            Step::Next(Request { id, action, data }) => format!("N{id} {action} {}", in_hex(data)),
            Step::Add(group) => format!("A{}", in_hex(group)),
            Step::Finish => "F".to_string(),
            Step::Place(place) => format!("P{} {} {}", spaced(&place[2..]), place[1], place[0]),
        }
    }
}

impl BuildCase {
    /// As the program reads it.
    pub fn input(&self) -> String {
        let steps: String = self.steps.iter().map(|step| step.written() + "\n").collect();
        format!("{} {}\n{steps}.\n", self.label, self.size)
    }

    /// The line that the program owes.
    pub fn answer(&self) -> String {
        let Run { words, place, buffer } = run(self.size, &self.steps);
        let innermost = place[1].min(1) as usize;
        let outer = place[1].saturating_sub(1).min(3) as usize;
        let slots = (1..=outer).chain(0..innermost);
        let open: String = slots.map(|slot| format!(" U{} @{}", place[2 + 2 * slot], place[3 + 2 * slot])).collect();
        let written = buffer.iter().rposition(|byte| *byte != UNWRITTEN).map_or(0, |last| last + 1);
        format!(
            "{} {} P{}{open} W{written} E{} {}\n",
            self.label,
            words.join(" "),
            place[0],
            buffer.len() - written,
            shortened(&buffer[..written])
        )
    }
}

/// The bytes, or of many a sum, the first 16 and the last 16.
fn shortened(bytes: &[u8]) -> String {
    if bytes.len() <= 1024 {
        return hex(bytes);
    }
    let sum = bytes.iter().fold(0_u64, |sum, byte| (sum * 257 + u64::from(*byte)) % 4_294_967_291);
    format!("{sum} {} {}", hex(&bytes[..16]), hex(&bytes[bytes.len() - 16..]))
}
