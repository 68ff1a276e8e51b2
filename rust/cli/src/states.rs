//! `cdf states`: the units as the table reader hands them out, each with what it makes of the state of the unit around it.

use cdf::{Id, Refusal, State, TableReader, Unit};

use crate::args::Args;
use crate::cause::plural;
use crate::escape::cut;
use crate::explain::Fault;
use crate::input::Input;
use crate::json::Object;
use crate::output::Out;
use crate::units::{choice, ids, refused};
use crate::{input, json, End, Stop};

/// A row of the table: a state, or the one that stands before the root.
type Row = Option<State>;

/// A unit, and the rows of the unit around it before and after. The root has none around it: it leads to its own first state.
struct Step<'a> {
    unit: Unit<'a>,
    before: Row,
    after: Row,
}

/// What the table reader hands out up to its end; the refusal, if it ends with one, and the states that were there.
struct Walk<'a> {
    steps: Vec<Step<'a>>,
    refusal: Option<Refusal>,
    states: Vec<State>,
}

fn walk(stream: &[u8]) -> Walk<'_> {
    let mut reader = TableReader::new(stream);
    let (mut steps, mut states) = (Vec::new(), reader.states());
    loop {
        match reader.next() {
            Some(Ok(unit)) => {
                let now = reader.states();
                // A unit at one depth stands in the one that is open a level further out, and that stays open.
                let (before, after) = match unit.depth().checked_sub(2) {
                    Some(around) => (states.get(around).copied(), now.get(around).copied()),
                    None => (None, now.first().copied()),
                };
                steps.push(Step { unit, before, after });
                states = now;
            }
            ended => return Walk { steps, refusal: ended.and_then(Result::err), states },
        }
    }
}

fn number(row: Row) -> u64 {
    row.map_or(0, State::number)
}

fn name(row: Row) -> String {
    row.map_or("before the root".to_string(), |state| state.to_string())
}

fn both(row: Row) -> String {
    format!("{} {}", number(row), name(row))
}

/// What a unit makes of the row of the unit around it.
fn change(step: &Step) -> String {
    let after = if step.before == step.after { format!("{}, as before", number(step.after)) } else { both(step.after) };
    format!("{} -> {after}", both(step.before))
}

/// Where the table reader stops: its refusal, what that says, the row of the innermost unit around the fault, and the ids that it admits.
struct Stopped {
    refusal: Refusal,
    says: String,
    row: Row,
    admitted: Vec<Id>,
}

impl Stopped {
    fn new(file: &Input, walk: &Walk) -> Option<Stopped> {
        let refusal = walk.refusal?;
        let why = cdf::explain(&file.bytes)?;
        // The units that end before the fault and are complete have closed, and the others are open as they were.
        let row = why.open.len().checked_sub(1).and_then(|innermost| walk.states.get(innermost).copied());
        Some(Stopped { refusal, says: Fault::new(file, &why).sentence(), row, admitted: why.admitted })
    }

    /// Beside the fault: what the table has to do with it, and the row that counts there.
    fn text(&self, out: &Out) -> String {
        let Stopped { refusal, says, row, admitted } = self;
        let line = format!("!! refused, number {} at byte {}: {says}", refusal.number, refusal.offset.unwrap_or(0));
        let table = match refusal.number {
            7 => "The table does not admit it.",
            8 | 9 => "The table admits it: the rule that it breaks comes after the table.",
            10 => "The table was not asked: a unit ends by its length.",
            _ => "The table was not asked: this rule comes before it.",
        };
        let stands = match (row, refusal.number) {
            (None, _) => "No unit is open yet: row 0 counts, before the root.".to_string(),
            (Some(_), 10) => format!("The unit's state is {}, in which it may not end.", both(*row)),
            (Some(_), _) => format!("The state of the unit around it is {}.", both(*row)),
        };
        let admits: Vec<String> = admitted.iter().map(|id| format!("{} {id}", id.number())).collect();
        let admits = if admits.is_empty() { "nothing more".to_string() } else { choice(&admits) };
        format!("{}\n   {table}\n   {stands} Row {} admits: {admits}.\n", out.coloured("31", &line), number(*row))
    }

    fn json(&self, made: Object) -> Object {
        refused(made, &self.refusal).text("says", &self.says).raw("row", &state(self.row)).raw("admitted", &ids(&self.admitted))
    }
}

pub fn run(args: &mut Args, out: &mut Out) -> Result<End, Stop> {
    let as_json = args.flag("--json");
    let file = input::read(&args.one_file()?)?;
    let walk = walk(&file.bytes);
    let stopped = Stopped::new(&file, &walk);
    let end = if walk.refusal.is_some() { End::Refused } else { End::Done };
    if as_json {
        let made = Object::new().text("file", &file.name).boolean("accepted", walk.refusal.is_none());
        let made = made.raw("units", &json::list(walk.steps.iter().map(object)));
        out.write(&format!("{}\n", made.some(stopped, |made, stopped| stopped.json(made)).end()))?;
        return Ok(end);
    }
    out.write(&lines(&file, &walk, out))?;
    let count = walk.steps.len();
    let accepted = format!("Accepted: {count} {}. ", plural(count, "unit"))
        + "The table admitted each of them, and each ends in a state in which it may.\n";
    out.write(&stopped.map_or(accepted, |stopped| stopped.text(out)))?;
    Ok(end)
}

/// What is to be said before the units, and a line for each.
fn lines(file: &Input, walk: &Walk, out: &Out) -> String {
    let mut text = format!(
        "{}, read by the table of states (docs/STATE-TABLE.md).\n\
         A state is a number for what an open unit is and has had so far. A line has the byte where a unit begins, how deep it lies, the unit,\n\
         and the state of the unit around it: before it came -> from then on.\n",
        file.name
    );
    let shown = |unit: &Unit| {
        let named = unit.name().map_or(String::new(), |name| format!(" {name}"));
        format!("{}{}{named}", "  ".repeat(unit.depth() - 1), unit.id())
    };
    let digits = file.bytes.len().to_string().len();
    let wide = walk.steps.iter().map(|step| shown(&step.unit).len()).max().unwrap_or(0);
    for step in &walk.steps {
        let unit = &step.unit;
        let line = format!("{:>digits$}  {}  {:<wide$}  {}", unit.start(), unit.depth(), shown(unit), change(step));
        text.push_str(&format!("{}\n", cut(&line, out.width())));
    }
    text
}

fn state(row: Row) -> String {
    Object::new().number("state", number(row)).text("name", &name(row)).end()
}

fn object(step: &Step) -> String {
    Object::new()
        .number("start", step.unit.start() as u64)
        .number("depth", step.unit.depth() as u64)
        .number("id", step.unit.id().number())
        .text("kind", &step.unit.id().to_string())
        .raw("before", &state(step.before))
        .raw("after", &state(step.after))
        .end()
}
