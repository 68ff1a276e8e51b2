//! `cdf show`: the tree as a person reads it.

use cdf::Action;

use crate::args::Args;
use crate::escape::cut;
use crate::explain::Fault;
use crate::json::Object;
use crate::output::Out;
use crate::units::{object, refused, whole, Units};
use crate::{input, json, End, Stop};

pub fn run(args: &mut Args, out: &mut Out) -> Result<End, Stop> {
    let (as_json, offsets, ranks) = (args.flag("--json"), args.flag("--offsets"), args.flag("--ranks"));
    let file = input::read(&args.one_file()?)?;
    let why = cdf::explain(&file.bytes);
    let fault = why.as_ref().map(|why| Fault::new(&file, why));
    let whole_units;
    let units = match &fault {
        Some(fault) => &fault.units,
        None => {
            whole_units = Units::of(&file.bytes);
            &whole_units
        }
    };
    if as_json {
        let listed = units.all.iter().map(|unit| object(unit).end());
        let made = Object::new().text("file", &file.name).boolean("accepted", fault.is_none()).raw("units", &json::list(listed));
        let made = match (&fault, &why) {
            (Some(fault), Some(why)) => refused(made, &why.refusal).text("says", &fault.sentence()),
            _ => made,
        };
        out.write(&format!("{}\n", made.end()))?;
    } else {
        let digits = file.bytes.len().to_string().len();
        let margin = |start: usize| if offsets { format!("{start:>digits$}  ") } else { String::new() };
        let width = out.width();
        for unit in &units.all {
            let rank = if ranks { format!("[{}] ", unit.rank()) } else { String::new() };
            let action = match unit.action() {
                Action::None => String::new(),
                action => format!("{action} "),
            };
            let line = format!("{}{}{rank}{action}{}", margin(unit.start()), "  ".repeat(unit.depth() - 1), whole(unit));
            out.write(&format!("{}\n", cut(&line, width)))?;
        }
        if let (Some(fault), Some(why)) = (&fault, &why) {
            let at = why.refusal.offset.unwrap_or(0);
            let deep = "  ".repeat(why.open.len());
            let line = format!("{}{deep}!! refused, number {} at byte {at}: {}", margin(fault.start), why.refusal.number, fault.sentence());
            out.write(&format!("{}\n", out.coloured("31", &line)))?;
        }
    }
    Ok(if fault.is_some() { End::Refused } else { End::Done })
}
