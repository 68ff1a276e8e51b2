//! `cdf list`: the listing, byte for byte as the library writes it.

use crate::args::Args;
use crate::json::Object;
use crate::output::Out;
use crate::units::{object, refused, Units};
use crate::{input, json, End, Stop};

pub fn run(args: &mut Args, out: &mut Out) -> Result<End, Stop> {
    let as_json = args.flag("--json");
    let file = input::read(&args.one_file()?)?;
    if !as_json {
        out.write(&cdf::listing(&file.bytes))?;
        return Ok(End::Done);
    }
    // A refused file has no listing: the line says why, as in the text.
    let made = Object::new().text("file", &file.name);
    let made = match cdf::check(&file.bytes) {
        Ok(count) => {
            let units = Units::of(&file.bytes);
            let listed = units.all.iter().map(|unit| object(unit).end());
            made.boolean("accepted", true).number("units", count as u64).raw("listing", &json::list(listed))
        }
        Err(refusal) => refused(made.boolean("accepted", false), &refusal),
    };
    out.write(&format!("{}\n", made.end()))?;
    Ok(End::Done)
}
