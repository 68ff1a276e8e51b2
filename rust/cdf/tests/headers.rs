//! What this crate declares is what the headers of include/ say: constants, ids, actions, and every parameter of every function.

use std::collections::BTreeMap;
use std::fs;

use cdf::{Action, Id, Refusal, State};

fn text(path: &str) -> String {
    let top = concat!(env!("CARGO_MANIFEST_DIR"), "/../../");
    fs::read_to_string(format!("{top}{path}")).unwrap()
}

/// The headers without comments.
fn headers() -> String {
    let all: String = ["cdf_numbers.h", "cdf.h", "cdf_build.h", "cdf_table_reader.h"].map(|name| text(&format!("include/{name}"))).concat();
    all.split("/*").map(|part| part.split_once("*/").map_or(part, |(_, behind)| behind)).collect()
}

fn constants() -> BTreeMap<String, u64> {
    let headers = headers();
    let words = headers.lines().map(|line| line.split_whitespace().collect::<Vec<_>>());
    words.filter(|words| words.len() == 3 && words[0] == "#define").map(|words| (words[1].to_string(), words[2].parse().unwrap())).collect()
}

/// `ErGroup` as `ER_GROUP`.
fn shouted(name: &str) -> String {
    let mut made = String::new();
    for c in name.chars() {
        if c.is_uppercase() && !made.is_empty() {
            made.push('_');
        }
        made.extend(c.to_uppercase());
    }
    made
}

/// The constants that begin so, against names and numbers of an enum.
fn same(front: &str, known: Vec<(String, u64)>) {
    let said: BTreeMap<String, u64> = constants().into_iter().filter(|(name, _)| name.starts_with(front)).collect();
    let known = known.into_iter().map(|(name, number)| (format!("{front}{}", shouted(&name)), number)).collect();
    assert_eq!(said, known);
}

#[test]
fn ids_and_actions_are_the_headers() {
    same("CDF_ID_", Id::ALL.iter().map(|id| (format!("{id:?}"), id.number())).collect());
    same("CDF_ACTION_", Action::ALL.iter().map(|action| (format!("{action:?}"), action.number())).collect());
    for number in 0..300 {
        assert_eq!(Id::from_number(number).map(Id::number), (1..=14).contains(&number).then_some(number));
        assert_eq!(Action::from_number(number).map(Action::number), (number < 5).then_some(number));
    }
}

#[test]
fn states_are_the_headers() {
    same("CDF_STATE_", State::ALL.iter().map(|state| (format!("{state:?}"), state.number())).collect());
    for number in 0..300 {
        assert_eq!(State::from_number(number).map(State::number), (1..=30).contains(&number).then_some(number));
    }
    let words: std::collections::BTreeSet<String> = State::ALL.iter().map(State::to_string).collect();
    assert_eq!(words.len(), State::ALL.len());
}

#[test]
fn every_refusal_has_words() {
    let unknown = Refusal { number: 99, offset: None }.rule();
    let refusals: Vec<u64> = constants().into_iter().filter(|(name, _)| name.starts_with("CDF_ERR_")).map(|(_, number)| number).collect();
    assert_eq!(refusals.len(), 20);
    for number in refusals {
        assert_ne!(Refusal { number, offset: None }.rule(), unknown, "{number}");
    }
    assert_eq!(cdf::version(), constants()["CDF_VERSION"]);
}

/// A comment of sys.rs that names a constant stands over its number.
#[test]
fn lengths_are_the_headers() {
    let (source, constants) = (text("rust/cdf/src/sys.rs"), constants());
    let lines: Vec<&str> = source.lines().collect();
    let mut met = 0;
    for pair in lines.windows(2).filter(|pair| pair[0].contains("`CDF_")) {
        let name = pair[0].split('`').nth(1).unwrap();
        let number: String = pair[1].rsplit([';', '=']).find(|part| part.contains(|c: char| c.is_ascii_digit())).unwrap().into();
        let digits: String = number.chars().filter(char::is_ascii_digit).collect();
        assert_eq!(digits.parse(), Ok(constants[name]), "{name}");
        met += 1;
    }
    assert_eq!(met, 10);
}

/// A parameter of C as Rust writes it.
fn in_rust(parameter: &str, constants: &BTreeMap<String, u64>) -> String {
    let (kind, name) = parameter.rsplit_once([' ', '*']).unwrap();
    let (name, count) = name.trim_end_matches(']').split_once('[').map_or((name, None), |(name, count)| (name, Some(count)));
    let kind = kind.trim();
    let of = match (kind, count) {
        ("uint64_t", Some(count)) | ("const uint64_t", Some(count)) => {
            let numbers = count.parse().unwrap_or_else(|_| constants[count]);
            format!("&{}[u64; {numbers}]", if kind.starts_with("const") { "" } else { "mut " })
        }
        ("uint64_t", None) if parameter.contains('*') => "*mut u64".to_string(),
        ("const uint8_t", None) => "*const u8".to_string(),
        ("uint8_t", None) => "*mut u8".to_string(),
        ("size_t", None) => "usize".to_string(),
        ("uint64_t", None) => "u64".to_string(),
        ("struct cdf_builder", None) => "Building".to_string(),
        ("const struct cdf_request", None) => "*const Request".to_string(),
        other => format!("{other:?}"),
    };
    format!("{name}: {of}")
}

#[test]
fn declarations_are_the_headers() {
    let (source, headers, constants) = (text("rust/cdf/src/sys.rs"), headers(), constants());
    let declared: String =
        source.split("extern \"C\" {").nth(1).unwrap().split("\n    }").next().unwrap().split_whitespace().collect::<Vec<_>>().join(" ");
    let mut declared = declared.replace(",)", ")");
    for line in source.lines().filter_map(|line| line.strip_prefix("pub type ")) {
        let (name, array) = line.trim_end_matches(';').split_once(" = ").unwrap();
        declared = declared.replace(&format!("&mut {name}"), &format!("&mut {array}")).replace(&format!("&{name}"), &format!("&{array}"));
    }
    let (mut missing, mut met) = (Vec::new(), 0);
    for prototype in headers.split(';').filter(|text| text.contains('(')) {
        let (front, rest) = prototype.split_once('(').unwrap();
        let (returned, name) = front.lines().last().unwrap().rsplit_once(" cdf_").unwrap();
        let returned = if returned == "struct cdf_batched" { "Batched" } else { "u64" };
        let parameters = rest.split_once(')').unwrap().0;
        let parameters: Vec<String> =
            parameters.split(',').map(str::trim).filter(|&one| one != "void").map(|one| in_rust(one, &constants)).collect();
        let one_line = format!("pub fn cdf_{name}({}) -> {returned};", parameters.join(", "));
        let several = format!("pub fn cdf_{name}( {}, ) -> {returned};", parameters.join(", "));
        met += 1;
        match declared.contains(&format!("pub fn cdf_{name}(")) {
            true => assert!(declared.contains(&one_line) || declared.contains(&several), "{one_line}"),
            false => missing.push(name.to_string()),
        }
    }
    // An iterator reads many units in a call and needs no log, and a reader that is dropped is given up.
    assert_eq!(missing, ["next", "abnormal_end", "replay", "table_replay"]);
    assert_eq!(declared.matches("pub fn ").count(), met - missing.len());
}

/// Structs cross as their fields stand: those of a place are numbers alone, as many as the array has.
#[test]
fn structs_are_the_headers() {
    let (source, headers, constants) = (text("rust/cdf/src/sys.rs"), headers(), constants());
    let fields = |name: &str| {
        let said = headers.split(&format!("struct {name} {{")).nth(1).unwrap().split('}').next().unwrap();
        let mut fields = Vec::new();
        for line in said.split(';').map(str::trim).filter(|line| !line.is_empty()) {
            let (kind, names) =
                line.rsplit_once("uint64_t ").map_or_else(|| line.rsplit_once(' ').unwrap(), |(_, names)| ("uint64_t", names));
            fields.extend(names.split(", ").map(|name| (kind.to_string(), name.to_string())));
        }
        fields
    };
    let declared = |name: &str| {
        let said = source.split(&format!("pub struct {name} {{")).nth(1).unwrap().split('}').next().unwrap();
        let lines = said.lines().map(str::trim).filter(|line| !line.is_empty());
        let named = |line: &str| {
            line.trim_start_matches("pub ").trim_end_matches(',').split_once(": ").map(|(name, kind)| (kind.to_string(), name.to_string()))
        };
        lines.map(|line| named(line).unwrap()).collect::<Vec<_>>()
    };
    let in_rust = |fields: Vec<(String, String)>| {
        let kind = |kind: String| kind.replace("uint64_t", "u64").replace("struct cdf_builder", "Building");
        fields.into_iter().map(|(of, name)| (kind(of), name)).collect::<Vec<_>>()
    };
    assert_eq!(in_rust(fields("cdf_request")), declared("Request"));
    assert_eq!(in_rust(fields("cdf_batched")), declared("Batched"));
    let place = fields("cdf_builder");
    assert!(place.iter().all(|(kind, _)| kind == "uint64_t") && place.len() as u64 == constants["CDF_BUILD_PLACE_NUMBERS"]);
    assert!(source.contains("pub struct Building(BuildPlace);"));
}

/// Which kinds have names, values and numbers, and how long they are, is what the proved crates of own data say.
#[test]
fn own_data_is_the_crates() {
    let source = text("crates/cdf_unit_own/src/lib.rt");
    // Without a name and with one.
    let arms = source.split("fn unnamed").nth(1).unwrap();
    let mut forms = BTreeMap::new();
    for line in arms.lines().filter(|line| line.contains("=>") && !line.contains("_ =>")) {
        let (ids, form) = line.split_once("=>").unwrap();
        for id in ids.split('|') {
            forms.insert(id.trim().to_string(), form.trim().trim_end_matches(',').to_string());
        }
    }
    for id in Id::ALL {
        let form = forms.remove(&shouted(&format!("{id:?}"))).unwrap_or_default();
        assert_eq!(id.has_name(), form.contains("name"), "{id}");
        assert_eq!(id.has_value(), form.contains("value"), "{id}");
        let bytes = form.strip_prefix("numbers(").map_or(0, |behind| behind.split(',').next().unwrap().parse().unwrap());
        assert_eq!(id.numbers() * 4, bytes, "{id}");
    }
    assert!(forms.is_empty(), "{forms:?}");
    assert!(text("crates/cdf_unit_name/src/lib.rt").contains(&format!("if {} < count {{", cdf::NAME_MOST)));
    assert!(source.contains(&format!("if s.len() <= k + {} {{", cdf::VALUE_MOST)));
}
