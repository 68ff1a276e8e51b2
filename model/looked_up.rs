//! Which kind of lookup it was, and what the model owes of its answer: both from the requests that build the streams.

use crate::keyed::{keyed, Field, Keyed};
use cdf_model::check::check;
use cdf_model::lookup::{lookup, Asked, Found};
use cdf_model::rules::Refusal;

/// All of them must have been met. The first eight, and the second eight, are in the order of the check's numbers.
pub const LOOKED_UP: [&str; 60] = [
    "the first stream gets 3",
    "the first stream gets 4",
    "the first stream gets 5",
    "the first stream gets 6",
    "the first stream gets 7",
    "the first stream gets 8",
    "the first stream gets 9",
    "the first stream gets 10",
    "the second stream gets 3",
    "the second stream gets 4",
    "the second stream gets 5",
    "the second stream gets 6",
    "the second stream gets 7",
    "the second stream gets 8",
    "the second stream gets 9",
    "the second stream gets 10",
    "the first stream is refused, and the second for another reason",
    "the first stream is refused, and the second is no E/R group",
    "the second stream is refused, and the first is no E/R group",
    "7: the first stream is no E/R group",
    "7: the first stream is no E/R group, and both have the field",
    "7: the second stream is no E/R group",
    "7: the second stream is no E/R group, and the first has the field",
    "7: neither stream is an E/R group",
    "found in the first stream",
    "found in the first stream, and the second has it too",
    "found in the first stream, and the second is the same",
    "found in the first stream, in a second or later template",
    "found in the first stream: an empty value",
    "found in the second stream",
    "found in the second stream, and the first has the template without the field",
    "found in the second stream, and the first has the field in a later template of that name and key",
    "found in the second stream, in a second or later template",
    "found in the second stream: an empty value",
    "found, after a template of that name with another key",
    "found, after a template of another name with that key",
    "found, after an entity key of that name with that key",
    "found, before a template of that name and key that has the field too",
    "found, before a field of that name in the same template",
    "found, after a field of another name",
    "found: a value of 4,096 bytes",
    "found: a value behind byte 32,767 of the first stream",
    "found: a value behind byte 32,767 of the second stream",
    "found: after twenty other templates",
    "found by a name of 32 letters",
    "found by a temporary key",
    "found by a template key",
    "found by an empty template key",
    "found by the first of several keys",
    "15: the first stream has the field in a later template of that name and key",
    "15: the second stream has the field in a later template of that name and key",
    "15: no template of that name",
    "15: no template of that name but for the count",
    "15: no field of that name but for the count",
    "15: the key is a later one of a template of that name",
    "15: the key is the first of an entity key of that name",
    "15: the first key with the other kind's id",
    "15: the first key with an id that is no key's",
    "15: the first key with an id that is too large by a multiple of 2^32",
    "15: the first key with a byte more or less",
];

/// The field that is found in one accepted E/R group.
fn field<'a>(group: &'a [Keyed], asked: &Asked) -> Option<&'a Field> {
    group.iter().find(|keyed| keyed.is_asked(asked))?.field(asked)
}

/// What the answer does not keep of this: a refused lookup has no part; a check's number and offset are the check's; what is
/// found is what the requests tell, and is found so in that stream beside itself.
pub fn broken(first: &[u8], second: &[u8], asked: &Asked, found: &Found) -> Option<&'static str> {
    let Found { number, offset, which, part } = *found;
    if number != 0 && (which, part) != (0, (0, 0)) {
        return Some("a refused lookup has no part");
    }
    if let Some(refusal) = check(first).err().or(check(second).err()) {
        return (refusal != Refusal { number, offset }).then_some("a lookup in refused streams");
    }
    if first[5] != 4 || second[5] != 4 {
        return ((number, offset) != (7, 0)).then_some("a lookup in other roots");
    }
    let (one, other) = (keyed(first), keyed(second));
    let (stream, owed, field) = match (field(&one, asked), field(&other, asked)) {
        (Some(field), _) => (first, 1, field),
        (None, Some(field)) => (second, 2, field),
        (None, None) => return ((number, offset) != (15, 0)).then_some("a lookup of what is in neither stream"),
    };
    let value = stream.iter().skip(part.0 as usize).take(part.1 as usize);
    if (number, offset, which, part.0) != (0, 0, owed, field.start) || !value.eq(&field.value) {
        return Some("what is found, and the requests");
    }
    let alone = lookup(stream, stream, asked);
    (alone != Found { number, offset, which: 1, part }).then_some("a lookup in a stream that is given twice")
}

type Kinds = Vec<&'static str>;

fn those(kinds: &[(bool, &'static str)]) -> Kinds {
    kinds.iter().filter(|kind| kind.0).map(|kind| kind.1).collect()
}

/// Which of `LOOKED_UP` it was.
pub fn kinds(first: &[u8], second: &[u8], asked: &Asked) -> Kinds {
    let checks = (check(first), check(second));
    match checks {
        (Err(refusal), other) => those(&[
            (true, LOOKED_UP[refusal.number as usize - 3]),
            (
                other.is_err_and(|other| other != refusal),
                "the first stream is refused, and the second for another reason",
            ),
            (other.is_ok() && second[5] != 4, "the first stream is refused, and the second is no E/R group"),
        ]),
        (_, Err(refusal)) => those(&[
            (true, LOOKED_UP[8 + refusal.number as usize - 3]),
            (first[5] != 4, "the second stream is refused, and the first is no E/R group"),
        ]),
        _ => accepted(&keyed(first), &keyed(second), asked, (first[5] == 4, second[5] == 4), first == second),
    }
}

/// Of two accepted streams; whether they are E/R groups, and the same.
fn accepted(one: &[Keyed], other: &[Keyed], asked: &Asked, groups: (bool, bool), same: bool) -> Kinds {
    let has = (field(one, asked).is_some(), field(other, asked).is_some());
    match (groups, has) {
        ((false, false), _) => vec!["7: neither stream is an E/R group"],
        ((false, true), has) => those(&[
            (true, "7: the first stream is no E/R group"),
            (has == (true, true), "7: the first stream is no E/R group, and both have the field"),
        ]),
        ((true, false), has) => those(&[
            (true, "7: the second stream is no E/R group"),
            (has.0, "7: the second stream is no E/R group, and the first has the field"),
        ]),
        (_, (true, second_has)) => {
            let kinds = those(&[
                (true, "found in the first stream"),
                (second_has, "found in the first stream, and the second has it too"),
                (same, "found in the first stream, and the second is the same"),
                (!is_first(one, asked), "found in the first stream, in a second or later template"),
                (is_empty(one, asked), "found in the first stream: an empty value"),
                (is_far(one, asked), "found: a value behind byte 32,767 of the first stream"),
            ]);
            [kinds, in_either(one, asked)].concat()
        }
        (_, (_, true)) => {
            let without = "found in the second stream, and the first has the template without the field";
            let later =
                "found in the second stream, and the first has the field in a later template of that name and key";
            let kinds = those(&[
                (true, "found in the second stream"),
                (one.iter().any(|keyed| keyed.is_asked(asked)), without),
                (in_later(one, asked), later),
                (!is_first(other, asked), "found in the second stream, in a second or later template"),
                (is_empty(other, asked), "found in the second stream: an empty value"),
                (is_far(other, asked), "found: a value behind byte 32,767 of the second stream"),
            ]);
            [kinds, in_either(other, asked)].concat()
        }
        _ => in_neither(one, other, asked),
    }
}

/// Whether the first template is the one.
fn is_first(group: &[Keyed], asked: &Asked) -> bool {
    group.iter().find(|keyed| keyed.id == 5).is_some_and(|template| template.is_asked(asked))
}

fn is_empty(group: &[Keyed], asked: &Asked) -> bool {
    field(group, asked).is_some_and(|field| field.value.is_empty())
}

fn is_far(group: &[Keyed], asked: &Asked) -> bool {
    field(group, asked).is_some_and(|field| field.start > 32_767)
}

/// Whether the first such template lacks the field and a later one has it.
fn in_later(group: &[Keyed], asked: &Asked) -> bool {
    let mut such = group.iter().filter(|keyed| keyed.is_asked(asked)).map(|template| template.field(asked).is_some());
    such.next() == Some(false) && such.any(|has| has)
}

/// Of the group in which the field is found.
fn in_either(group: &[Keyed], asked: &Asked) -> Kinds {
    let at = group.iter().position(|keyed| keyed.is_asked(asked)).unwrap();
    let (before, template, after) = (&group[..at], &group[at], &group[at + 1..]);
    let has_name = |keyed: &Keyed, id| keyed.id == id && keyed.name == asked.template;
    let (key, fields) = (&template.keys[0], &template.fields);
    let other_name = before.iter().any(|keyed| keyed.id == 5 && keyed.keys[0] == *key);
    let entity = before.iter().any(|keyed| has_name(keyed, 11) && keyed.keys[0] == *key);
    let again = after.iter().any(|keyed| keyed.is_asked(asked) && keyed.field(asked).is_some());
    let of_name = fields.iter().filter(|field| field.name == asked.field).count();
    those(&[
        (before.iter().any(|keyed| has_name(keyed, 5)), "found, after a template of that name with another key"),
        (other_name, "found, after a template of another name with that key"),
        (entity, "found, after an entity key of that name with that key"),
        (again, "found, before a template of that name and key that has the field too"),
        (of_name > 1, "found, before a field of that name in the same template"),
        (fields[0].name != asked.field, "found, after a field of another name"),
        (template.field(asked).unwrap().value.len() == 4096, "found: a value of 4,096 bytes"),
        (before.iter().filter(|keyed| keyed.id == 5).count() >= 20, "found: after twenty other templates"),
        (asked.template.len() == 33 || asked.field.len() == 33, "found by a name of 32 letters"),
        (key.0 == 6, "found by a temporary key"),
        (key.0 == 7, "found by a template key"),
        (key.1.is_empty(), "found by an empty template key"),
        (template.keys.len() > 1, "found by the first of several keys"),
    ])
}

/// Of two groups in which nothing is found.
fn in_neither(one: &[Keyed], other: &[Keyed], asked: &Asked) -> Kinds {
    let templates = || one.iter().chain(other).filter(|keyed| keyed.id == 5);
    let entities = || one.iter().chain(other).filter(|keyed| keyed.id == 11);
    let named = || templates().filter(|template| template.name == asked.template);
    // Of a template of the name the first key, its id and bytes.
    let first_key =
        |is: &dyn Fn(u64, &[u8]) -> bool| named().any(|template| is(template.keys[0].0, &template.keys[0].1));
    let (id, key) = (asked.key_id, &asked.key[..]);
    let but_count = |name: &[u8], asked: &[u8]| !asked.is_empty() && name[0] != asked[0] && name[1..] == asked[1..];
    let template_name = templates().any(|template| but_count(&template.name, &asked.template));
    let mut fields = named().filter(|template| template.is_asked(asked)).flat_map(|template| &template.fields);
    let mut later = named().flat_map(|template| &template.keys[1..]);
    let entity = entities().any(|entity| entity.name == asked.template && entity.has_key(asked));
    let such = named().any(|template| template.is_asked(asked));
    let longer = |long: &[u8], short: &[u8]| long.len() == short.len() + 1 && long.starts_with(short);
    let large = first_key(&|have, bytes| have != id && have == id & 0xFFFF_FFFF && bytes == key);
    let size = first_key(&|have, bytes| have == id && (longer(bytes, key) || longer(key, bytes)));
    those(&[
        (in_later(one, asked), "15: the first stream has the field in a later template of that name and key"),
        (in_later(other, asked), "15: the second stream has the field in a later template of that name and key"),
        (named().next().is_none(), "15: no template of that name"),
        (template_name, "15: no template of that name but for the count"),
        (fields.any(|field| but_count(&field.name, &asked.field)), "15: no field of that name but for the count"),
        (
            !such && later.any(|later| *later == (id, key.to_vec())),
            "15: the key is a later one of a template of that name",
        ),
        (!such && entity, "15: the key is the first of an entity key of that name"),
        (first_key(&|have, bytes| id == 13 - have && bytes == key), "15: the first key with the other kind's id"),
        (first_key(&|_, bytes| !matches!(id, 6 | 7) && bytes == key), "15: the first key with an id that is no key's"),
        (large, "15: the first key with an id that is too large by a multiple of 2^32"),
        (size, "15: the first key with a byte more or less"),
    ])
}
