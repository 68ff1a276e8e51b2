//! The stored cases of the builder.

use crate::build_places::{
    hand_made, FULL_FILE, FULL_PERSON, GROUP_IN_STREAM, HUGE, NEARLY_FULL_FILE, PERSON, STREAM_NEARLY_FULL,
};
use crate::build_run::{run, BuildCase, Step, UNWRITTEN};
use crate::builder::{requests, Request};
use crate::cases::{complete, home, joined, nested, own, unit, A, N, STATES};
use crate::check::check;
use crate::named::sixteen_lines;
use crate::numbers::BuilderNumbers;
use crate::rules::{is_root, kind};
use crate::samples::{changed, K1, K12, K2};
use Step::{Add, Finish, Start};

const FAMILY: &[u8] = include_bytes!("../samples/family.cdf");
const FAMILY_CALL: &[u8] = include_bytes!("../samples/family-call.cdf");

fn next(id: u64, action: u64, data: &[u8]) -> Step {
    Step::Next(Request { id, action, data: data.to_vec() })
}

fn first_action(id: u8) -> u64 {
    kind(u64::from(id)).unwrap().actions[0]
}

fn with_action(id: u8, action: u64) -> Step {
    next(u64::from(id), action, own(id))
}

fn with_data(id: u8, data: &[u8]) -> Step {
    next(u64::from(id), first_action(id), data)
}

/// NEXT with this id, and an action and own data that are right for it.
fn right(id: u8) -> Step {
    with_data(id, own(id))
}

/// The start and the nexts that build a stream, or as much of it as is right.
fn steps(stream: &[u8]) -> Vec<Step> {
    let mut requests = requests(stream).into_iter();
    let root = Start(requests.next().unwrap().id);
    std::iter::once(root).chain(requests.map(Step::Next)).collect()
}

/// Steps after which a unit of this state is open. The relation key that a stream has after an entity is left out.
fn reach(state: &[u8]) -> Vec<Step> {
    let mut steps = steps(&nested(state, &[]));
    let is_rel_key = |step: &Step| matches!(step, Step::Next(request) if request.id == 12);
    if state[0] == 11 && steps.last().is_some_and(is_rel_key) {
        steps.pop();
    }
    steps
}

fn more(steps: &[Step], more: &[Step]) -> Vec<Step> {
    [steps, more].concat()
}

/// The steps, and then each of these tried from the place to which they lead.
fn each(label: String, size: usize, steps: &[Step], tries: Vec<Step>) -> BuildCase {
    let place = run(size, steps).place;
    let tried = tries.into_iter().flat_map(|one| [Step::Place(place), one]).collect::<Vec<_>>();
    BuildCase { label, size, steps: more(steps, &tried) }
}

/// An EDMM stream that has had a call.
fn called() -> Vec<Step> {
    vec![Start(1), right(2)]
}

/// An E/R group that the check refuses.
fn wrong_group() -> Vec<u8> {
    changed(&complete(4), 3, &[0])
}

/// A case that builds a whole stream.
struct Whole {
    label: &'static str,
    stream: Vec<u8>,
    steps: Vec<Step>,
    /// How many bytes of the buffer the stream leaves.
    left: usize,
}

fn whole(label: &'static str, stream: &[u8], steps: Vec<Step>, left: usize) -> Whole {
    Whole { label, stream: stream.to_vec(), steps, left }
}

fn wholes() -> Vec<Whole> {
    let [group, call, file] = [4, 2, 13].map(complete);
    let full = sixteen_lines(3993);
    let fifteen = unit(13, &[&unit(14, &[&[b'x'; 4096]]).repeat(15)]);
    let full_steps = steps(&full);
    let full_group = sixteen_lines(3979);
    let refused = [
        next(15, 0, b""),
        right(14),
        right(4),
        with_action(5, 0),
        with_data(5, b"a"),
        Add(K12.to_vec()),
        Add(group.clone()),
        Finish,
    ];
    let with_refusals = steps(K2).iter().flat_map(|step| more(std::slice::from_ref(step), &refused)).collect();
    let too_many = [right(6), right(7), with_action(6, 1), with_data(7, &[b'x'; 4097])];
    let with_keys_too_many = [&steps(K2)[..3], &too_many, &steps(K2)[3..], &too_many].concat();
    let both = unit(1, &[&call, &group, &call, &file]);
    let (add_group, add_file) = (Add(group), Add(file));
    let added =
        [add_group.clone(), right(5), add_group, add_file.clone(), right(4), Finish, right(2), add_file, right(14)];
    let x = with_data(14, b"x");
    vec![
        whole("k1", K1, steps(K1), 8),
        whole("k1-exact", K1, steps(K1), 0),
        whole("k2", K2, steps(K2), 8),
        whole("k2-exact", K2, steps(K2), 0),
        whole("k12", K12, steps(K12), 8),
        whole("k12-exact", K12, steps(K12), 0),
        whole("family", FAMILY, steps(FAMILY), 8),
        whole("family-call", FAMILY_CALL, steps(FAMILY_CALL), 8),
        whole("family-call-added", FAMILY_CALL, more(&steps(FAMILY_CALL)[..4], &[Add(FAMILY.to_vec())]), 8),
        whole("full", &full, full_steps.clone(), 1),
        whole("full-exact", &full, full_steps.clone(), 0),
        whole("full-one-more", &fifteen, more(&full_steps[..16], &[with_data(14, &[b'x'; 3994])]), 4000),
        whole("full-added", &unit(1, &[&call, &full_group]), more(&called(), &[Add(full_group.clone())]), 0),
        whole("k2-with-refusals", K2, with_refusals, 8),
        whole("k2-with-keys-too-many", K2, with_keys_too_many, 8),
        whole(
            "on-after-finish",
            &unit(13, &[&complete(14), &unit(14, &[b"x"])]),
            vec![Start(13), right(14), Finish, Finish, x],
            8,
        ),
        whole("added", &both, more(&called(), &added), 8),
        whole("singly", &both, steps(&both), 8),
    ]
}

/// Keys too many, in a template and in an entity key that is the source of a relation without a target; and what is owed,
/// worked out by hand.
fn too_many() -> Vec<(&'static str, usize, Vec<Step>, &'static str)> {
    let built = |ids: &[u8]| more(&[Start(4)], &ids.iter().map(|id| right(*id)).collect::<Vec<_>>());
    let finished = |ids: &[u8]| more(&built(ids), &[Finish]);
    // Another rule is broken as well, and the first in the label is the one met.
    let acting = [with_action(6, 1), with_action(7, 1), Finish];
    let wrong = [with_data(6, &N[..3]), with_data(7, &[b'x'; 4097]), Finish];
    let from_full = vec![Step::Place(FULL_PERSON), right(6), right(7), right(8), Finish];
    vec![
        ("second-temporary-key", 64, finished(&[5, 6, 6, 8, 6]), "S0 N0 N0 N7 N0 N7 F0 L32"),
        ("template-key-after-temporary", 64, finished(&[5, 6, 7, 8, 7]), "S0 N0 N0 N7 N0 N7 F0 L32"),
        ("temporary-after-template-key", 64, finished(&[5, 7, 6, 7, 6, 8, 6]), "S0 N0 N0 N7 N0 N7 N0 N7 F0 L34"),
        ("entity-second-temporary-key", 64, finished(&[9, 11, 6, 6, 12, 6]), "S0 N0 N0 N0 N7 N0 N7 F0 L44"),
        ("entity-template-key-after-temporary", 64, finished(&[9, 11, 6, 7, 12, 7]), "S0 N0 N0 N0 N7 N0 N7 F0 L44"),
        (
            "entity-temporary-after-template-key",
            64,
            finished(&[9, 11, 7, 6, 7, 12, 6]),
            "S0 N0 N0 N0 N7 N0 N0 N7 F0 L46",
        ),
        ("key-both-7-8", 64, more(&built(&[5, 6]), &acting), "S0 N0 N0 N7 N7 F0 L24"),
        ("entity-key-both-7-8", 64, more(&built(&[9, 11, 6]), &acting), "S0 N0 N0 N0 N7 N7 F10 L0"),
        ("key-both-7-9", 64, more(&built(&[5, 6]), &wrong), "S0 N0 N0 N7 N7 F0 L24"),
        ("entity-key-both-7-9", 64, more(&built(&[9, 11, 6]), &wrong), "S0 N0 N0 N0 N7 N7 F10 L0"),
        ("key-both-7-12", 24, finished(&[5, 6, 6, 7, 8]), "S0 N0 N0 N7 N7 N12 F0 L24"),
        ("key-both-7-13", 65_536, from_full, "N7 N7 N13 F0 L65535"),
    ]
}

/// Single refusals; and several rules that are broken at once, where the first in the label is the one met.
fn refusals() -> Vec<(&'static str, usize, Vec<Step>)> {
    let (short, long, name) = (|| with_data(14, b"abcd"), || with_data(14, b"abcde"), || with_data(5, b"a"));
    let (large, too_large) = (|| vec![b'x'; 4097], || vec![b'x'; 5000]);
    let from = |place: BuilderNumbers, tries: &[Step]| more(&[Step::Place(place)], tries);
    let full = sixteen_lines(3993);
    let [stream, group, file, wrong, full_more] =
        [complete(1), complete(4), complete(13), wrong_group(), [&full[..], b"x"].concat()].map(Add);
    let full_steps = more(&steps(&full), &[Finish]);
    let full = Add(full);
    let mut full_person = PERSON;
    full_person[0] = 65_535;
    let line_group = || Add(unit(13, &[&unit(14, &[b"x"])]));
    vec![
        ("full-no-room", 65_534, full_steps),
        ("no-room", 15, vec![Start(13), short(), with_data(14, b"abc"), Finish]),
        ("limit", 65_536, from(NEARLY_FULL_FILE, &[long(), short(), Finish, right(14)])),
        ("group-limit", 65_536, from(STREAM_NEARLY_FULL, &[line_group(), file.clone(), Finish])),
        ("group-past-limit", 65_536, more(&called(), &[full.clone(), Finish])),
        ("group-no-room", 25, more(&called(), &[file.clone(), Finish])),
        ("group-incomplete", 64, from(GROUP_IN_STREAM, &[file.clone(), Finish])),
        ("group-in-group", 64, vec![Start(4), group.clone(), Finish]),
        ("group-first", 64, vec![Start(1), group.clone(), Finish]),
        ("finish-unstarted", 64, vec![Finish]),
        ("both-6-10", 19, from(PERSON, &[next(15, 9, &too_large())])),
        ("both-7-10", 19, from(PERSON, &[next(14, 9, &too_large())])),
        ("both-10-8", 19, from(PERSON, &[next(5, 0, b"a")])),
        ("both-10-9", 19, from(PERSON, &[name()])),
        ("both-10-12", 19, from(PERSON, &[right(5)])),
        ("both-10-13", 65_535, from(full_person, &[right(5)])),
        ("both-8-9", 6, vec![Start(4), next(5, 0, b"a")]),
        ("both-8-12", 6, vec![Start(13), with_action(14, 1)]),
        ("both-8-13", 65_535, from(FULL_FILE, &[with_action(14, 1)])),
        ("both-9-13", 65_535, from(FULL_FILE, &[with_data(14, &large())])),
        ("both-9-12", 6, vec![Start(4), name()]),
        ("both-13-12", 65_530, from(NEARLY_FULL_FILE, &[long(), short(), Finish])),
        ("both-14-7", 6, vec![Start(13), stream, wrong.clone(), full_more]),
        ("both-14-10", 12, from(GROUP_IN_STREAM, &[wrong])),
        ("group-both-7-10", 19, from(PERSON, &[group, full.clone()])),
        ("group-both-10-13", 12, from(GROUP_IN_STREAM, &[full.clone(), file.clone()])),
        ("group-both-13-12", 14, more(&called(), &[full, file])),
    ]
}

/// Own data of many kinds, right for some ids.
fn data() -> Vec<Vec<u8>> {
    let short = [b"", &b"\x00"[..], b"\x01", A, b"\x01a", b"\x01_", b"\x011", b"\x02A", b"\x02A_", b"\x02A-"];
    let repeated = |front: &[u8], byte: u8, count: usize| [front, &vec![byte; count]].concat();
    let long = [
        repeated(b"\x20", b'Z', 32),
        repeated(b"\x21", b'Z', 33),
        repeated(A, b'x', 1),
        repeated(A, b'x', 4096),
        repeated(A, b'x', 4097),
        repeated(b"", b'x', 4096),
        repeated(b"", b'x', 4097),
    ];
    let numbers = [3, 4, 5, 7, 8, 9].map(|count| repeated(b"", 0xFF, count));
    short.iter().map(|bytes| bytes.to_vec()).chain(long).chain(numbers).collect()
}

fn of_states(cases: &mut Vec<BuildCase>) {
    let [call, parameter, template, entity, file] = [2, 3, 5, 11, 13].map(complete);
    let relation = unit(9, &[N, &entity, &entity]);
    let whole = steps(&unit(1, &[&unit(2, &[A, &parameter]), &unit(4, &[&template, &relation]), &call, &file]));
    let runs = (1..=whole.len()).map(|count| (format!("run.{count}"), whole[..count].to_vec()));
    let states = STATES.iter().map(|state| (format!("state.{}", joined(state)), reach(state)));
    for (label, steps) in runs.chain(states) {
        let groups = [Add(complete(4)), Add(complete(13)), Finish];
        let tries = (1..=14).map(right).chain(groups).collect();
        cases.push(each(label, 256, &steps, tries));
    }
    for id in [2, 3, 5, 6, 7, 8, 9, 10, 11, 12, 14, 4, 13] {
        let steps = if is_root(u64::from(id)) { called() } else { reach(home(id)) };
        let actions = [0, 1, 2, 3, 4, 5, 255, 256, 257, HUGE].map(|action| with_action(id, action));
        cases.push(each(format!("action.{id}"), 256, &steps, actions.to_vec()));
        let data = data().iter().map(|data| with_data(id, data)).collect();
        cases.push(each(format!("data.{id}"), 8192, &steps, data));
    }
}

pub fn build_cases() -> Vec<BuildCase> {
    let mut cases = Vec::new();
    for Whole { label, stream, steps, left } in wholes() {
        let (size, steps) = (stream.len() + left, more(&steps, &[Finish]));
        let run = run(size, &steps);
        let owed = [&stream[..], &vec![UNWRITTEN; left]].concat();
        let finished = format!("F0 L{}", stream.len());
        assert!(run.buffer == owed && run.words.last() == Some(&finished) && check(&stream).is_ok(), "{label}");
        cases.push(BuildCase { label: label.to_string(), size, steps });
    }
    for root in (0..16).chain([255, 256 + 13, HUGE]) {
        for size in [0, 5, 6] {
            cases.push(BuildCase { label: format!("start.{root}.{size}"), size, steps: vec![Start(root), Finish] });
        }
    }
    for (label, size, place) in hand_made() {
        let tries = vec![next(15, 9, b""), right(6), right(14), Add(wrong_group()), Add(complete(13)), Finish];
        cases.push(each(format!("place.{label}"), size, &[Step::Place(place)], tries));
    }
    of_states(&mut cases);
    for id in [0, 15, 255, 256 + 14, HUGE] {
        let steps = vec![Start(13), next(id, 0, b""), Finish];
        cases.push(BuildCase { label: format!("unknown.{id}"), size: 32, steps });
    }
    let groups = [
        ("none", vec![]),
        ("front", complete(13)[..5].to_vec()),
        ("no-line", unit(13, &[])),
        ("call", K12.to_vec()),
        ("template", complete(5)),
        ("wrong", wrong_group()),
        ("mixed-keys", nested(&[5, 6], &complete(7))),
        ("entity-mixed-keys", nested(&[11, 7], &complete(6))),
        ("byte-more", [&complete(4)[..], b"x"].concat()),
        ("past-limit", [&sixteen_lines(3993)[..], b"x"].concat()),
    ];
    for (label, group) in groups {
        let steps = more(&called(), &[Add(group), Finish]);
        cases.push(BuildCase { label: format!("refused-group.{label}"), size: 64, steps });
    }
    for (label, size, steps, owed) in too_many() {
        assert_eq!(run(size, &steps).words.join(" "), owed, "{label}");
        cases.push(BuildCase { label: label.to_string(), size, steps });
    }
    let refusals = refusals().into_iter();
    cases.extend(refusals.map(|(label, size, steps)| BuildCase { label: label.to_string(), size, steps }));
    cases
}
