//! Compares lists of requests through the Rust crate, rust/cdf, with the model: several on one builder.

use crate::build_lists::some_list;
use crate::tally::Tally;
use cdf::{Action, Builder, Id, Request, Root};
use cdf_model::build_list::{build, Listed};
use cdf_model::builder;
use cdf_model::random::Random;

/// In the crate's types, if it can be said in them.
fn request(listed: &Listed) -> Option<Request> {
    let own = listed.begin as usize..listed.end as usize;
    Some(Request::new(Id::from_number(listed.id)?, Action::from_number(listed.action)?, own))
}

pub fn compare(tally: &mut Tally, random: &mut Random) {
    let (root, id) = random.pick(&[(Root::Stream, 1), (Root::ErGroup, 4), (Root::FileGroup, 13)]);
    let size = random.pick(&[6, 40, 200, 2_000, 70_000]);
    let (mut room, mut model) = (vec![0xEE; size], vec![0xEE; size]);
    let mut made = Builder::new(&mut room, root).expect("there is room for a prefix");
    let mut place = builder::start(&mut model, id).expect("there is room for a prefix");
    for _ in 0..3 {
        let (mut list, text) = some_list(&place, random);
        list.retain(|listed| request(listed).is_some());
        let requests: Vec<Request> = list.iter().filter_map(request).collect();
        let said = made.batch(&requests, &text).map(|_| ());
        let said = said.map_err(|refused| (refused.refusal.number, refused.rank));
        let owed = build(&mut model, &place, &list, &text);
        // 21 is of no request.
        let due = owed
            .as_ref()
            .map(|_| ())
            .map_err(|refused| (refused.number, (refused.number != 21).then_some(refused.rank as usize)));
        if said != due || made.written() as u64 != owed.as_ref().unwrap_or(&place).written {
            let given = format!("buffer of {size}, place {place:?}, {list:?}, text {text:?}");
            tally.differ("Builder::batch", &given, &format!("{said:?}"), &format!("{owed:?}"));
        }
        place = owed.unwrap_or(place);
    }
    let said = made.finish().map(<[u8]>::to_vec).map_err(|refusal| refusal.number);
    let owed = builder::finish(&model, &place).map(|length| model[..length as usize].to_vec());
    if said != owed || room != model {
        tally.differ("what lists built", &format!("{place:?}"), &format!("{said:?}"), &format!("{owed:?}"));
    }
    tally.count("runs of lists through the Rust crate");
}
