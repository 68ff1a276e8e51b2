//! The templates and entity keys of a stream, from the requests that build it.

use cdf_model::builder::{requests, Request};
use cdf_model::lookup::Asked;

/// A template or an entity key.
pub struct Keyed {
    pub id: u64,
    pub name: Vec<u8>,
    pub keys: Vec<(u64, Vec<u8>)>,
    pub fields: Vec<Field>,
}

pub struct Field {
    pub name: Vec<u8>,
    pub value: Vec<u8>,
    /// Where the value stands.
    pub start: u64,
}

impl Keyed {
    pub fn has_key(&self, asked: &Asked) -> bool {
        self.keys[0].0 == asked.key_id && self.keys[0].1 == asked.key
    }

    pub fn is_asked(&self, asked: &Asked) -> bool {
        self.id == 5 && self.name == asked.template && self.has_key(asked)
    }

    pub fn field(&self, asked: &Asked) -> Option<&Field> {
        self.fields.iter().find(|field| field.name == asked.field)
    }
}

/// The templates and entity keys of a stream. Each unit ends behind the prefixes and own data of those before it, and its
/// own.
pub fn keyed(stream: &[u8]) -> Vec<Keyed> {
    let mut found: Vec<Keyed> = Vec::new();
    let mut end = 0;
    for Request { id, data, .. } in requests(stream) {
        end += 6 + data.len();
        match (id, found.last_mut()) {
            (5 | 11, _) => found.push(Keyed { id, name: data, keys: vec![], fields: vec![] }),
            (6 | 7, Some(last)) => last.keys.push((id, data)),
            (8, Some(last)) => {
                let (name, value) = data.split_at(1 + usize::from(data[0]));
                let start = (end - value.len()) as u64;
                last.fields.push(Field { name: name.to_vec(), value: value.to_vec(), start });
            }
            _ => {}
        }
    }
    found
}
