//! Building a stream in a lent buffer.
#![forbid(unsafe_code)]

use crate::sys;
use crate::{Action, BatchRefusal, Id, Refusal, Request};

/// What a stream can be.
#[derive(Clone, Copy, Debug, PartialEq, Eq)]
pub enum Root {
    /// Function calls, each with a group behind it or none.
    Stream,
    /// Templates and relations.
    ErGroup,
    /// Lines.
    FileGroup,
}

impl Root {
    fn id(self) -> Id {
        match self {
            Root::Stream => Id::Stream,
            Root::ErGroup => Id::ErGroup,
            Root::FileGroup => Id::FileGroup,
        }
    }
}

/// Writes a stream into a buffer, unit by unit. Each unit goes into the innermost open unit that admits it; those inside that one end.
/// After each call the lengths of all open units are right. A refused call changes nothing, and building may go on.
///
/// ```
/// use cdf::{Action, Builder, Root};
///
/// let mut buffer = [0; 1000];
/// let mut group = Builder::new(&mut buffer, Root::ErGroup)?;
/// group.template(Action::Create, "PERSON")?.temporary_key(1)?;
/// group.field(Action::Create, "SURNAME", "Ås".as_bytes())?;
/// let stream = group.finish()?;
/// assert_eq!(cdf::check(stream)?, 4);
/// # Ok::<(), cdf::Refusal>(())
/// ```
#[derive(Debug)]
pub struct Builder<'b> {
    buffer: &'b mut [u8],
    place: sys::BuildPlace,
}

impl<'b> Builder<'b> {
    /// Starts a stream at the front of the buffer. Refused with 12 if there is no room for its prefix.
    pub fn new(buffer: &'b mut [u8], root: Root) -> Result<Self, Refusal> {
        match sys::build_first(buffer, root.id().number()) {
            (0, place) => Ok(Builder { buffer, place }),
            (number, _) => Err(Refusal::nowhere(number)),
        }
    }

    /// Adds a unit with this own data, as it is to stand in the stream: a name with its count byte first, numbers with the high byte first.
    /// Refused with 6 to 10, 13 or 12.
    pub fn add(&mut self, id: Id, action: Action, data: &[u8]) -> Result<&mut Self, Refusal> {
        match sys::build_next(self.buffer, &mut self.place, id.number(), action.number(), data) {
            0 => Ok(self),
            number => Err(Refusal::nowhere(number)),
        }
    }

    /// Adds these units one after the other, as [`add`](Builder::add) does, or none of them. Each has its own data in the text, in parts
    /// that may overlap. At most 512, else 21.
    ///
    /// ```
    /// use cdf::{Action, Builder, Id, Request, Root};
    ///
    /// let text = b"\x06PERSON\0\0\0\x01\x07SURNAME\xC3\x85s";
    /// let person = Request::new(Id::Template, Action::Create, 0..7);
    /// let key = Request::new(Id::TemporaryKey, Action::None, 7..11);
    /// let surname = Request::new(Id::Field, Action::Create, 11..22);
    /// let mut buffer = [0; 1000];
    /// let mut group = Builder::new(&mut buffer, Root::ErGroup)?;
    /// // No key twice: nothing is built.
    /// let refused = group.batch(&[person, key, key, surname], text).unwrap_err();
    /// assert_eq!((refused.refusal.number, refused.rank, group.written()), (7, Some(2), 6));
    /// group.batch(&[person, key, surname], text)?;
    /// assert_eq!(group.finish()?.len(), 46);
    /// # Ok::<(), cdf::Refusal>(())
    /// ```
    pub fn batch(&mut self, requests: &[Request], text: &[u8]) -> Result<&mut Self, BatchRefusal> {
        match sys::build_batch(self.buffer, &mut self.place, requests, text) {
            (0, _) => Ok(self),
            (number, rank) => Err(BatchRefusal::at(number, rank)),
        }
    }

    /// Adds a function call.
    pub fn call(&mut self, name: &str) -> Result<&mut Self, Refusal> {
        self.add(Id::Call, Action::None, &named(name, b""))
    }

    /// Adds a parameter to the call.
    pub fn parameter(&mut self, name: &str, value: &[u8]) -> Result<&mut Self, Refusal> {
        self.add(Id::Parameter, Action::None, &named(name, value))
    }

    /// Adds an E/R data group behind a call; as a root it is [`Root::ErGroup`].
    pub fn er_group(&mut self) -> Result<&mut Self, Refusal> {
        self.add(Id::ErGroup, Action::None, b"")
    }

    /// Adds a file data group behind a call; as a root it is [`Root::FileGroup`].
    pub fn file_group(&mut self) -> Result<&mut Self, Refusal> {
        self.add(Id::FileGroup, Action::None, b"")
    }

    /// Adds a template, such as a person.
    pub fn template(&mut self, action: Action, name: &str) -> Result<&mut Self, Refusal> {
        self.add(Id::Template, action, &named(name, b""))
    }

    /// Adds the one temporary key of a template or an entity key.
    pub fn temporary_key(&mut self, number: u32) -> Result<&mut Self, Refusal> {
        self.add(Id::TemporaryKey, Action::None, &number.to_be_bytes())
    }

    /// Adds a template key to a template or an entity key.
    pub fn template_key(&mut self, text: &[u8]) -> Result<&mut Self, Refusal> {
        self.add(Id::TemplateKey, Action::None, text)
    }

    /// Adds a field to the template.
    pub fn field(&mut self, action: Action, name: &str, value: &[u8]) -> Result<&mut Self, Refusal> {
        self.add(Id::Field, action, &named(name, value))
    }

    /// Adds a relation; its source and its target come next.
    pub fn relation(&mut self, action: Action, key: u32) -> Result<&mut Self, Refusal> {
        self.add(Id::Relation, action, &key.to_be_bytes())
    }

    /// Adds an ordered relation; its source and its target come next.
    pub fn ordered_relation(&mut self, action: Action, key: u32, position: u32) -> Result<&mut Self, Refusal> {
        self.add(Id::OrderedRelation, action, &[key.to_be_bytes(), position.to_be_bytes()].concat())
    }

    /// Adds a source or target that is a template; its keys come next.
    pub fn entity_key(&mut self, name: &str) -> Result<&mut Self, Refusal> {
        self.add(Id::EntityKey, Action::None, &named(name, b""))
    }

    /// Adds a source or target that is a relation.
    pub fn relation_key(&mut self, key: u32) -> Result<&mut Self, Refusal> {
        self.add(Id::RelationKey, Action::None, &key.to_be_bytes())
    }

    /// Adds a line to the file.
    pub fn line(&mut self, text: &[u8]) -> Result<&mut Self, Refusal> {
        self.add(Id::Line, Action::None, text)
    }

    /// Adds a whole group, bytes that are a stream of their own. It is closed at once. Refused with 14 if it is none.
    pub fn add_stream(&mut self, group: &[u8]) -> Result<&mut Self, Refusal> {
        match sys::build_add_stream(self.buffer, &mut self.place, group) {
            0 => Ok(self),
            number => Err(Refusal::nowhere(number)),
        }
    }

    /// How many bytes are written.
    pub fn written(&self) -> usize {
        self.place[0] as usize
    }

    /// The stream. Refused with 10 while an open unit lacks something. Building may go on after it.
    pub fn finish(&self) -> Result<&[u8], Refusal> {
        match sys::build_finish(self.buffer, &self.place) {
            (0, length) => Ok(&self.buffer[..length as usize]),
            (number, _) => Err(Refusal::nowhere(number)),
        }
    }
}

/// A name with its count byte, and what stands behind it. A longer name than a count byte can say keeps a count that no name may have, so
/// that the archive refuses it.
pub(crate) fn named(name: &str, behind: &[u8]) -> Vec<u8> {
    let count = u8::try_from(name.len()).unwrap_or(u8::MAX);
    [&[count], name.as_bytes(), behind].concat()
}
