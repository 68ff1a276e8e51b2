//! Units: what they are, what may be done with them, and what they say.
#![forbid(unsafe_code)]

use std::fmt;

/// What a unit is.
#[derive(Clone, Copy, Debug, PartialEq, Eq, PartialOrd, Ord, Hash)]
#[repr(u8)]
pub enum Id {
    /// An EDMM stream: function calls, each with a group behind it or none. It is a root.
    Stream = 1,
    /// A function call, with a name and parameters.
    Call = 2,
    /// A parameter of a call: a name and a value.
    Parameter = 3,
    /// An E/R data group: templates and relations. It is a root, or stands behind a call.
    ErGroup = 4,
    /// A template, such as a person: a name, keys and fields.
    Template = 5,
    /// A key that is a number, given by the sender.
    TemporaryKey = 6,
    /// A key that is a text.
    TemplateKey = 7,
    /// A field: a name and a value.
    Field = 8,
    /// A relation: its key, a source and a target.
    Relation = 9,
    /// A relation with a position.
    OrderedRelation = 10,
    /// A source or target that is a template: its name and keys.
    EntityKey = 11,
    /// A source or target that is a relation: its key.
    RelationKey = 12,
    /// A file data group: lines. It is a root, or stands behind a call.
    FileGroup = 13,
    /// A line of a file: a value.
    Line = 14,
}

impl Id {
    /// All of them, in the order of their numbers.
    pub const ALL: [Id; 14] = [
        Id::Stream,
        Id::Call,
        Id::Parameter,
        Id::ErGroup,
        Id::Template,
        Id::TemporaryKey,
        Id::TemplateKey,
        Id::Field,
        Id::Relation,
        Id::OrderedRelation,
        Id::EntityKey,
        Id::RelationKey,
        Id::FileGroup,
        Id::Line,
    ];

    /// The unit of this number, if there is one.
    #[inline]
    pub fn from_number(number: u64) -> Option<Id> {
        Id::ALL.get(usize::try_from(number).ok()?.checked_sub(1)?).copied()
    }

    /// The number that stands in a stream.
    pub fn number(self) -> u64 {
        self as u64
    }

    /// Whether units of this kind begin with a name.
    pub fn has_name(self) -> bool {
        matches!(self, Id::Call | Id::Parameter | Id::Template | Id::Field | Id::EntityKey)
    }

    /// Whether units of this kind end with a value.
    pub fn has_value(self) -> bool {
        matches!(self, Id::Parameter | Id::TemplateKey | Id::Field | Id::Line)
    }

    /// How many numbers of four bytes units of this kind begin with.
    pub fn numbers(self) -> usize {
        match self {
            Id::TemporaryKey | Id::Relation | Id::RelationKey => 1,
            Id::OrderedRelation => 2,
            _ => 0,
        }
    }
}

/// The most bytes that a name has, without its count byte.
pub const NAME_MOST: usize = 32;
/// The most bytes that a value has.
pub const VALUE_MOST: usize = 4096;

impl fmt::Display for Id {
    /// The kind in words, as docs/FORMAT.md calls it.
    fn fmt(&self, f: &mut fmt::Formatter<'_>) -> fmt::Result {
        f.pad(match self {
            Id::Stream => "EDMM stream",
            Id::Call => "function call",
            Id::Parameter => "parameter",
            Id::ErGroup => "E/R data group",
            Id::Template => "template",
            Id::TemporaryKey => "temporary key",
            Id::TemplateKey => "template key",
            Id::Field => "field",
            Id::Relation => "relation",
            Id::OrderedRelation => "ordered relation",
            Id::EntityKey => "entity key",
            Id::RelationKey => "relation key",
            Id::FileGroup => "file data group",
            Id::Line => "line",
        })
    }
}

/// What is to be done with a unit.
#[derive(Clone, Copy, Debug, PartialEq, Eq, PartialOrd, Ord, Hash)]
#[repr(u8)]
pub enum Action {
    /// Nothing: units that only hold others, and keys.
    None = 0,
    /// To be created.
    Create = 1,
    /// To be read.
    Read = 2,
    /// To be changed.
    Update = 3,
    /// To be deleted.
    Delete = 4,
}

impl Action {
    /// All of them, in the order of their numbers.
    pub const ALL: [Action; 5] = [Action::None, Action::Create, Action::Read, Action::Update, Action::Delete];

    /// The action of this number, if there is one.
    #[inline]
    pub fn from_number(number: u64) -> Option<Action> {
        Action::ALL.get(usize::try_from(number).ok()?).copied()
    }

    /// The number that stands in a stream.
    pub fn number(self) -> u64 {
        self as u64
    }
}

impl fmt::Display for Action {
    fn fmt(&self, f: &mut fmt::Formatter<'_>) -> fmt::Result {
        f.pad(match self {
            Action::None => "none",
            Action::Create => "create",
            Action::Read => "read",
            Action::Update => "update",
            Action::Delete => "delete",
        })
    }
}

/// The bytes before a unit's own data: mark, length, action and id.
pub(crate) const PREFIX: usize = 6;

/// A unit of a stream, as the reader hands it out: it has passed every rule of a unit.
#[derive(Clone, Copy, PartialEq, Eq)]
pub struct Unit<'a> {
    pub(crate) stream: &'a [u8],
    pub(crate) id: Id,
    pub(crate) action: Action,
    pub(crate) start: usize,
    pub(crate) own_end: usize,
    pub(crate) end: usize,
    pub(crate) depth: usize,
    pub(crate) rank: usize,
}

impl<'a> Unit<'a> {
    /// What it is.
    pub fn id(&self) -> Id {
        self.id
    }

    /// What is to be done with it.
    pub fn action(&self) -> Action {
        self.action
    }

    /// Where it begins in the stream.
    pub fn start(&self) -> usize {
        self.start
    }

    /// Where its name or its fixed numbers end; where it has neither, its prefix.
    pub fn own_end(&self) -> usize {
        self.own_end
    }

    /// Where it ends.
    pub fn end(&self) -> usize {
        self.end
    }

    /// How deep it lies: 1 for the root, and one more inside each unit around it.
    pub fn depth(&self) -> usize {
        self.depth
    }

    /// How many units stand before it directly in the same unit: 0 for the first, and for the root. One that was skipped or taken counts
    /// once, with all that is in it.
    ///
    /// ```
    /// let stream = b"\xCD\xF1\x00\x16\x00\x0D\xCD\xF1\x00\x08\x00\x0Eab\xCD\xF1\x00\x08\x00\x0Ecd";
    /// let units = cdf::Reader::new(stream).collect::<Result<Vec<_>, _>>()?;
    /// let told: Vec<_> = units.iter().map(|unit| (unit.depth(), unit.rank())).collect();
    /// assert_eq!(told, [(1, 0), (2, 0), (2, 1)]);
    /// # Ok::<(), cdf::Refusal>(())
    /// ```
    pub fn rank(&self) -> usize {
        self.rank
    }

    /// All its bytes, with those of the units in it.
    pub fn bytes(&self) -> &'a [u8] {
        &self.stream[self.start..self.end]
    }

    /// Its name, without the count byte, if it is of a kind that has one: a call, a parameter, a template, a field or an entity key.
    pub fn name(&self) -> Option<&'a str> {
        let bytes = self.id.has_name().then(|| &self.stream[self.start + PREFIX + 1..self.own_end])?;
        std::str::from_utf8(bytes).ok()
    }

    /// Its value, if it is of a kind that has one: a parameter, a template key, a field or a line. Text is bytes: no encoding is asked.
    pub fn value(&self) -> Option<&'a [u8]> {
        self.id.has_value().then(|| &self.stream[self.own_end..self.end])
    }

    /// Its number: of a temporary key, a relation, an ordered relation or a relation key.
    pub fn number(&self) -> Option<u32> {
        (self.id.numbers() > 0).then(|| self.number_at(self.start + PREFIX))?
    }

    /// The position of an ordered relation.
    pub fn position(&self) -> Option<u32> {
        (self.id.numbers() > 1).then(|| self.number_at(self.start + PREFIX + 4))?
    }

    fn number_at(&self, at: usize) -> Option<u32> {
        let bytes = self.stream.get(at..at + 4)?;
        Some(u32::from_be_bytes(bytes.try_into().ok()?))
    }
}

impl fmt::Debug for Unit<'_> {
    fn fmt(&self, f: &mut fmt::Formatter<'_>) -> fmt::Result {
        f.debug_struct("Unit")
            .field("id", &self.id)
            .field("action", &self.action)
            .field("start", &self.start)
            .field("own_end", &self.own_end)
            .field("end", &self.end)
            .field("depth", &self.depth)
            .field("rank", &self.rank)
            .finish()
    }
}
