//! The states of open units: the rows of the table that docs/STATE-TABLE.md shows.
#![forbid(unsafe_code)]

use std::fmt;

use crate::Id;

/// What an open unit is, and what it has had.
#[derive(Clone, Copy, Debug, PartialEq, Eq, PartialOrd, Ord, Hash)]
#[repr(u8)]
pub enum State {
    /// An EDMM stream that has had nothing.
    StreamNew = 1,
    /// An EDMM stream whose last unit was a call.
    StreamCall = 2,
    /// An EDMM stream whose last unit was a group.
    StreamGroup = 3,
    /// An EDMM stream that was skipped.
    StreamSkipped = 4,
    /// An E/R data group that has had nothing.
    ErNew = 5,
    /// An E/R data group that has had templates or relations.
    ErData = 6,
    /// An E/R data group that was skipped or taken.
    ErSkipped = 7,
    /// A file data group that has had nothing.
    FileNew = 8,
    /// A file data group that has had lines.
    FileLines = 9,
    /// A file data group that was skipped or taken.
    FileSkipped = 10,
    /// A function call that has had nothing.
    CallNew = 11,
    /// A function call that has had parameters.
    CallParameters = 12,
    /// A function call that was skipped.
    CallSkipped = 13,
    /// A template that has had nothing.
    TemplateNew = 14,
    /// A template that has had its temporary key.
    TemplateTemporary = 15,
    /// A template that has had template keys.
    TemplateKeys = 16,
    /// A template that has had a key or keys, and fields.
    TemplateFields = 17,
    /// A template that was skipped.
    TemplateSkipped = 18,
    /// A relation that has had nothing.
    RelationNew = 19,
    /// A relation that has had its source.
    RelationSource = 20,
    /// A relation that has had source and target.
    RelationTarget = 21,
    /// A relation that was skipped.
    RelationSkipped = 22,
    /// An ordered relation that has had nothing.
    OrderedNew = 23,
    /// An ordered relation that has had its source.
    OrderedSource = 24,
    /// An ordered relation that has had source and target.
    OrderedTarget = 25,
    /// An ordered relation that was skipped.
    OrderedSkipped = 26,
    /// An entity key that has had nothing.
    EntityNew = 27,
    /// An entity key that has had its temporary key.
    EntityTemporary = 28,
    /// An entity key that has had template keys.
    EntityKeys = 29,
    /// An entity key that was skipped.
    EntitySkipped = 30,
}

impl State {
    /// All of them, in the order of their numbers.
    pub const ALL: [State; 30] = [
        State::StreamNew,
        State::StreamCall,
        State::StreamGroup,
        State::StreamSkipped,
        State::ErNew,
        State::ErData,
        State::ErSkipped,
        State::FileNew,
        State::FileLines,
        State::FileSkipped,
        State::CallNew,
        State::CallParameters,
        State::CallSkipped,
        State::TemplateNew,
        State::TemplateTemporary,
        State::TemplateKeys,
        State::TemplateFields,
        State::TemplateSkipped,
        State::RelationNew,
        State::RelationSource,
        State::RelationTarget,
        State::RelationSkipped,
        State::OrderedNew,
        State::OrderedSource,
        State::OrderedTarget,
        State::OrderedSkipped,
        State::EntityNew,
        State::EntityTemporary,
        State::EntityKeys,
        State::EntitySkipped,
    ];

    /// The state of this number, if there is one.
    pub fn from_number(number: u64) -> Option<State> {
        State::ALL.into_iter().find(|state| state.number() == number)
    }

    /// The number of the row, 1 to 30.
    pub fn number(self) -> u64 {
        self as u64
    }

    /// What the unit is.
    pub fn unit(self) -> Id {
        match self {
            State::StreamNew | State::StreamCall | State::StreamGroup | State::StreamSkipped => Id::Stream,
            State::ErNew | State::ErData | State::ErSkipped => Id::ErGroup,
            State::FileNew | State::FileLines | State::FileSkipped => Id::FileGroup,
            State::CallNew | State::CallParameters | State::CallSkipped => Id::Call,
            State::TemplateNew | State::TemplateTemporary | State::TemplateKeys | State::TemplateFields | State::TemplateSkipped => {
                Id::Template
            }
            State::RelationNew | State::RelationSource | State::RelationTarget | State::RelationSkipped => Id::Relation,
            State::OrderedNew | State::OrderedSource | State::OrderedTarget | State::OrderedSkipped => Id::OrderedRelation,
            State::EntityNew | State::EntityTemporary | State::EntityKeys | State::EntitySkipped => Id::EntityKey,
        }
    }
}

impl fmt::Display for State {
    /// The unit and what it has had, in words.
    fn fmt(&self, f: &mut fmt::Formatter<'_>) -> fmt::Result {
        let had = match self {
            State::StreamNew
            | State::ErNew
            | State::FileNew
            | State::CallNew
            | State::TemplateNew
            | State::RelationNew
            | State::OrderedNew
            | State::EntityNew => ", nothing in it yet",
            State::StreamCall => ", a call last",
            State::StreamGroup => ", a group last",
            State::StreamSkipped
            | State::ErSkipped
            | State::FileSkipped
            | State::CallSkipped
            | State::TemplateSkipped
            | State::RelationSkipped
            | State::OrderedSkipped
            | State::EntitySkipped => ", skipped",
            State::ErData => " with templates or relations",
            State::FileLines => " with lines",
            State::CallParameters => " with parameters",
            State::TemplateTemporary | State::EntityTemporary => " with its temporary key",
            State::TemplateKeys | State::EntityKeys => " with template keys",
            State::TemplateFields => " with fields",
            State::RelationSource | State::OrderedSource => " with its source",
            State::RelationTarget | State::OrderedTarget => " with source and target",
        };
        f.pad(&format!("{}{had}", self.unit()))
    }
}
