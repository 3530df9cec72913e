//! Refusals: a number and a place.

/// The numbers of document 01's table of refusals. 9 is retired by request (h)
/// of document 02, and its number is not used again.
#[derive(Clone, Copy, Debug, PartialEq, Eq)]
#[repr(u8)]
pub enum Number {
    /// Kind byte not of this form.
    Kind = 1,
    /// A record or operand is cut off by the end.
    Short = 2,
    /// Bytes after the whole script.
    Tail = 3,
    /// A body field out of its range, a variable not bound.
    Field = 4,
    /// A limit on what is read is passed.
    Size = 5,
    /// A parent, mark or row order breaks the rules, or a history does not fit.
    Link = 6,
    /// The target of an insert is not one element.
    Target = 7,
    /// A join or 'for' passes the items of a value.
    Items = 8,
    /// New rows pass the table's limit.
    Table = 10,
    /// A lent area is too short.
    Lent = 11,
}

/// Why and where a call is refused.
#[derive(Clone, Copy, Debug, PartialEq, Eq)]
pub struct Refusal {
    pub number: Number,
    /// The kind byte of the record, or what document 01 names instead.
    pub place: usize,
}

impl Number {
    /// All of them.
    pub const ALL: [Number; 10] = [
        Number::Kind,
        Number::Short,
        Number::Tail,
        Number::Field,
        Number::Size,
        Number::Link,
        Number::Target,
        Number::Items,
        Number::Table,
        Number::Lent,
    ];

    /// The refusal with this number at `place`.
    pub const fn at(self, place: usize) -> Refusal {
        Refusal {
            number: self,
            place,
        }
    }

    /// The number itself.
    pub const fn value(self) -> u8 {
        self as u8
    }
}
