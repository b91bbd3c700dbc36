//! The items, and the bits that each has.

use std::fmt::{self, Display, Formatter};

/// What an item does.
#[derive(Clone, Copy, Debug, PartialEq, Eq, PartialOrd, Ord)]
pub enum What {
    /// Stores a byte.
    Byte,
    /// Stores a word.
    Word,
    /// Sets the run page.
    SetPage,
    /// Restores the run page.
    Restore,
    /// Moves the counter.
    Move,
    /// Ends the module.
    End,
    /// Nothing: it is illegal.
    Illegal,
}

impl What {
    /// What each legal item does.
    pub const LEGAL: [What; 6] = [
        What::Byte,
        What::Word,
        What::SetPage,
        What::Restore,
        What::Move,
        What::End,
    ];

    /// What each item does.
    pub const ALL: [What; 7] = [
        What::Byte,
        What::Word,
        What::SetPage,
        What::Restore,
        What::Move,
        What::End,
        What::Illegal,
    ];

    /// The bits that an item begins with, and how many follow.
    fn form(self) -> (&'static str, usize) {
        match self {
            What::Byte => ("0", 8),
            What::Word => ("100", 16),
            What::SetPage => ("10100", 2),
            What::Restore => ("10101", 0),
            What::Move => ("1011", 16),
            What::End => ("110", 0),
            What::Illegal => ("111", 0),
        }
    }

    /// How many bits tell it from the others.
    pub fn prefix_length(self) -> usize {
        self.form().0.len()
    }

    /// How many bits it has in all.
    pub fn length(self) -> usize {
        self.prefix_length() + self.form().1
    }

    /// Whether it breaks off the reading.
    pub fn is_last(self) -> bool {
        matches!(self, What::End | What::Illegal)
    }

    /// Whether some bits, fewer than it has, may be its first.
    pub fn may_begin(self, bits: &[bool]) -> bool {
        let begins = self.form().0.bytes().map(|bit| bit == b'1');
        bits.len() < self.length() && begins.zip(bits).all(|(one, &other)| one == other)
    }
}

impl Display for What {
    fn fmt(&self, to: &mut Formatter<'_>) -> fmt::Result {
        to.write_str(match self {
            What::Byte => "a byte",
            What::Word => "a word",
            What::SetPage => "set page",
            What::Restore => "restore",
            What::Move => "a move",
            What::End => "the end item",
            What::Illegal => "an illegal item",
        })
    }
}

/// An item.
#[derive(Clone, Copy, Debug, PartialEq, Eq)]
pub struct Item {
    /// What it does.
    pub what: What,
    /// The number that its last bits are, 0 where it has none.
    pub value: u16,
}

/// An item that stores a byte.
pub fn byte(value: u8) -> Item {
    Item {
        what: What::Byte,
        value: value.into(),
    }
}

/// An item that stores a word, the counter added.
pub fn word(value: u16) -> Item {
    Item {
        what: What::Word,
        value,
    }
}

/// An item that sets the run page.
pub fn set_page(page: u8) -> Item {
    Item {
        what: What::SetPage,
        value: page.into(),
    }
}

/// An item that adds to the counter.
pub fn move_by(value: u16) -> Item {
    Item {
        what: What::Move,
        value,
    }
}

/// An item that restores the run page.
pub const RESTORE: Item = Item {
    what: What::Restore,
    value: 0,
};

/// The end item.
pub const END: Item = Item {
    what: What::End,
    value: 0,
};

/// An illegal item.
pub const ILLEGAL: Item = Item {
    what: What::Illegal,
    value: 0,
};

impl Item {
    pub(crate) fn bits(self) -> impl Iterator<Item = bool> {
        let (begins, follow) = self.what.form();
        let begins = begins.bytes().map(|bit| bit == b'1');
        begins.chain((0..follow).rev().map(move |at| self.value >> at & 1 == 1))
    }

    /// The item that some bits begin with, if it is whole.
    pub(crate) fn first(bits: &[bool]) -> Option<Item> {
        let whole = |&what: &What| {
            let begins = Item { what, value: 0 }.bits().take(what.prefix_length());
            bits.len() >= what.length() && begins.eq(bits[..what.prefix_length()].iter().copied())
        };
        let what = What::ALL.into_iter().find(whole)?;
        let follow = bits[what.prefix_length()..what.length()].iter();
        let value = follow.fold(0, |value, &bit| value << 1 | u16::from(bit));
        Some(Item { what, value })
    }
}
