//! Too little room for a report's text.

use std::error::Error;
use std::fmt;

/// The report's text is longer than the room that was lent for it; nothing was written.
#[derive(Debug, Clone, Copy, PartialEq, Eq, Hash)]
pub struct TextRoomError {
    needed: usize,
}

impl TextRoomError {
    /// The error for a text of this length.
    pub(crate) const fn new(needed: usize) -> TextRoomError {
        TextRoomError { needed }
    }

    /// The text's length, in bytes: the least room that it needs.
    pub const fn needed(&self) -> usize {
        self.needed
    }
}

impl fmt::Display for TextRoomError {
    /// Says in one line what is needed.
    fn fmt(&self, f: &mut fmt::Formatter<'_>) -> fmt::Result {
        write!(f, "the report needs room for {} bytes", self.needed)
    }
}

impl Error for TextRoomError {}
