//! Why a call is refused.

use core::fmt;

/// Why a call was refused, by number. A refused call changes nothing, but for what [`CommandBucketer::bucket_commands`] says of a recording.
///
/// ```
/// use coarse::{Answer, CommandBucketer, Setup};
///
/// let refused = CommandBucketer::from_wh(6, 8, Setup::new(64, 64)).unwrap_err();
/// assert_eq!(refused, Answer::BadViewport);
/// assert_eq!(refused.number(), 2);
/// assert!(refused.to_string().starts_with("refused 2, BadViewport: the viewport is not made of multiples of 4"));
/// ```
///
/// [`CommandBucketer::bucket_commands`]: crate::CommandBucketer::bucket_commands
#[derive(Debug, Clone, Copy, PartialEq, Eq, Hash)]
#[non_exhaustive]
pub enum Answer {
    /// 1: C or D of a [`Setup`](crate::Setup) is not from 1 to 1,024. (A table of a wrong length, which this crate never lends.)
    BadArena,
    /// 2: as the mode reads it the viewport has a side that is no multiple of 4, an end before its start or past 32,768, or is wider than
    /// 4,096 or higher than 2,048 pixels.
    BadViewport,
    /// 3: a recording is not exactly the counted sections of its edition, or a section would have more than 4,096 records.
    BadForm,
    /// 4: a field, a range, a handle or a panel is out of bounds.
    BadRecord,
    /// 5: a segment list is not in order: rows downward, and in a row to the right without an overlap.
    BadOrder,
    /// 6: 16 layers are open already.
    Deep,
    /// 7: no layer is open.
    NoLayer,
    /// 8: every draw id, 1 to 1,048,576, has been taken since the reset.
    Ids,
    /// 9: 1,024 paint attributes, 1,024 layer attributes or 256 filter paints are there already.
    FullAttrs,
    /// 10: a row would have more than C render commands.
    FullRow,
    /// 11: a row would have more than D depth fills.
    FullDepth,
    /// 12: no such row, tile or command, or a range out of order or past its limit, or id 0 where an id is written.
    BadRun,
    /// 13: a layer is open, or painting has not begun, or a canvas was begun before the screen last changed.
    Open,
    /// 14: a list of the caller's own is shorter than the result.
    NoRoom,
    /// 15: towards edition one: a draw or a layer has a panel that is not 0.
    HasPanels,
    /// A number that no call of the library gives: the archive is not the one that this crate was written for.
    Unknown(u32),
}

impl Answer {
    /// The refusals by their numbers, from 1 on.
    const REFUSALS: [Answer; 15] = [
        Answer::BadArena,
        Answer::BadViewport,
        Answer::BadForm,
        Answer::BadRecord,
        Answer::BadOrder,
        Answer::Deep,
        Answer::NoLayer,
        Answer::Ids,
        Answer::FullAttrs,
        Answer::FullRow,
        Answer::FullDepth,
        Answer::BadRun,
        Answer::Open,
        Answer::NoRoom,
        Answer::HasPanels,
    ];

    /// The rules' number of it, as the calls of `include/coarse.h` answer it: 1 to 15.
    #[must_use]
    pub fn number(self) -> u32 {
        match self {
            Answer::Unknown(number) => number,
            known => (1..)
                .zip(Self::REFUSALS)
                .find_map(|(number, refusal)| (refusal == known).then_some(number))
                .unwrap_or(0),
        }
    }

    /// What a call's number says: 0 is done.
    #[inline]
    pub(crate) fn check(number: u32) -> Result<(), Answer> {
        if number == 0 {
            Ok(())
        } else {
            Err(Self::of(number))
        }
    }

    /// The answer of a number that is not 0.
    #[cold]
    fn of(number: u32) -> Self {
        let place = number as usize - 1;
        let known = Self::REFUSALS.get(place);
        known.copied().unwrap_or(Answer::Unknown(number))
    }

    /// The answer's name and what it says, as `coarse_answer_text` of `include/coarse.h` has it.
    #[must_use]
    pub fn text(self) -> &'static str {
        match self {
            Answer::BadArena => "BadArena: the table of render commands, depth fills or depth words has another length than the screen needs, or C or D is not from 1 to 1,024",
            Answer::BadViewport => "BadViewport: the viewport is not made of multiples of 4 in order up to 32,768, or is wider than 4,096 or higher than 2,048, or a bucket's width is not 64, 128 or 256",
            Answer::BadForm => "BadForm: the recording is not exactly the counted sections of its edition, or a count is out of range, or there is no such edition",
            Answer::BadRecord => "BadRecord: a field, a range or a table that the call reads is out of bounds",
            Answer::BadOrder => "BadOrder: a segment list is not in order, or its segments overlap",
            Answer::Deep => "Deep: 16 layers are open already",
            Answer::NoLayer => "NoLayer: no layer is open",
            Answer::Ids => "Ids: every draw id has been taken since the reset",
            Answer::FullAttrs => "FullAttrs: no room is left for an attribute or a filter paint",
            Answer::FullRow => "FullRow: a row would have more than C render commands",
            Answer::FullDepth => "FullDepth: a row would have more than D depth fills",
            Answer::BadRun => "BadRun: no such row, tile or command, or a range out of order or past its limit, or id 0 where an id is written",
            Answer::Open => "Open: a layer is still open, or painting has not begun",
            Answer::NoRoom => "NoRoom: the result list is shorter than the result",
            Answer::HasPanels => "HasPanels: a draw or a layer has a panel that is not 0, and edition one has none",
            Answer::Unknown(_) => "an answer that no call of this library gives",
        }
    }
}

impl fmt::Display for Answer {
    fn fmt(&self, f: &mut fmt::Formatter<'_>) -> fmt::Result {
        write!(f, "refused {}, {}", self.number(), self.text())
    }
}

impl core::error::Error for Answer {}

/// For a host whose own functions give `std::io::Result`: of the kind `InvalidInput`, with the answer inside.
#[cfg(feature = "std")]
impl From<Answer> for std::io::Error {
    fn from(answer: Answer) -> Self {
        Self::new(std::io::ErrorKind::InvalidInput, answer)
    }
}

/// Where a list of fills stopped: see [`CommandBucketer::generate_fills`](crate::CommandBucketer::generate_fills).
#[derive(Debug, Clone, Copy, PartialEq, Eq, Hash)]
pub struct Stopped {
    /// How many fills are done.
    pub done: usize,
    /// Why the next one is refused.
    pub answer: Answer,
}

impl fmt::Display for Stopped {
    fn fmt(&self, f: &mut fmt::Formatter<'_>) -> fmt::Result {
        write!(f, "fill {}: {}", self.done, self.answer)
    }
}

impl core::error::Error for Stopped {
    fn source(&self) -> Option<&(dyn core::error::Error + 'static)> {
        Some(&self.answer)
    }
}
