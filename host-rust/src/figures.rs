//! What the depth stage saves of recordings.

use crate::answer::Answer;
use crate::bucketer::{sizes, viewport_of, Tables};
use crate::input::{Edition, Setup};
use crate::{sys, version};
use alloc::vec;
use alloc::vec::Vec;

/// How many numbers a recording has, and how many recordings a list at most, as `include/coarse.h` has them.
pub(crate) const FIGURES: usize = 6;
pub(crate) const MOST_RECORDINGS: usize = 65_536;

/// What the depth stage saves of a recording, or of several, in whole numbers: `asked` is `painted` and `hidden` together.
#[derive(Debug, Clone, Copy, PartialEq, Eq, Hash, Default)]
pub struct Figures {
    /// Tiles asked for: every entry of plain draw order at every tile of the screen.
    pub asked: u64,
    /// Tiles painted: those of all pieces.
    pub painted: u64,
    /// Tiles hidden: the entries that painting leaves out.
    pub hidden: u64,
    /// Render commands that the rows hold.
    pub commands: u64,
    /// Depth fills that they hold.
    pub fills: u64,
    /// Recordings that are refused. Such a one counts as that alone.
    pub refused: u64,
}

impl Figures {
    // The numbers of a place of a table.
    fn of(numbers: &[u64]) -> Self {
        match *numbers {
            [asked, painted, hidden, commands, fills, refused] => Self {
                asked,
                painted,
                hidden,
                commands,
                fills,
                refused,
            },
            _ => Self::default(),
        }
    }
}

/// The figures of a list of recordings.
#[derive(Debug, Clone, PartialEq, Eq, Hash, Default)]
pub struct ListFigures {
    /// Of each recording, in order.
    pub each: Vec<Figures>,
    /// Of all of them.
    pub total: Figures,
}

/// What the depth stage saves of each recording and of all of them. Each is bucketed in the setup on a fresh screen of its own viewport, as
/// [`bucket_commands`](crate::CommandBucketer::bucket_commands) does it, and one that is refused is counted as such. The words of an edition are those of a
/// recording's file.
///
/// ```
/// use coarse::{figures, Edition, Figures, Setup};
///
/// // Two opaque draws over the 128 tiles of one row, in 4 depth buckets: the second hides the first.
/// let words = [
///     1, 0, 0, 512, 4, 1, 1, 1, 0, 0, 1, 0, 0, 0, 128, 0, 2, 0, 0, 1, 0, 0, 3, 0, 0, 0, 1, 0, 0, 3, 0, 0, 1, 0, 2, 0, 1, 0, 1,
/// ];
/// let list = figures(Edition::One, [&words[..], &words[1..]], Setup::new(64, 64))?;
/// assert_eq!(list.each[0], Figures { asked: 256, painted: 128, hidden: 128, fills: 2, ..Figures::default() });
/// assert_eq!(list.each[1], Figures { refused: 1, ..Figures::default() });
/// assert_eq!(list.total, Figures { refused: 1, ..list.each[0] });
/// # Ok::<(), coarse::Answer>(())
/// ```
///
/// # Errors
/// [`Answer::BadRecord`] for more than 65,536 recordings.
///
/// # Panics
/// Where the archive that is linked is of another version than this crate: [`library_version`](crate::library_version).
pub fn figures<'a>(
    edition: Edition,
    recordings: impl IntoIterator<Item = &'a [u32]>,
    setup: Setup,
) -> Result<ListFigures, Answer> {
    version::compare();
    let (mut words, mut ends) = (Vec::new(), Vec::new());
    let mut room = sys::Lengths::default();
    for file in recordings {
        words.extend_from_slice(file);
        ends.push(words.len());
        if ends.len() > MOST_RECORDINGS {
            return Err(Answer::BadRecord);
        }
        // A viewport for which there is no screen is the recording's own refusal.
        if let Some(own) = viewport_of(edition, file).and_then(|box_| sizes(box_, setup).ok()) {
            room = room.or_more(own);
        }
    }
    let mut tables = Tables::new(room);
    let mut table = vec![0; FIGURES * (ends.len() + 1)];
    Answer::check(unsafe {
        sys::coarse_figures(
            &mut sys::StateWords::default(),
            edition as u32,
            words.as_ptr(),
            words.len(),
            ends.as_ptr(),
            ends.len(),
            setup.into(),
            &mut tables.lent().0,
            table.as_mut_ptr(),
            table.len(),
        )
    })?;
    let mut each: Vec<Figures> = table.chunks_exact(FIGURES).map(Figures::of).collect();
    let total = each.pop().unwrap_or_default();
    Ok(ListFigures { each, total })
}
