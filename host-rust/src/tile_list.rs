//! What a tile of a recording receives.

use crate::answer::Answer;
use crate::canvas::{words_mut, Piece};
use crate::input::{Edition, Mode, Width};
use crate::{sys, version};
use alloc::vec;
use alloc::vec::Vec;

/// The most attributes of a kind. A tile has at most one entry for each attribute.
pub(crate) const MOST_ATTRS: usize = 1024;

/// What a tile receives, oldest first, as pieces of that tile alone: what its row paints there once the recording is bucketed in this mode and width. No row
/// is kept and nothing is bucketed, so that there is no room to ask for. `row` and `tile` are of the screen.
///
/// ```
/// use coarse::{list_tile, Edition, Mode, Width};
///
/// // One draw of panel 7 over the 128 tiles of one row.
/// let words = [
///     1, 2, 1, 0, 0, 512, 4, 1, 1, 1, 0, 0, 1, 0, 0, 0, 128, 0, 1, 0, 0, 1, 0, 0, 3, 0, 7, 0, 1, 0, 1, 0, 1, 0, 1,
/// ];
/// let list = list_tile(Edition::Two, &words, Mode::Exact, Width::W128, 0, 5)?;
/// assert_eq!(list.len(), 1);
/// assert_eq!((list[0].first, list[0].end, list[0].panel), (5, 6, 7));
/// # Ok::<(), coarse::Answer>(())
/// ```
///
/// # Errors
/// [`Answer::BadForm`]; [`Answer::BadViewport`] for a viewport that is bad as the mode reads it; [`Answer::BadRecord`]; [`Answer::BadOrder`]; then what the
/// first refused step answers, [`Answer::Deep`], [`Answer::Ids`] or [`Answer::FullAttrs`]; then [`Answer::BadRun`] for a row or a tile off the screen.
/// No row is ever full: a recording that [`bucket_commands`](crate::CommandBucketer::bucket_commands) refuses by [`Answer::FullRow`] or
/// [`Answer::FullDepth`] may be listed, or be refused for a later step.
///
/// # Panics
/// Where the archive that is linked is of another version than this crate: [`library_version`](crate::library_version).
pub fn list_tile(
    edition: Edition,
    file: &[u32],
    mode: Mode,
    width: Width,
    row: u32,
    tile: u32,
) -> Result<Vec<Piece>, Answer> {
    version::compare();
    let mut pieces = vec![Piece::default(); 2 * MOST_ATTRS];
    let (list, list_len) = words_mut(&mut pieces);
    let mut entries = 0;
    Answer::check(unsafe {
        sys::coarse_list_tile(
            edition as u32,
            file.as_ptr(),
            file.len(),
            mode as u32,
            width as u32,
            row,
            tile,
            list,
            list_len,
            &mut entries,
        )
    })?;
    pieces.truncate(entries);
    pieces.shrink_to_fit();
    Ok(pieces)
}
