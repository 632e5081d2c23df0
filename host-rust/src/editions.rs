//! A recording's words as those of the other edition.

use crate::answer::Answer;
use crate::input::Mode;
use crate::{sys, version};
use alloc::vec;
use alloc::vec::Vec;

/// So many words more a recording of edition two has at most, as `include/coarse.h` has it: its head, and a panel of each draw and layer.
const MORE: usize = 2 + 2 * 4096;

/// A conversion into a list with room for so many words.
fn converted(
    call: sys::Convert,
    file: &[u32],
    mode: Mode,
    room: usize,
) -> Result<Vec<u32>, Answer> {
    version::compare();
    let mut out = vec![0; room];
    let mut words = 0;
    Answer::check(unsafe {
        call(
            file.as_ptr(),
            file.len(),
            mode as u32,
            out.as_mut_ptr(),
            room,
            &mut words,
        )
    })?;
    out.truncate(words);
    out.shrink_to_fit();
    Ok(out)
}

/// The words of a recording of edition one as those of edition two, each panel 0. They say the same recording: the viewport's numbers stand as they are
/// given, whatever the mode, and so do all others.
///
/// ```
/// use coarse::{to_edition_one, to_edition_two, Mode};
///
/// // One draw over the 128 tiles of one row.
/// let words = [
///     1, 0, 0, 512, 4, 1, 1, 1, 0, 0, 1, 0, 0, 0, 128, 0, 1, 0, 0, 1, 0, 0, 3, 0, 0, 1, 0, 1, 0, 1, 0, 1,
/// ];
/// let two = to_edition_two(&words, Mode::Exact)?;
/// assert_eq!(two.len(), words.len() + 3);
/// assert_eq!(to_edition_one(&two, Mode::Exact)?, words);
/// # Ok::<(), coarse::Answer>(())
/// ```
///
/// # Errors
/// Nothing is bucketed, but every record is judged: [`Answer::BadForm`]; [`Answer::BadViewport`] for a viewport that is bad as the mode reads it;
/// [`Answer::BadRecord`]; [`Answer::BadOrder`].
///
/// # Panics
/// Where the archive that is linked is of another version than this crate: [`library_version`](crate::library_version).
pub fn to_edition_two(file: &[u32], mode: Mode) -> Result<Vec<u32>, Answer> {
    converted(sys::coarse_to_edition_two, file, mode, file.len() + MORE)
}

/// The words of a recording of edition two as those of edition one, which has no panels.
///
/// # Errors
/// As [`to_edition_two`], then [`Answer::HasPanels`] where a draw or a layer has a panel that is not 0, whether anything names it or not.
///
/// # Panics
/// As [`to_edition_two`].
pub fn to_edition_one(file: &[u32], mode: Mode) -> Result<Vec<u32>, Answer> {
    converted(sys::coarse_to_edition_one, file, mode, file.len())
}
