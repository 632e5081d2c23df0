//! The editions of a recording file, and a file as one of the other edition: over its bytes, written from the rules in words (docs/RULES.md), with nothing of
//! the port's.

use crate::file::{judged_for, split};
use crate::limits::{BAD_FORM, HAS_PANELS, LONG_BYTES};
use crate::viewport::Mode;

#[derive(Debug, Clone, Copy, PartialEq, Eq)]
pub enum Edition {
    One,
    Two,
}

impl Edition {
    /// The edition of a number.
    #[must_use]
    pub fn of(number: u32) -> Option<Self> {
        match number {
            1 => Some(Self::One),
            2 => Some(Self::Two),
            _ => None,
        }
    }

    #[must_use]
    pub fn other(self) -> Self {
        match self {
            Self::One => Self::Two,
            Self::Two => Self::One,
        }
    }

    /// The words before the sections.
    #[must_use]
    pub fn head(self) -> &'static [u32] {
        match self {
            Self::One => &[],
            Self::Two => &[1, 2],
        }
    }

    /// The words of a record of each section, from the viewport to the root.
    #[must_use]
    pub fn sizes(self) -> [usize; 7] {
        match self {
            Self::One => [4, 4, 5, 7, 22, 3, 2],
            Self::Two => [4, 4, 5, 8, 23, 3, 2],
        }
    }
}

/// The bytes of a file of an edition as one of the other, or the number that refuses it.
pub fn converted(bytes: &[u8], from: Edition, mode: Mode) -> Result<Vec<u8>, u32> {
    if bytes.len() > LONG_BYTES {
        return Err(BAD_FORM);
    }
    let recording = judged_for(bytes, from, mode)?;
    let panels = recording.draw_panels.iter().chain(&recording.layer_panels);
    if from == Edition::Two && panels.into_iter().any(|&panel| panel != 0) {
        return Err(HAS_PANELS);
    }
    Ok(retold(bytes, from))
}

/// A good file, its records one by one: a panel of 0 is put behind each draw and layer, or taken away.
fn retold(bytes: &[u8], from: Edition) -> Vec<u8> {
    let to = from.other();
    let mut out: Vec<u8> = to
        .head()
        .iter()
        .copied()
        .flat_map(u32::to_le_bytes)
        .collect();
    let mut rest = &bytes[4 * from.head().len()..];
    for (old, new) in from.sizes().into_iter().zip(to.sizes()) {
        let (count, records) = rest.split_first_chunk::<4>().expect("a count");
        out.extend(count);
        rest = records;
        for _ in 0..u32::from_le_bytes(*count) {
            let (record, more) = rest.split_at(4 * old);
            out.extend(&record[..4 * old.min(new)]);
            out.extend(vec![0; 4 * new.saturating_sub(old)]);
            rest = more;
        }
    }
    out
}

/// A stream of files as one of the other edition: a refused file is the largest word, then its number.
#[must_use]
pub fn stream(files: &[&[u8]], from: Edition, mode: Mode) -> Vec<u8> {
    let item = |file: &&[u8]| match converted(file, from, mode) {
        Ok(done) => {
            let length = u32::try_from(done.len()).expect("a short file");
            [&length.to_le_bytes()[..], &done].concat()
        }
        Err(number) => [u32::MAX, number].map(u32::to_le_bytes).concat(),
    };
    files.iter().flat_map(item).collect()
}

/// What such a stream says of each file.
#[must_use]
pub fn answers(mut bytes: &[u8]) -> Vec<Result<&[u8], u32>> {
    let mut said = Vec::new();
    while let Some((length, rest)) = bytes.split_first_chunk::<4>() {
        let length = u32::from_le_bytes(*length);
        if length == u32::MAX {
            let (number, rest) = rest.split_first_chunk::<4>().expect("a number");
            said.push(Err(u32::from_le_bytes(*number)));
            bytes = rest;
        } else {
            let (file, rest) = split(length, rest);
            said.push(Ok(file));
            bytes = rest;
        }
    }
    said
}

#[cfg(test)]
mod tests {
    use super::{answers, converted, stream, Edition};
    use crate::generate::files;
    use crate::viewport::Mode;

    fn bytes(words: &[u32]) -> Vec<u8> {
        words.iter().copied().flat_map(u32::to_le_bytes).collect()
    }

    /// One draw of a layer's, by hand in both editions.
    #[test]
    fn there_and_back_by_hand() {
        let layer = |panel: &[u32]| {
            let mut words = vec![0, 0, 1, 0, 3, 0x7fc0_0001, 0, 0];
            words.extend([0; 14]);
            words.extend(panel);
            words
        };
        let file = |head: &[u32], panel: &[u32]| {
            let viewport = [1, 0, 0, 8, 8];
            let paint = [1, 1, 7, 5, u32::MAX];
            let draw = [0, 0, 0, 0, 0, 3, 0];
            let rest = [2, 0, 1, 0, 1, 1, 1, 1, 1, 2];
            bytes(
                &[
                    head,
                    &viewport,
                    &paint,
                    &[0],
                    &[1],
                    &draw,
                    panel,
                    &[1],
                    &layer(panel),
                    &rest,
                ]
                .concat(),
            )
        };
        let (one, two) = (file(&[], &[]), file(&[1, 2], &[0]));
        assert_eq!(
            converted(&one, Edition::One, Mode::Exact).as_ref(),
            Ok(&two)
        );
        assert_eq!(
            converted(&two, Edition::Two, Mode::Exact).as_ref(),
            Ok(&one)
        );
        assert_eq!(converted(&one, Edition::Two, Mode::Exact), Err(3));
        assert_eq!(converted(&two, Edition::One, Mode::Exact), Err(3));
        let panel = file(&[1, 2], &[255]);
        assert_eq!(converted(&panel, Edition::Two, Mode::Exact), Err(15));
        assert_eq!(
            converted(&file(&[1, 2], &[256]), Edition::Two, Mode::Exact),
            Err(4)
        );
    }

    /// What is made is done and refused by each number, and comes back as it was.
    #[test]
    fn made_files_have_every_answer() {
        for (from, wanted) in [
            (Edition::One, &[0, 2, 3, 4, 5][..]),
            (Edition::Two, &[0, 2, 3, 4, 5, 15]),
        ] {
            for mode in [Mode::Exact, Mode::Snapping] {
                let made = files::files(1, 2_000, from);
                let all: Vec<&[u8]> = made.iter().map(|made| &made.bytes[..]).collect();
                let out = stream(&all, from, mode);
                let said = answers(&out);
                assert_eq!(said.len(), all.len());
                for &number in wanted {
                    let found = said.iter().any(|said| said.err().unwrap_or(0) == number);
                    assert!(found, "{from:?} {mode:?} {number}");
                }
                for (file, said) in all.iter().zip(said) {
                    if let Ok(done) = said {
                        assert_eq!(converted(done, from.other(), mode).as_deref(), Ok(*file));
                    }
                }
            }
        }
    }
}
