//! Why a tile shows what it shows.

use crate::sys;

/// Which attribute is asked about, by its place among those of its kind.
#[derive(Debug, Clone, Copy, PartialEq, Eq, Hash)]
pub enum Attribute {
    /// A draw's, or a filter layer's picture.
    Draw(u32),
    /// A closed layer's.
    Layer(u32),
}

/// Why an attribute is shown at a tile or not: the first that holds. `panel` is the asked attribute's.
#[derive(Debug, Clone, Copy, PartialEq, Eq, Hash)]
#[non_exhaustive]
pub enum Reason {
    /// The recording has no such attribute.
    UnknownAttribute,
    /// No segment of it covers the tile.
    NoSegment {
        /// The asked attribute's.
        panel: u32,
    },
    /// A segment covers the tile, and a clip box cuts it away.
    CutAway {
        /// The asked attribute's.
        panel: u32,
    },
    /// The row was never touched within the layer that closes.
    RowUntouched {
        /// The asked attribute's.
        panel: u32,
    },
    /// Hidden by newer depth fills.
    HiddenBy {
        /// The attribute of the newest of them.
        attribute: u32,
        /// That attribute's panel.
        hider_panel: u32,
        /// The asked attribute's.
        panel: u32,
    },
    /// Shown.
    ShownAt {
        /// Its place in the tile's list, from 0.
        place: u32,
        /// The asked attribute's.
        panel: u32,
    },
}

impl Reason {
    pub(crate) fn of(words: sys::ReasonWords) -> Self {
        let sys::ReasonWords {
            kind,
            number,
            panel,
            hider_panel,
        } = words;
        match kind {
            0 => Self::UnknownAttribute,
            1 => Self::NoSegment { panel },
            2 => Self::CutAway { panel },
            3 => Self::RowUntouched { panel },
            4 => Self::HiddenBy {
                attribute: number,
                hider_panel,
                panel,
            },
            _ => Self::ShownAt {
                place: number,
                panel,
            },
        }
    }

    /// The asked attribute's panel; none of one that is unknown.
    #[must_use]
    pub fn panel(self) -> Option<u32> {
        match self {
            Self::UnknownAttribute => None,
            Self::NoSegment { panel }
            | Self::CutAway { panel }
            | Self::RowUntouched { panel }
            | Self::HiddenBy { panel, .. }
            | Self::ShownAt { panel, .. } => Some(panel),
        }
    }
}
