//! How many words each thing has that the port writes.

use crate::limits::{MOST_ATTRS, MOST_FILTERS, MOST_LAYERS};

/// A row's command and depth fill.
pub const COMMAND: usize = 4;
pub const DEPTH_FILL: usize = 2;
/// A row's counts, summary and levels.
pub const ROW: usize = 54;
/// Where a row's painting stands.
pub const PAINTING: usize = 2;
pub const OPEN_LAYER: usize = 17;
pub const PAINT_ATTR: usize = 9;
pub const LAYER_ATTR: usize = 7;
pub const FILTER_PAINT: usize = 4;
pub const PIECE: usize = 7;

/// All tables of a screen: open layers, opacities of layers and of their attributes, attributes, filter paints.
pub const TABLES: usize = MOST_LAYERS * OPEN_LAYER
    + (MOST_LAYERS + MOST_ATTRS)
    + MOST_ATTRS * PAINT_ATTR
    + MOST_ATTRS * LAYER_ATTR
    + MOST_FILTERS * FILTER_PAINT;
