//! What each row's painting gives, by the Rust's own depth buffer.

use crate::panels::Panels;
use crate::rules;
use crate::screen::Screen;
use crate::width::Width;

/// A piece of a paint or a layer, as a tile receives it.
#[derive(Debug, Clone, Copy, PartialEq, Eq)]
pub struct Piece {
    pub layer: bool,
    pub attribute: u32,
    pub first: u16,
    pub end: u16,
    pub alpha: Option<u32>,
    pub nesting: usize,
    pub panel: u32,
}

/// The pieces of every row in painting order. The search left out where it can be, and the own account, must give the same.
pub(crate) fn pieces(screen: &dyn Screen, width: Width, panels: &Panels) -> Vec<Vec<Piece>> {
    let rows = 0..screen.rows();
    rows.map(|row| row_pieces(screen, width, panels, row))
        .collect()
}

/// The pieces of one row.
pub(crate) fn row_pieces(
    screen: &dyn Screen,
    width: Width,
    panels: &Panels,
    row: usize,
) -> Vec<Piece> {
    let searched = screen.pieces(row, false, panels);
    let skipped = screen.pieces(row, true, panels);
    assert_eq!(searched, skipped, "can_skip_depth changes row {row}");
    let paints: Vec<u32> = screen.paint_attrs().iter().map(|attr| attr.id).collect();
    let layers: Vec<u32> = screen.layer_attrs().iter().map(|attr| attr.id).collect();
    let across = u32::from(screen.width()) / 4;
    let own = rules::pieces(
        &screen.row(row),
        [&paints, &layers],
        panels,
        across,
        width.tiles(),
    );
    assert_eq!(searched, own, "the own account of row {row}");
    searched
}
