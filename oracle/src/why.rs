//! Why a tile shows what it shows, and what it receives, written from the rules in words (docs/RULES.md): one walk in draw order that looks at the asked tile
//! alone. No row commands, bucket words or depth fills are made or read.

use crate::limits::{Counts, BAD_RUN};
use crate::painting::Piece;
use crate::peniko::BlendMode;
use crate::record::RecordedFill;
use crate::scene::Scene;
use crate::walk::{walk, Step};
use crate::width::Width;
use std::ops::Range;
use vello_common::filter::FilterLayerPlacement;
use vello_common::geometry::RectU16;
use vello_common::record::RecordedLayer;
use vello_common::strip::Strip;
use vello_common::util::RectExt;

/// Why an attribute is or isn't in the tile's list: the first that holds in this order.
#[derive(Debug, Clone, Copy, PartialEq, Eq)]
pub enum Reason {
    Unknown,
    Uncovered,
    CutAway,
    Untouched,
    /// By the newest depth fill over the tile's bucket, of this draw attribute.
    Hidden(usize),
    /// At this place of the tile's list.
    Shown(usize),
}

/// A draw's or filter fill's attribute, or a layer's.
#[derive(Debug, Clone, Copy, PartialEq, Eq, PartialOrd, Ord)]
pub enum Kind {
    Draw,
    Layer,
}

/// The reasons for every attribute that the walk gave.
#[derive(Debug, Default)]
pub(crate) struct Reasons {
    pub(crate) draws: Vec<Reason>,
    pub(crate) layers: Vec<Reason>,
}

impl Reasons {
    fn push(&mut self, kind: Kind, reason: Reason) {
        match kind {
            Kind::Draw => self.draws.push(reason),
            Kind::Layer => self.layers.push(reason),
        }
    }

    /// Every attribute's: draws by number, then layers.
    pub(crate) fn iter(&self) -> impl Iterator<Item = (Kind, usize, Reason)> + '_ {
        let draws = self.draws.iter().enumerate();
        let layers = self.layers.iter().enumerate();
        draws
            .map(|(number, &reason)| (Kind::Draw, number, reason))
            .chain(layers.map(|(number, &reason)| (Kind::Layer, number, reason)))
    }

    pub(crate) fn of(&self, kind: Kind, number: u32) -> Reason {
        let list = match kind {
            Kind::Draw => &self.draws,
            Kind::Layer => &self.layers,
        };
        let found = list.get(number as usize).copied();
        found.unwrap_or(Reason::Unknown)
    }
}

/// The reasons at a tile of an accepted recording, or 12 for a row or tile off the screen.
pub(crate) fn reasons(scene: &Scene, width: Width, row: u32, tile: u32) -> Result<Reasons, u32> {
    let mut look = Look::at(scene, width, row, tile)?;
    walk(scene, &mut |step| {
        look.take(&step);
        Ok(())
    })
    .expect("an accepted recording");
    Ok(look.reasons())
}

/// What a tile receives of a good recording, oldest first, each entry as a piece of the tile alone; the walk begins at this id. Refused by its first step past
/// a limit, 6, 8 or 9, no row being ever full; then by 12 for a row or tile off the screen.
pub(crate) fn list(
    scene: &Scene,
    width: Width,
    row: u32,
    tile: u32,
    first_id: u32,
) -> Result<Vec<Piece>, u32> {
    let mut look = Look::at(scene, width, row, tile);
    let mut counts = Counts::new(scene.viewport, first_id);
    walk(scene, &mut |step| {
        counts.take(&step)?;
        if let Ok(look) = &mut look {
            look.take(&step);
        }
        Ok(())
    })?;
    Ok(look?.list())
}

/// Of an accepted recording: how many entries plain draw order gives the tiles of its screen, all told, and how many of them came before the newest step that
/// hides at their tile.
pub(crate) fn counted(scene: &Scene, width: Width) -> (usize, usize) {
    let viewport = scene.viewport;
    let (rows, tiles) = (viewport.height() / 4, viewport.width() / 4);
    let mut sums = (0, 0);
    for (row, tile) in (0..rows).flat_map(|row| (0..tiles).map(move |tile| (row, tile))) {
        let mut look = Look::at(scene, width, row.into(), tile.into()).expect("on the screen");
        walk(scene, &mut |step| {
            look.take(&step);
            Ok(())
        })
        .expect("an accepted recording");
        let (before, listed) = look.split();
        let given = |entries: &[Entry]| entries.iter().filter(|e| e.missing.is_none()).count();
        sums.0 += given(before) + given(listed);
        sums.1 += given(before);
    }
    sums
}

/// The asked tile, the layers that are open, and what each step with an attribute gave so far.
struct Look<'a> {
    scene: &'a Scene,
    /// Tiles of a bucket.
    width: u16,
    row: u16,
    tile: u16,
    open: Vec<Open>,
    entries: Vec<Entry>,
}

struct Open {
    panel: u32,
    /// The clip box in force inside the layer, in the screen's pixels.
    bounds: RectU16,
    /// Whether the asked row has the layer's buffer.
    touched: bool,
}

/// A step that has an attribute.
struct Entry {
    kind: Kind,
    /// Why plain draw order gives the tile nothing of this step.
    missing: Option<Reason>,
    /// Whether an eligible solid segment of it covers the tile's whole bucket.
    hides: bool,
    /// The alpha index of the tile, of what covers it after the cut.
    alpha: Option<u32>,
    /// How many layers are open, the closing one among them.
    nesting: usize,
    panel: u32,
}

impl<'a> Look<'a> {
    /// At a tile of the screen; 12 off it.
    fn at(scene: &'a Scene, width: Width, row: u32, tile: u32) -> Result<Self, u32> {
        let (rows, tiles) = (scene.viewport.height() / 4, scene.viewport.width() / 4);
        if row >= rows.into() || tile >= tiles.into() {
            return Err(BAD_RUN);
        }
        Ok(Self {
            scene,
            width: u16::try_from(width.tiles()).expect("at most 64"),
            row: u16::try_from(row).expect("on the screen"),
            tile: u16::try_from(tile).expect("on the screen"),
            open: Vec::new(),
            entries: Vec::new(),
        })
    }

    fn take(&mut self, step: &Step) {
        match *step {
            Step::Fill(draw, panel) => self.fill(draw, panel),
            Step::Push(layer, panel) => self.push(layer, panel),
            Step::Filter(_, placement, panel) => self.filter(placement, panel),
            Step::Pop(layer) => self.pop(layer),
        }
    }

    /// A draw without segments has no attribute. Its segments are cut by the clip box in force.
    fn fill(&mut self, draw: &RecordedFill, panel: u32) {
        let list = &self.scene.strips[draw.strip_range.clone()];
        if list.is_empty() {
            return;
        }
        let (covered, kept) = self.covered_and_kept(list);
        let eligible = self.open.is_empty()
            && draw.blend_mode == BlendMode::default()
            && draw.mask.is_none()
            && !draw.paint.may_have_transparency(&self.scene.paints);
        // A bucket has all its tiles, also where part of it lies off the screen.
        let bucket = self.tile / self.width * self.width;
        let hides = eligible
            && list.iter().any(|segment| {
                let left = self.cut(segment);
                !segment.alpha && left.start <= bucket && bucket + self.width <= left.end
            });
        if list.iter().any(|segment| !self.cut(segment).is_empty()) {
            self.touch();
        }
        self.entries.push(Entry {
            kind: Kind::Draw,
            missing: missing(covered, kept, true),
            hides,
            alpha: self.alpha(list),
            nesting: self.open.len(),
            panel,
        });
    }

    /// A clip's box is made local and met with the parent's; without a clip it is the parent's. A destructive blend touches its rows.
    fn push(&mut self, layer: &RecordedLayer, panel: u32) {
        let bounds = match &layer.props.clip_path {
            Some(clip) => self.local(clip.bbox).intersect(self.bounds()),
            None => self.bounds(),
        };
        self.open.push(Open {
            panel,
            bounds,
            touched: false,
        });
        if layer.props.blend_mode.is_destructive() && !bounds.is_empty() && on_row(bounds, self.row)
        {
            self.touch();
        }
    }

    /// Nothing at all if its dest box, met with the clip box in force, is empty.
    fn filter(&mut self, placement: FilterLayerPlacement, panel: u32) {
        let dest = placement.dest_bbox();
        let met = self.local(dest).intersect(self.bounds());
        if met.is_empty() {
            return;
        }
        let (row, tile) = self.in_scene();
        let (covered, kept) = (meets(dest, row, tile), meets(met, self.row, self.tile));
        if on_row(met, self.row) {
            self.touch();
        }
        self.entries.push(Entry {
            kind: Kind::Draw,
            missing: missing(covered, kept, true),
            hides: false,
            alpha: None,
            nesting: self.open.len(),
            panel,
        });
    }

    /// A clip's segments are cut by the parent's box. Without a clip the viewport stands as the segment, cut by the layer's own box.
    fn pop(&mut self, layer: &RecordedLayer) {
        let nesting = self.open.len();
        let closing = self.open.pop().expect("pushed before");
        let ((covered, kept), alpha) = match &layer.props.clip_path {
            Some(clip) => {
                let list = &self.scene.strips[clip.strip_range.clone()];
                (self.covered_and_kept(list), self.alpha(list))
            }
            None => {
                let kept = meets(closing.bounds, self.row, self.tile);
                ((true, kept), None)
            }
        };
        self.entries.push(Entry {
            kind: Kind::Layer,
            missing: missing(covered, kept, closing.touched),
            hides: false,
            alpha,
            nesting,
            panel: closing.panel,
        });
    }

    /// What reaches the row reaches it through all open layers.
    fn touch(&mut self) {
        self.open.iter_mut().for_each(|layer| layer.touched = true);
    }

    /// The clip box in force, in the screen's pixels.
    fn bounds(&self) -> RectU16 {
        let RectU16 { x0, y0, x1, y1 } = self.scene.viewport;
        let screen = RectU16::new(0, 0, x1 - x0, y1 - y0);
        self.open.last().map_or(screen, |layer| layer.bounds)
    }

    fn local(&self, bounds: RectU16) -> RectU16 {
        bounds.relative_to_origin((self.scene.viewport.x0, self.scene.viewport.y0))
    }

    /// The asked row and tile in the scene.
    fn in_scene(&self) -> (u16, u16) {
        let RectU16 { x0, y0, .. } = self.scene.viewport;
        (self.row + y0 / 4, self.tile + x0 / 4)
    }

    /// Whether a segment of the list covers the tile as it stands, and whether one does once cut.
    fn covered_and_kept(&self, list: &[Strip]) -> (bool, bool) {
        let (row, tile) = self.in_scene();
        let covers = |s: &Strip| s.row == row && s.first <= tile && tile < s.end;
        let keeps = |s: &Strip| self.cut(s).contains(&self.tile);
        (list.iter().any(covers), list.iter().any(keeps))
    }

    /// What the clip box in force, moved to scene tiles, leaves of a segment on the asked row, then made local.
    fn cut(&self, segment: &Strip) -> Range<u16> {
        let (row, _) = self.in_scene();
        let left = self.scene.viewport.x0 / 4;
        let bounds = self.bounds();
        let first = segment.first.max(left + bounds.x0 / 4);
        let end = segment.end.min(left + bounds.x1 / 4);
        if segment.row != row || !on_row(bounds, self.row) || first >= end {
            return 0..0;
        }
        first - left..end - left
    }

    /// The tile's own alpha index: 16 for each tile from the segment's first, which may lie off the screen.
    fn alpha(&self, list: &[Strip]) -> Option<u32> {
        let (_, tile) = self.in_scene();
        let covering = list.iter().find(|s| self.cut(s).contains(&self.tile))?;
        let index = covering.alpha_idx + 16 * u32::from(tile - covering.first);
        covering.alpha.then_some(index)
    }

    /// What came before the newest step that hides, and the rest.
    fn split(&self) -> (&[Entry], &[Entry]) {
        let newest = self.entries.iter().rposition(|entry| entry.hides);
        self.entries.split_at(newest.unwrap_or(0))
    }

    /// The list begins with the newest step that hides.
    fn list(&self) -> Vec<Piece> {
        let mut counts = [0, 0];
        let mut pieces = Vec::new();
        let (before, _) = self.split();
        for (i, entry) in self.entries.iter().enumerate() {
            let layer = entry.kind == Kind::Layer;
            let count = &mut counts[usize::from(layer)];
            let attribute = *count;
            *count += 1;
            if i >= before.len() && entry.missing.is_none() {
                pieces.push(Piece {
                    layer,
                    attribute,
                    first: self.tile,
                    end: self.tile + 1,
                    alpha: entry.alpha,
                    nesting: entry.nesting,
                    panel: entry.panel,
                });
            }
        }
        pieces
    }

    /// What came before the list is hidden.
    fn reasons(&self) -> Reasons {
        let (before, listed) = self.split();
        // The newest one's attribute: as many draws have one before it.
        let hider = before.iter().filter(|e| e.kind == Kind::Draw).count();
        let mut reasons = Reasons::default();
        for entry in before {
            let reason = entry.missing.unwrap_or(Reason::Hidden(hider));
            reasons.push(entry.kind, reason);
        }
        let mut places = 0..;
        for entry in listed {
            let shown = || Reason::Shown(places.next().expect("a place"));
            reasons.push(entry.kind, entry.missing.unwrap_or_else(shown));
        }
        reasons
    }
}

/// Whether a box of pixels that isn't empty meets a row.
fn on_row(bounds: RectU16, row: u16) -> bool {
    bounds.y0 < 4 * row + 4 && 4 * row < bounds.y1
}

/// Whether a box of pixels meets a tile.
fn meets(bounds: RectU16, row: u16, tile: u16) -> bool {
    !bounds.is_empty() && on_row(bounds, row) && bounds.x0 < 4 * tile + 4 && 4 * tile < bounds.x1
}

/// The first that holds of what covers a tile or does not, before the cut and after it, in a row that is touched or is not.
fn missing(covered: bool, kept: bool, touched: bool) -> Option<Reason> {
    if !covered {
        Some(Reason::Uncovered)
    } else if !kept {
        Some(Reason::CutAway)
    } else if !touched {
        Some(Reason::Untouched)
    } else {
        None
    }
}
