//! The port, by the wrapper that a host links.

use coarse::{
    BlendMode, CommandBucketer, Edition, FillList, LayerClip, LayerProps, Paint, Piece,
    RecordedFill, Rect, Segment, Setup,
};
use oracle::generate::draft::Draft;
use oracle::painting;
use oracle::steps::Step;
use std::ops::Range;

/// A scene as the wrapper takes it, and its screen.
pub(crate) struct Port {
    viewport: Rect,
    paints: Vec<Paint>,
    segments: Vec<Segment>,
    draws: Vec<RecordedFill>,
    list: FillList,
    layers: Vec<LayerProps>,
    bucketer: CommandBucketer,
    /// The pieces of a row that is painted on its own words.
    pieces: Vec<Piece>,
}

impl Port {
    pub(crate) fn new(draft: &Draft, setup: Setup) -> Self {
        let viewport = rect(draft.viewport);
        let draws: Vec<RecordedFill> = (0..)
            .zip(&draft.draws)
            .map(|(i, words)| draw(words, draft.draw_panel(i)))
            .collect();
        Self {
            viewport,
            paints: draft
                .paints
                .iter()
                .map(|&[opaque, handle, ..]| Paint::new(opaque == 1, handle))
                .collect(),
            segments: draft.segments.iter().map(segment).collect(),
            list: draws.iter().collect(),
            draws,
            layers: (0..)
                .zip(&draft.layers)
                .map(|(i, words)| layer(words, draft.layer_panel(i)))
                .collect(),
            bucketer: CommandBucketer::new(viewport, setup).expect("a good viewport"),
            pieces: Vec::new(),
        }
    }

    pub(crate) fn reset(&mut self) {
        self.bucketer.reset(self.viewport).expect("a reset");
    }

    pub(crate) fn reset_used(&mut self) {
        self.bucketer.reset_used();
    }

    /// False where the file is too long to be a recording.
    pub(crate) fn record(&mut self, file: &[u32]) -> bool {
        self.bucketer.bucket_commands(Edition::One, file).is_ok()
    }

    pub(crate) fn build(&mut self, steps: &[Step]) {
        for step in steps {
            match *step {
                Step::Fill(i) => {
                    self.bucketer
                        .generate_fill(&self.paints, &self.segments, &self.draws[i])
                }
                Step::Push(i) => self.bucketer.push_layer(&self.layers[i]),
                Step::Pop => self.bucketer.pop_layer(&self.segments),
            }
            .expect("a step within the limits");
        }
    }

    /// The fills of a scene that has nothing else, by one call.
    pub(crate) fn fill_list(&mut self) {
        self.bucketer
            .generate_fill_list(&self.paints, &self.segments, &self.list, 0..self.list.len())
            .expect("fills within the limits");
    }

    /// The depth fills of all rows.
    pub(crate) fn depth_fills(&self) -> usize {
        let rows = self.bucketer.rows();
        rows.map(|row| row.depth_cmds().len()).sum()
    }

    pub(crate) fn depth_words(&self) -> &[u32] {
        self.bucketer.depth_words()
    }

    pub(crate) fn minima(&self) -> &[u32] {
        self.bucketer.minima()
    }

    /// Every row painted to its end by a call for each, its pieces handed to `give`.
    pub(crate) fn paint(&mut self, mut give: impl FnMut(&[Piece])) {
        self.bucketer.begin_painting().expect("closed layers");
        for row in 0..self.bucketer.rows().len() {
            give(self.bucketer.paint_row(row).expect("a row"));
        }
    }

    /// The same by one call for all rows.
    pub(crate) fn paint_rows(&mut self, give: impl FnMut(&[Piece])) {
        self.paint_only(0..self.bucketer.rows().len(), give);
    }

    /// Some rows painted to their end, by one call.
    pub(crate) fn paint_only(&mut self, rows: Range<usize>, mut give: impl FnMut(&[Piece])) {
        self.bucketer.begin_painting().expect("closed layers");
        for pieces in self.bucketer.paint_rows(rows).expect("rows") {
            give(pieces);
        }
    }

    /// The same by a call for each on its own words.
    pub(crate) fn paint_own_rows(&mut self, mut give: impl FnMut(&[Piece])) {
        self.bucketer.begin_painting().expect("closed layers");
        for mut row in self.bucketer.own_rows().expect("rows") {
            give(row.paint(&mut self.pieces).expect("a row"));
        }
    }

    /// The same by a call for each step.
    pub(crate) fn paint_by_steps(&mut self, mut give: impl FnMut(&[Piece])) {
        self.bucketer.begin_painting().expect("closed layers");
        for row in 0..self.bucketer.rows().len() {
            while let Some(pieces) = self.bucketer.paint_step(row).expect("a step") {
                give(pieces);
            }
        }
    }
}

fn rect([x0, y0, x1, y1]: [u32; 4]) -> Rect {
    Rect::new(x0, y0, x1, y1)
}

fn segment(&[kind, row, first, end, alpha]: &[u32; 5]) -> Segment {
    Segment {
        kind,
        row,
        first,
        end,
        alpha,
    }
}

fn draw(
    &[thread_idx, start, end, paint, mix, compose, mask]: &[u32; 7],
    panel: u32,
) -> RecordedFill {
    RecordedFill {
        thread_idx,
        start: start as usize,
        end: end as usize,
        paint,
        blend_mode: BlendMode { mix, compose },
        mask,
        panel,
    }
}

fn layer(layer: &[u32; 22], panel: u32) -> LayerProps {
    let &[_, _, _, mix, compose, opacity, mask, flag, x0, y0, x1, y1, start, end, thread_idx, ..] =
        layer;
    let clip = LayerClip {
        bbox: Rect::new(x0, y0, x1, y1),
        start,
        end,
        thread_idx,
    };
    LayerProps {
        blend_mode: BlendMode { mix, compose },
        opacity: f32::from_bits(opacity),
        mask,
        clip: (flag == 1).then_some(clip),
        panel,
    }
}

/// A piece as the original's side has it.
pub(crate) fn piece(piece: &Piece) -> painting::Piece {
    let short = |word: u32| u16::try_from(word).expect("a tile");
    painting::Piece {
        layer: piece.is_layer(),
        attribute: piece.attrs_idx,
        first: short(piece.first),
        end: short(piece.end),
        alpha: piece.alpha_idx(),
        nesting: piece.nesting as usize,
        panel: piece.panel,
    }
}
