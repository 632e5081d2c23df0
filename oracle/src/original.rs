//! The original as one who links it uses it, at 128 pixels a bucket: a scene built by its calls, and painted by its depth buffer.

use crate::coarse::depth::DepthBuffer;
use crate::coarse::{stage, CommandBucketer};
use crate::file::Recording;
use crate::painting::Piece;
use crate::panels::Panels;
use crate::scene::{scene, Scene};
use crate::sizes;
use crate::steps::Step;
use crate::viewport::Mode;
use std::mem::size_of;
use std::ops::Range;

/// The screen of a recording whose viewport is read exactly, and what painting needs beside it.
pub struct Original {
    scene: Scene,
    bucketer: CommandBucketer,
    depth: DepthBuffer,
    pieces: Vec<Piece>,
    /// The original knows none: they are kept beside its attributes.
    panels: Panels,
}

impl Original {
    pub fn new(recording: &Recording) -> Self {
        let scene = scene(recording, Mode::Exact);
        let bucketer = CommandBucketer::new(scene.viewport);
        let depth = DepthBuffer::new(bucketer.width());
        Self {
            scene,
            bucketer,
            depth,
            pieces: Vec::new(),
            panels: Panels::default(),
        }
    }

    pub fn reset(&mut self) {
        self.bucketer.reset(self.scene.viewport);
        self.panels.clear();
    }

    /// The steps of the scene, on a screen that is reset.
    pub fn build(&mut self, steps: &[Step]) {
        let (bucketer, scene) = (&mut self.bucketer, &self.scene);
        let panels = &mut self.panels;
        for step in steps {
            match *step {
                Step::Fill(i) => {
                    let draw = &scene.draws[i];
                    let strips = scene.strips_of(draw);
                    stage::fill(bucketer, draw, scene.origin(), strips, &scene.paints);
                    panels.fill(scene.draw_panels[i], strips.len());
                }
                Step::Push(i) => {
                    bucketer.push_layer(&scene.layers[i].props);
                    panels.push(scene.layer_panels[i]);
                }
                Step::Pop => {
                    bucketer.pop_layer(&scene.strips);
                    panels.pop();
                }
            }
        }
    }

    /// The walk of the whole recording, as a file has it: without panels.
    pub fn walk(&mut self) {
        self.bucketer.reset(self.scene.viewport);
        stage::walk(&mut self.bucketer, &self.scene);
        let made = &self.bucketer;
        self.panels
            .without(made.paint_fill_attrs.len(), made.layer_fill_attrs.len());
    }

    /// Every row painted into a list, which is handed to `give`; the search is left out where it can be.
    pub fn paint(&mut self, give: impl FnMut(&[Piece])) {
        self.paint_only(0..self.bucketer.rows().len(), give);
    }

    /// .. some rows.
    pub fn paint_only(&mut self, rows: Range<usize>, mut give: impl FnMut(&[Piece])) {
        for row in &self.bucketer.rows()[rows] {
            self.depth.clear();
            self.pieces.clear();
            stage::paint(
                &self.bucketer,
                row,
                true,
                &self.panels,
                &mut self.depth,
                &mut self.pieces,
            );
            give(&self.pieces);
        }
    }

    /// The depth words. `DepthBuffer` is one vector, private to the original, and is read here as that vector.
    pub fn depth_words(&self) -> &[u32] {
        const { assert!(size_of::<DepthBuffer>() == size_of::<Vec<u32>>()) };
        let words: &Vec<u32> = unsafe { &*std::ptr::from_ref(&self.depth).cast() };
        assert_eq!(
            words.len(),
            usize::from(self.bucketer.width()).div_ceil(128)
        );
        words
    }

    /// Words that stand on the screen, as the port has them: commands, depth fills and attributes.
    pub fn words(&self) -> usize {
        let rows = self.bucketer.rows().iter();
        let commands: usize = rows
            .map(|row| {
                sizes::COMMAND * row.render_cmds.len() + sizes::DEPTH_FILL * row.depth_cmds.len()
            })
            .sum();
        commands
            + sizes::PAINT_ATTR * self.bucketer.paint_fill_attrs.len()
            + sizes::LAYER_ATTR * self.bucketer.layer_fill_attrs.len()
    }
}
