//! A recording's steps in draw order, and a screen on which the Rust's own calls take them, with the limits looked at after each step.

use crate::editions::Edition;
use crate::file;
use crate::limits::{within, BAD_FORM, BAD_VIEWPORT, LONG_BYTES, MOST_ROOM, ROOM};
use crate::panels::{draws, Panels};
use crate::peniko::BlendMode;
use crate::record::RecordedFill;
use crate::rules::Ledger;
use crate::scene::{rect, scene, Scene};
use crate::screen::Screen;
use crate::viewport::{must_hold, Mode};
use crate::width::Width;
use std::sync::Arc;
use vello_common::filter::FilterLayerPlacement;
use vello_common::pixmap::Pixmap;
use vello_common::record::{Node, RecordedLayer, RecordedLayerKind};

/// Plays recordings one after another on one screen, reset before each, as the dispatcher does.
pub struct Player {
    screen: Box<dyn Screen>,
    mode: Mode,
    /// None for a number of pixels that no bucket has: then every recording is refused.
    width: Option<Width>,
    /// None for a number that is no edition's: then every recording is refused, before all else.
    edition: Option<Edition>,
    first_id: u32,
    /// The commands and the depth fills that a row has room for.
    room: usize,
    panels: Panels,
}

impl Player {
    /// With 128 pixels a bucket, for files of edition one.
    pub fn new(mode: Mode, first_id: u32) -> Self {
        Self {
            screen: Width::Of128.screen(rect([0; 4])),
            mode,
            width: Some(Width::Of128),
            edition: Some(Edition::One),
            first_id,
            room: ROOM,
            panels: Panels::default(),
        }
    }

    /// With so many pixels a bucket.
    pub fn at(self, pixels: u32) -> Self {
        let width = Width::of(pixels);
        Self {
            screen: width.unwrap_or(Width::Of128).screen(rect([0; 4])),
            width,
            ..self
        }
    }

    /// For files of the edition of a number.
    pub fn told(self, number: u32) -> Self {
        Self {
            edition: Edition::of(number),
            ..self
        }
    }

    /// With the most room that a row can have.
    pub fn roomy(self) -> Self {
        Self {
            room: MOST_ROOM as usize,
            ..self
        }
    }

    /// The id that a walk begins at.
    pub(crate) fn first_id(&self) -> u32 {
        self.first_id
    }

    /// How it reads viewports.
    pub(crate) fn mode(&self) -> Mode {
        self.mode
    }

    /// A bucket's width, where a recording was not refused.
    pub(crate) fn width(&self) -> Width {
        self.width.expect("judged")
    }

    /// A recording that is good up to the order of its segment lists, or the number that refuses it.
    pub(crate) fn judged(&self, bytes: &[u8]) -> Result<Scene, u32> {
        let recording = file::judged_in(self.edition, bytes, self.mode, self.width)?;
        Ok(scene(&recording, self.mode))
    }

    /// The same of a file of at most 1,048,576 bytes, on a screen of however many rows.
    pub(crate) fn judged_long(&self, bytes: &[u8]) -> Result<Scene, u32> {
        let edition = self.edition.ok_or(BAD_FORM)?;
        if bytes.len() > LONG_BYTES {
            return Err(BAD_FORM);
        }
        let recording = file::judged_for(bytes, edition, self.mode);
        if self.width.is_none() && recording.as_ref().err() != Some(&BAD_FORM) {
            return Err(BAD_VIEWPORT);
        }
        Ok(scene(&recording?, self.mode))
    }

    /// The screen that a recording ends as, or the number that refuses it.
    pub(crate) fn play(&mut self, bytes: &[u8]) -> Result<&dyn Screen, u32> {
        let scene = self.judged(bytes)?;
        self.play_scene(&scene)
    }

    /// The same of a good recording. What its steps left in the rows and as attributes must be what the own accounts have.
    pub(crate) fn play_scene(&mut self, scene: &Scene) -> Result<&dyn Screen, u32> {
        let mut ledger = Ledger::new(scene.viewport, self.width().tiles());
        let screen = &mut *self.screen;
        let panels = &mut self.panels;
        screen.reset(scene.given);
        panels.clear();
        must_hold(screen, scene.viewport);
        screen.set_next_id(self.first_id);
        walk(scene, &mut |step| {
            if let Step::Fill(draw, _) = step {
                ledger.fill(screen, draw, scene.strips_of(draw), &scene.paints);
            }
            take(screen, scene, &step);
            within(screen, self.room, self.room)?;
            account(panels, screen, scene, &step);
            Ok(())
        })?;
        ledger.must_agree(screen);
        panels.must_agree(screen);
        Ok(&*self.screen)
    }

    /// The screen as the last recording left it.
    pub(crate) fn screen(&self) -> &dyn Screen {
        &*self.screen
    }

    /// The panels of what is on it.
    pub(crate) fn panels(&self) -> &Panels {
        &self.panels
    }

    /// The screen that a recording ends as by the Rust's own walk, on a new one, for a recording that is not refused.
    pub(crate) fn play_whole(&self, bytes: &[u8]) -> Box<dyn Screen> {
        let scene = self.judged(bytes).expect("an accepted recording");
        let mut screen = self.width().screen(scene.given);
        must_hold(&*screen, scene.viewport);
        screen.set_next_id(self.first_id);
        screen.walk(&scene);
        screen
    }
}

/// One step of a recording's walk, with the panel of its draw or layer.
pub(crate) enum Step<'a> {
    Fill(&'a RecordedFill, u32),
    Push(&'a RecordedLayer, u32),
    /// The fill of a filter layer that has a pixmap.
    Filter(&'a Arc<Pixmap>, FilterLayerPlacement, u32),
    Pop(&'a RecordedLayer),
}

/// The steps of a recording in draw order, up to the first that is refused.
pub(crate) fn walk(
    scene: &Scene,
    step: &mut impl FnMut(Step) -> Result<(), u32>,
) -> Result<(), u32> {
    walk_nodes(scene, &scene.root, step)
}

fn walk_nodes(
    scene: &Scene,
    nodes: &[Node],
    step: &mut impl FnMut(Step) -> Result<(), u32>,
) -> Result<(), u32> {
    for node in nodes {
        for i in node.draws.clone() {
            step(Step::Fill(&scene.draws[i], scene.draw_panels[i]))?;
        }
        if let Some(id) = node.layer {
            walk_layer(scene, id as usize, step)?;
        }
    }
    Ok(())
}

fn walk_layer(
    scene: &Scene,
    id: usize,
    step: &mut impl FnMut(Step) -> Result<(), u32>,
) -> Result<(), u32> {
    let (layer, panel) = (&scene.layers[id], scene.layer_panels[id]);
    match &layer.kind {
        RecordedLayerKind::Regular => {
            step(Step::Push(layer, panel))?;
            walk_nodes(scene, &layer.nodes, step)?;
            step(Step::Pop(layer))
        }
        RecordedLayerKind::Filter { placement } => {
            let buffer = needs_buffer(layer);
            if buffer {
                step(Step::Push(layer, panel))?;
            }
            if let Some(pixmap) = scene.filters.filter_layer(id) {
                step(Step::Filter(&pixmap, *placement, panel))?;
            }
            if buffer {
                step(Step::Pop(layer))?;
            }
            Ok(())
        }
    }
}

/// Whether a filter layer is pushed and popped; a NaN opacity is not 1.0.
fn needs_buffer(layer: &RecordedLayer) -> bool {
    let props = &layer.props;
    props.blend_mode != BlendMode::default()
        || props.opacity != 1.0
        || props.mask.is_some()
        || props.clip_path.is_some()
}

/// A step by the Rust's own calls.
fn take(screen: &mut dyn Screen, scene: &Scene, step: &Step) {
    match *step {
        Step::Fill(draw, _) => {
            screen.fill(draw, scene.origin(), scene.strips_of(draw), &scene.paints);
        }
        Step::Push(layer, _) => screen.push(&layer.props),
        Step::Filter(pixmap, placement, _) => {
            screen.filter(pixmap.clone(), placement, scene.paints.len());
        }
        Step::Pop(_) => screen.pop(&scene.strips),
    }
}

/// A step that was done, in the account of panels. The box that fills are cut to is the same before and after a filter fill.
fn account(panels: &mut Panels, screen: &dyn Screen, scene: &Scene, step: &Step) {
    match *step {
        Step::Fill(draw, panel) => panels.fill(panel, draw.strip_range.len()),
        Step::Push(_, panel) => panels.push(panel),
        Step::Filter(_, placement, panel) => {
            let drawn = draws(placement.dest_bbox(), scene.origin(), screen.clip_box());
            panels.filter(panel, drawn);
        }
        Step::Pop(_) => panels.pop(),
    }
}
