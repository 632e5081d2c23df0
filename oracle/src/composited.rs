//! The original's own commands composited: a row's depth fills by its depth buffer, then its commands in order, each where that buffer shows it.

use crate::colours::{Buffers, Colours, LayerSaid, PaintSaid};
use crate::file::{self, Recording};
use crate::plain::{plain, Closing, Hiding, Met, Picture};
use crate::screen::{Buffer, Command, Fill, Row, Screen};
use crate::walk::Player;
use crate::width::Width;
use vello_common::encode::EncodedPaint;
use vello_common::paint::ImageSource;

/// A recording that both accept, as both account for it.
pub struct Accounts<B> {
    pub recording: Recording,
    pub plain: Picture<B>,
    pub original: Picture<B>,
    pub hiding: Hiding,
    pub met: Met,
}

/// Plain draw order, and the original's commands, in these colours; or the number that refuses the recording.
pub fn accounts<C: Colours>(
    player: &mut Player,
    bytes: &[u8],
    colours: &C,
    closing: Closing,
) -> Result<Accounts<C::Buffer>, u32> {
    player.play(bytes)?;
    let (mode, width) = (player.mode(), player.width());
    let recording = file::judged(bytes, mode, Some(width)).expect("an accepted recording");
    let held = mode.held(recording.viewport).expect("judged");
    let (plain, hiding, met) = plain(&recording, held, width.tiles(), colours, closing);
    let original = composited(player.screen(), width, &recording, &hiding, colours);
    Ok(Accounts {
        recording,
        plain,
        original,
        hiding,
        met,
    })
}

/// What a screen's attributes say, and the ids of their draws.
struct Said {
    paints: Vec<PaintSaid>,
    layers: Vec<LayerSaid>,
    paint_ids: Vec<u32>,
    layer_ids: Vec<u32>,
}

fn composited<C: Colours>(
    screen: &dyn Screen,
    width: Width,
    recording: &Recording,
    hiding: &Hiding,
    colours: &C,
) -> Picture<C::Buffer> {
    let said = Said {
        paints: paints(screen, recording),
        layers: layers(screen),
        paint_ids: screen.paint_attrs().iter().map(|attr| attr.id).collect(),
        layer_ids: screen.layer_attrs().iter().map(|attr| attr.id).collect(),
    };
    let rows = (0..screen.rows()).map(|row| {
        let hides = |tile: u32, place: u32| hiding.has(row, tile as usize, place);
        let depth = (width.stage().buffer)(screen.width());
        let buffers = Buffers::new(colours, usize::from(screen.width()) / 4);
        composited_row(&screen.row(row), width, depth, &said, hides, buffers)
    });
    Picture {
        rows: rows.collect(),
        paints: said.paints,
        layers: said.layers,
    }
}

/// Depth fills from the newest, then commands from the oldest, over a depth buffer that is clear.
fn composited_row<C: Colours>(
    row: &Row,
    width: Width,
    mut depth: Box<dyn Buffer>,
    said: &Said,
    hides: impl Fn(u32, u32) -> bool,
    mut buffers: Buffers<C>,
) -> Vec<C::Buffer> {
    for fill in row.fills.iter().rev() {
        let at = fill.attribute as usize;
        for (first, end) in depth.write(fill.buckets, said.paint_ids[at]) {
            for tile in first * width.tiles()..end * width.tiles() {
                let hides = hides(tile, fill.attribute);
                buffers.fill(tile as usize, &said.paints[at], None, hides);
            }
        }
    }
    for command in &row.commands {
        match *command {
            Command::Push(_) => buffers.push(),
            Command::Pop => buffers.pop(),
            Command::Fill(fill) => show(fill, &*depth, said, &hides, &mut buffers),
        }
    }
    buffers.picture()
}

/// A fill where the depth buffer shows it.
fn show<C: Colours>(
    fill: Fill,
    depth: &dyn Buffer,
    said: &Said,
    hides: impl Fn(u32, u32) -> bool,
    buffers: &mut Buffers<C>,
) {
    let at = fill.attribute as usize;
    let ids = [&said.paint_ids, &said.layer_ids][usize::from(fill.layer)];
    let runs = depth.visible(fill.tiles, ids[at]);
    for tile in runs.into_iter().flat_map(|(first, end)| first..end) {
        let moved = 16 * (tile - fill.tiles.0);
        let alpha = fill.alpha.map(|alpha| alpha + moved);
        if fill.layer {
            buffers.close(tile as usize, &said.layers[at], alpha);
        } else {
            let hides = hides(tile, fill.attribute);
            buffers.fill(tile as usize, &said.paints[at], alpha, hides);
        }
    }
}

/// What the original's paint attributes say. Those past the paint list are filter paints.
fn paints(screen: &dyn Screen, recording: &Recording) -> Vec<PaintSaid> {
    let listed = recording.paints.len();
    let paint = |place: usize| match recording.paints.get(place) {
        Some(&[flag, handle, x, y]) => {
            let shift = |word: u32| i64::from(word.cast_signed());
            [flag.into(), handle.into(), shift(x), shift(y)]
        }
        None => filter_paint(&screen.filter_paints()[place - listed]),
    };
    (0..)
        .zip(screen.paint_attrs())
        .map(|(place, attr)| PaintSaid {
            place,
            paint: paint(attr.paint as usize),
            blend: attr.blend,
            mask: attr.mask,
            thread: attr.thread,
        })
        .collect()
}

#[expect(
    clippy::cast_possible_truncation,
    reason = "whole numbers of pixels, as the rules have them"
)]
fn filter_paint(EncodedPaint::Image(image): &EncodedPaint) -> [i64; 4] {
    let ImageSource::Pixmap(pixmap) = &image.source;
    let shift = image.transform.shift;
    [
        i64::from(!image.may_have_transparency),
        pixmap.handle.into(),
        shift.x as i64,
        shift.y as i64,
    ]
}

fn layers(screen: &dyn Screen) -> Vec<LayerSaid> {
    (0..)
        .zip(screen.layer_attrs())
        .map(|(place, attr)| LayerSaid {
            place,
            blend: attr.blend,
            opacity: attr.opacity,
            mask: attr.mask,
            thread: attr.thread,
        })
        .collect()
}
