//! What `rowlist` prints, and the detail that `rowdump` adds.

use crate::file::{pixmap, Recording};
use crate::painting::{pieces, Piece};
use crate::panels::Panels;
use crate::screen::{Command, Screen};
use crate::walk::Player;
use crate::width::{Depth, Width};
use std::fmt::Write;
use vello_common::encode::EncodedPaint;
use vello_common::paint::ImageSource;

/// A line of text, ended by a line feed.
macro_rules! line {
    ($out:expr, $($arg:tt)*) => { writeln!($out, $($arg)*).expect("a line") };
}

/// A recording as text, a record a line: what `tools/rec.py` makes a file of.
pub fn recording(of: &Recording) -> String {
    let mut out = String::new();
    let words = |words: &[u32]| {
        let words: Vec<String> = words.iter().map(u32::to_string).collect();
        words.join(" ")
    };
    line!(out, "viewport {}", words(&of.viewport));
    for &[flag, handle, x, y] in &of.paints {
        let kind = ["clear", "opaque"][flag as usize];
        let (x, y) = (x.cast_signed(), y.cast_signed());
        line!(out, "paint {kind} {handle} shift {x} {y}");
    }
    for &[kind, row, first, end, alpha] in &of.segments {
        let kind = ["solid", "alpha"][kind as usize];
        line!(
            out,
            "segment {kind} row {row} tiles {first} {end} index {alpha}"
        );
    }
    for &[thread, start, end, paint, mix, compose, mask] in &of.draws {
        line!(
            out,
            "draw segments {start} {end} paint {paint} blend {mix} {compose} mask {mask} thread {thread}"
        );
    }
    for layer in &of.layers {
        let kind = ["regular", "filter"][layer[0] as usize];
        write!(
            out,
            "layer {kind} nodes {} blend {} opacity bits {} mask {}",
            words(&layer[1..3]),
            words(&layer[3..5]),
            layer[5],
            layer[6]
        )
        .expect("a line");
        if layer[7] == 1 {
            let (area, range) = (words(&layer[8..12]), words(&layer[12..14]));
            let thread = layer[14];
            write!(out, " clip box {area} segments {range} thread {thread}").expect("a line");
        }
        if let Some(handle) = pixmap(layer[15]) {
            write!(out, " pixmap {handle}").expect("a line");
        }
        let (dest, source) = (words(&layer[16..20]), words(&layer[20..22]));
        line!(out, " dest {dest} source {source}");
    }
    for &[start, end, layer] in &of.nodes {
        match layer.checked_sub(1) {
            Some(layer) => line!(out, "node draws {start} {end} layer {layer}"),
            None => line!(out, "node draws {start} {end}"),
        }
    }
    line!(out, "root {}", words(&of.root));
    out
}

/// The lines of `rowlist`.
pub fn rowlist(player: &mut Player, bytes: &[u8]) -> String {
    both(player, bytes, |screen, width, _| {
        screen_lines(screen, width)
    })
}

/// The lines of `rowlist`, then attributes and pieces of an accepted recording, at wish with their panels.
pub fn rowdump(player: &mut Player, bytes: &[u8], with_panels: bool) -> String {
    both(player, bytes, |screen, width, panels| {
        screen_lines(screen, width) + &detail(screen, width, panels, with_panels)
    })
}

/// The text of the stepwise walk, which the Rust's own walk must give too, with the same panels.
fn both(
    player: &mut Player,
    bytes: &[u8],
    text: impl Fn(&dyn Screen, Width, &Panels) -> String,
) -> String {
    if let Err(number) = player.play(bytes) {
        return format!("refused {number}\n");
    }
    let (width, panels) = (player.width(), player.panels());
    let steps = text(player.screen(), width, panels);
    let whole = text(&*player.play_whole(bytes), width, panels);
    assert!(
        steps == whole,
        "the walk by steps and bucket_commands differ:\n{steps}\nand\n{whole}"
    );
    steps
}

fn screen_lines(screen: &dyn Screen, width: Width) -> String {
    let mut out = String::new();
    let buckets = Depth::new(width, screen.width()).words().len();
    line!(
        out,
        "rows {} buckets {buckets} ids {}",
        screen.rows(),
        screen.next_id() - 1
    );
    for i in 0..screen.rows() {
        row_lines(&mut out, i, screen);
    }
    out
}

fn row_lines(out: &mut String, i: usize, screen: &dyn Screen) {
    let row = screen.row(i);
    line!(
        out,
        "row {i} depth {} render {}",
        row.fills.len(),
        row.commands.len()
    );
    for fill in &row.fills {
        let (first, end) = fill.buckets;
        line!(out, "D {first} {end} {}", fill.attribute);
    }
    for command in &row.commands {
        match *command {
            Command::Fill(fill) => {
                let tag = if fill.layer { 'L' } else { 'P' };
                let ((first, end), alpha) = (fill.tiles, or_dash(fill.alpha));
                line!(out, "{tag} {first} {end} {alpha} {}", fill.attribute);
            }
            Command::Push(Some((first, end))) => line!(out, "B {first} {end}"),
            Command::Push(None) => line!(out, "B - -"),
            Command::Pop => line!(out, "E"),
        }
    }
}

fn or_dash(alpha: Option<u32>) -> String {
    alpha.map_or("-".into(), |alpha| alpha.to_string())
}

/// Attributes, filter paints and pieces, at wish with their panels.
pub(crate) fn detail(
    screen: &dyn Screen,
    width: Width,
    panels: &Panels,
    with_panels: bool,
) -> String {
    let mut out = String::new();
    // The panel is one more number at a line's end.
    let last = |panel: u32| match with_panels {
        true => format!(" {panel}"),
        false => String::new(),
    };
    let of = |layer: bool, attribute: u32| last(panels.of(layer, attribute));
    paint_attributes(&mut out, screen, |i| of(false, i));
    layer_attributes(&mut out, screen, |i| of(true, i));
    filter_paints(&mut out, screen);
    for (i, pieces) in pieces(screen, width, panels).into_iter().enumerate() {
        line!(out, "painted {i} pieces {}", pieces.len());
        for piece in &pieces {
            out += &piece_line(piece, with_panels);
        }
    }
    out
}

/// A piece's line, at wish with its panel.
pub(crate) fn piece_line(piece: &Piece, with_panel: bool) -> String {
    let Piece {
        layer,
        attribute,
        first,
        end,
        alpha,
        nesting,
        panel,
    } = *piece;
    let tag = if layer { 'l' } else { 'p' };
    let last = match with_panel {
        true => format!(" {panel}"),
        false => String::new(),
    };
    let alpha = or_dash(alpha);
    format!("{tag} {attribute} {first} {end} {alpha} {nesting}{last}\n")
}

/// A line for each attribute, ended by what its number gives.
fn paint_attributes(out: &mut String, screen: &dyn Screen, last: impl Fn(u32) -> String) {
    let attrs = screen.paint_attrs();
    line!(out, "paint attributes {}", attrs.len());
    for (i, attr) in (0..).zip(attrs) {
        let ([mix, compose], [x, y]) = (attr.blend, attr.origin);
        line!(
            out,
            "A {} {mix} {compose} {} {} {} {x} {y}{}",
            attr.paint,
            attr.mask,
            attr.id,
            attr.thread,
            last(i)
        );
    }
}

fn layer_attributes(out: &mut String, screen: &dyn Screen, last: impl Fn(u32) -> String) {
    let attrs = screen.layer_attrs();
    line!(out, "layer attributes {}", attrs.len());
    for (i, attr) in (0..).zip(attrs) {
        let [mix, compose] = attr.blend;
        line!(
            out,
            "Y {mix} {compose} {} {} {} {}{}",
            attr.opacity,
            attr.mask,
            attr.id,
            attr.thread,
            last(i)
        );
    }
}

fn filter_paints(out: &mut String, screen: &dyn Screen) {
    line!(out, "filter paints {}", screen.filter_paints().len());
    for EncodedPaint::Image(image) in screen.filter_paints() {
        let ImageSource::Pixmap(pixmap) = &image.source;
        let (flag, shift) = (
            u8::from(!image.may_have_transparency),
            image.transform.shift,
        );
        line!(out, "F {flag} {} {} {}", pixmap.handle, shift.x, shift.y);
    }
}
