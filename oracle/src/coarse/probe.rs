//! Reads and sets what only the coarse stage itself may see.

use super::bucketer::RowState;
use super::depth::DepthBuffer;
use super::CommandBucketer;
use std::fmt::{self, Write};
use std::ops::Range;
use vello_common::geometry::RectU16;

/// The id that the next step would take.
pub(crate) fn next_id(bucketer: &CommandBucketer) -> u32 {
    bucketer.next_draw_id
}

pub(crate) fn set_next_id(bucketer: &mut CommandBucketer, id: u32) {
    bucketer.next_draw_id = id;
}

/// Takes an id as the walk of a node does before a fill.
pub(crate) fn take_id(bucketer: &mut CommandBucketer) -> u32 {
    let id = bucketer.next_draw_id;
    bucketer.next_draw_id += 1;
    id
}

pub(crate) fn open_layers(bucketer: &CommandBucketer) -> usize {
    bucketer.active_layers.len()
}

/// The words of a depth buffer, from its Debug text, since they are private.
pub(crate) fn depth_words(buffer: &DepthBuffer) -> Vec<u32> {
    let text = format!("{buffer:?}");
    let list = text
        .split(['[', ']'])
        .nth(1)
        .expect("a list in the Debug text");
    list.split(", ")
        .filter(|word| !word.is_empty())
        .map(|word| word.parse().expect("a word"))
        .collect()
}

/// The clip range of the innermost open layer, if one is open and has a clip.
pub(crate) fn innermost_clip(bucketer: &CommandBucketer) -> Option<Option<Range<usize>>> {
    bucketer
        .active_layers
        .last()
        .map(|layer| layer.clip.as_ref().map(|clip| clip.strip_range.clone()))
}

/// The box that fills are cut to.
pub(crate) fn clip_box(bucketer: &CommandBucketer) -> RectU16 {
    *bucketer.clip_bboxes.last().expect("the screen's own")
}

/// The viewport from the Debug text, since it is private. It comes first; the text is left off after it.
pub(crate) fn viewport(bucketer: &CommandBucketer) -> RectU16 {
    struct Head(String);
    impl Write for Head {
        fn write_str(&mut self, text: &str) -> fmt::Result {
            self.0.push_str(text);
            if self.0.contains('}') {
                Err(fmt::Error)
            } else {
                Ok(())
            }
        }
    }
    let mut head = Head(String::new());
    write!(head, "{bucketer:?}").expect_err("more than the viewport");
    let numbers = head
        .0
        .split_once("viewport: RectU16 {")
        .and_then(|(_, rest)| rest.split_once('}'))
        .expect("a viewport")
        .0;
    let numbers: Vec<u16> = numbers
        .split(", ")
        .map(|edge| edge.split_once(": ").expect("an edge").1.trim())
        .map(|edge| edge.parse().expect("a number"))
        .collect();
    match numbers[..] {
        [x0, y0, x1, y1] => RectU16::new(x0, y0, x1, y1),
        _ => panic!("a viewport of another form: {numbers:?}"),
    }
}

/// Of a row's commands those at these places alone are left.
pub(crate) fn keep(bucketer: &mut CommandBucketer, row: usize, places: &[usize]) {
    let mut place = 0..;
    let cmds = &mut bucketer.rows[row].render_cmds;
    cmds.retain(|_| places.contains(&place.next().expect("a place")));
}

/// How many layers a row has a PushBuf of.
pub(crate) fn levels(row: &RowState) -> usize {
    row.layer_depth
}

/// A row's depth summary from its Debug text, since it is private: first tile, end tile, largest id.
pub(crate) fn summary(row: &RowState) -> [u32; 3] {
    let text = format!("{row:?}");
    let state = text
        .split("depth: DepthState {")
        .nth(1)
        .expect("a summary")
        .split("layer_depth")
        .next()
        .expect("its end");
    let numbers: Vec<u32> = state
        .split(|c: char| !c.is_ascii_digit())
        .filter(|n| !n.is_empty())
        .map(|n| n.parse().expect("a number"))
        .collect();
    match numbers[..] {
        [largest] => [0, 0, largest],
        [x, width, largest] => [x / 4, (x + width) / 4, largest],
        _ => panic!("a summary of another form: {state}"),
    }
}
