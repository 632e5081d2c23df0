//! The panels of what stands on a screen, written from the rules in words (docs/RULES.md). The original knows no panel: this account stands beside it and
//! must have as many attributes and open layers.

use crate::limits::PANELS;
use crate::screen::Screen;
use vello_common::geometry::RectU16;
use vello_common::util::RectExt;

/// Grown by steps that are done. A refused step changes nothing.
#[derive(Debug, Clone, Default, PartialEq, Eq)]
pub(crate) struct Panels {
    /// Of the open layers, the innermost last.
    open: Vec<u32>,
    /// Of the paint attributes.
    paints: Vec<u32>,
    /// Of the layer attributes.
    layers: Vec<u32>,
}

/// Above are refused by 4.
pub(crate) fn good_panel(panel: u32) -> bool {
    panel < PANELS
}

/// Whether a filter fill draws: its dest box, made local, is met with the box that fills are cut to.
pub(crate) fn draws(dest: RectU16, origin: (u16, u16), bounds: RectU16) -> bool {
    !dest.relative_to_origin(origin).intersect(bounds).is_empty()
}

impl Panels {
    /// A reset.
    pub(crate) fn clear(&mut self) {
        self.open.clear();
        self.paints.clear();
        self.layers.clear();
    }

    /// A file without panels that leaves so many attributes.
    pub(crate) fn without(&mut self, paints: usize, layers: usize) {
        self.clear();
        self.paints.resize(paints, 0);
        self.layers.resize(layers, 0);
    }

    /// A draw of so many segments; without any it has no attribute.
    pub(crate) fn fill(&mut self, panel: u32, segments: usize) {
        if segments > 0 {
            self.paints.push(panel);
        }
    }

    pub(crate) fn push(&mut self, panel: u32) {
        self.open.push(panel);
    }

    /// The closing fill's attribute has its own layer's panel.
    pub(crate) fn pop(&mut self) {
        let own = self.open.pop().expect("an open layer");
        self.layers.push(own);
    }

    /// A filter fill has the panel that it is given, whatever layers are open; one that draws nothing has no attribute.
    pub(crate) fn filter(&mut self, panel: u32, draws: bool) {
        if draws {
            self.paints.push(panel);
        }
    }

    /// A layer attribute's, or a paint attribute's.
    pub(crate) fn of(&self, layer: bool, attribute: u32) -> u32 {
        let list = if layer { &self.layers } else { &self.paints };
        list[attribute as usize]
    }

    /// A panel for each paint attribute, each layer attribute and each open layer of the screen.
    pub(crate) fn must_agree(&self, screen: &dyn Screen) {
        let [paints, layers, _] = screen.counts();
        let own = [&self.paints, &self.layers, &self.open].map(Vec::len);
        assert_eq!(own, [paints, layers, screen.open_layers()], "panels");
    }
}

#[cfg(test)]
mod tests {
    use super::{good_panel, Panels};
    use crate::calls::{answers, Call};
    use crate::generate::calls::{alpha, fill, filter, of, pop, push, reset};
    use crate::generate::draft::{layer, solid, Draft, HALF};
    use crate::limits::LAST_ID;
    use crate::original::Original;
    use crate::print::rowdump;
    use crate::scene::scene;
    use crate::sizes::{LAYER_ATTR, PAINT_ATTR, PIECE};
    use crate::steps::steps;
    use crate::viewport::Mode;
    use crate::walk::Player;

    const ON: [u32; 4] = [0, 0, 64, 8];
    const OFF: [u32; 4] = [512, 0, 516, 8];

    /// What a sequence answers on a screen of two rows with room for so many commands, and the panels of its paint and of its layer attributes at the end.
    fn after(room: u32, calls: &[Call]) -> (Vec<u32>, Vec<u32>, Vec<u32>) {
        let calls = [&[reset(256, 8, room, 8)], calls].concat();
        let done = answers(&calls);
        let shown = answers(&[&calls[..], &[Call::Show]].concat())[done.len() + 1..].to_vec();
        let [paints, layers, filters] = [1, 2, 3].map(|at| shown[at] as usize);
        let (rest, _) = shown.split_at(shown.len() - 8 * filters);
        let (rest, own_layers) = rest.split_at(rest.len() - LAYER_ATTR * layers);
        let (_, own_paints) = rest.split_at(rest.len() - PAINT_ATTR * paints);
        let panels = |words: &[u32], size: usize| -> Vec<u32> {
            let records = words.chunks(size);
            records.map(|record| record[size - 1]).collect()
        };
        (
            done[1..].to_vec(),
            panels(own_paints, PAINT_ATTR),
            panels(own_layers, LAYER_ATTR),
        )
    }

    #[test]
    fn a_filter_fill_has_the_panel_that_it_is_given() {
        let calls = [
            of(1, push()),
            of(2, filter(5, ON)),
            pop(&[]),
            of(3, filter(0, ON)),
        ];
        assert_eq!(after(16, &calls), (vec![0; 4], vec![2, 3], vec![1]));
    }

    #[test]
    fn a_layer_closes_with_its_own_panel() {
        let calls = [
            of(1, push()),
            of(2, push()),
            of(3, alpha(0, 0, 4)),
            pop(&[]),
            of(4, push()),
            pop(&[]),
            pop(&[]),
        ];
        assert_eq!(after(16, &calls), (vec![0; 7], vec![3], vec![2, 4, 1]));
    }

    #[test]
    fn what_has_no_attribute_has_no_panel() {
        let calls = [
            of(1, fill(&[])),
            of(2, alpha(0, 0, 4)),
            of(3, filter(None, ON)),
            of(4, filter(5, OFF)),
            of(5, fill(&[solid(8_000, 0, 1)])),
        ];
        assert_eq!(after(16, &calls), (vec![0; 5], vec![2, 5], vec![]));
    }

    /// 4 comes before 5, 6, 8 and 10, also where nothing would be drawn; the last panel is good.
    #[test]
    fn refused_by_256() {
        assert!(good_panel(255) && !good_panel(256) && !good_panel(u32::MAX));
        let turned = [solid(0, 4, 8), solid(0, 0, 4)];
        for (call, number) in [
            (fill(&[]), 0),
            (fill(&turned), 5),
            (fill(&[solid(0, 0, 1), solid(0, 1, 2), solid(0, 2, 3)]), 10),
            (push(), 0),
            (filter(5, ON), 0),
            (filter(None, ON), 0),
            (filter(5, OFF), 0),
        ] {
            for (panel, answer) in [(255, number), (256, 4), (u32::MAX, 4)] {
                assert_eq!(after(2, &[of(panel, call.clone())]).0, [answer]);
            }
        }
        let mut deep: Vec<Call> = (0..16).map(|_| of(9, push())).collect();
        deep.extend([of(256, push()), of(255, push())]);
        assert_eq!(after(2, &deep).0[16..], [4, 6]);
        let spent = [
            Call::NextId(LAST_ID + 1),
            of(256, fill(&[])),
            of(255, fill(&[])),
        ];
        assert_eq!(after(2, &spent).0, [0, 4, 8]);
    }

    /// Neither for its panel nor at a limit.
    #[test]
    fn a_refused_step_changes_nothing() {
        let calls = [
            of(1, alpha(0, 0, 4)),
            of(2, alpha(0, 0, 4)),
            of(3, alpha(0, 0, 4)),
            of(256, push()),
            of(4, push()),
            of(256, alpha(1, 0, 4)),
            of(5, filter(5, ON)),
            pop(&[]),
            pop(&[]),
            of(6, alpha(1, 0, 4)),
        ];
        let answers = vec![0, 0, 10, 4, 0, 4, 10, 0, 7, 0];
        assert_eq!(after(2, &calls), (answers, vec![1, 2, 6], vec![4]));
    }

    #[test]
    fn a_reset_clears() {
        let before = [of(1, push()), of(2, alpha(0, 0, 4)), of(3, push())];
        let calls = [
            &before[..],
            &[reset(256, 8, 2, 8), pop(&[]), of(4, alpha(1, 0, 4))],
        ]
        .concat();
        assert_eq!(after(2, &calls), (vec![0, 0, 0, 0, 7, 0], vec![4], vec![]));
        // A refused one doesn't.
        let calls = [&before[..], &[reset(255, 8, 2, 8), pop(&[])]].concat();
        assert_eq!(after(2, &calls), (vec![0, 0, 0, 2, 0], vec![2], vec![3]));
    }

    #[test]
    fn a_piece_has_its_attributes_panel() {
        let words = u32::try_from(PIECE).expect("few");
        let step = || Call::Step { row: 0, words };
        let calls = [
            reset(256, 4, 8, 8),
            of(10, fill(&[solid(0, 32, 64)])),
            of(20, push()),
            of(30, alpha(0, 0, 4)),
            pop(&[]),
            Call::Begin,
            step(),
            step(),
            step(),
            step(),
        ];
        let said = answers(&calls);
        let steps: Vec<&[u32]> = said[6..].chunks(3 + PIECE).collect();
        assert_eq!(steps[0], [0, 0, 1, 1, 0, 32, 64, 0, 0, 10]);
        assert_eq!(steps[2], [0, 0, 1, 2, 1, 0, 4, 160, 1, 30]);
        // The layer is newer than the depth fill.
        assert_eq!(steps[3], [0, 0, 1, 3, 0, 0, 64, 0, 1, 20]);
    }

    /// A draw, and a layer that has the same draw in it.
    fn recording() -> Draft {
        let mut draft = Draft::new(256, 8);
        let range = draft.segments(&[solid(0, 0, 4)]);
        draft.draw(range);
        draft.nodes(&[[0, 1, 1], [0, 1, 0]]);
        let mut half = layer((1, 2));
        half[5] = HALF;
        draft.layer(half);
        let mut draft = draft.rooted((0, 1));
        (draft.draw_panels, draft.layer_panels) = (vec![7], vec![8]);
        draft
    }

    /// A draft's panels go through the original's steps, beside them; its walk of a file has none.
    #[test]
    fn the_original_hands_panels_out() {
        let draft = recording();
        let mut original = Original::new(&draft);
        original.reset();
        original.build(&steps(&draft));
        let mut panels = Vec::new();
        original.paint(|pieces| panels.extend(pieces.iter().map(|piece| piece.panel)));
        assert_eq!(panels, [7, 7, 8]);
        original.walk();
        panels.clear();
        original.paint(|pieces| panels.extend(pieces.iter().map(|piece| piece.panel)));
        assert_eq!(panels, [0; 3]);
    }

    /// A draft's panels go through the walk; a file has none.
    #[test]
    fn a_recording_has_the_panels_of_its_records() {
        let draft = recording();
        let mut player = Player::new(Mode::Exact, 1);
        player
            .play_scene(&scene(&draft, Mode::Exact))
            .expect("accepted");
        let own = Panels {
            open: vec![],
            paints: vec![7, 7],
            layers: vec![8],
        };
        assert_eq!(player.panels(), &own);
        let plain = rowdump(&mut player, &draft.bytes(), false);
        let with_panels = rowdump(&mut player, &draft.bytes(), true);
        let last = |line: &str| match line.split(' ').next() {
            Some("A" | "Y" | "p" | "l") => format!("{line} 0\n"),
            _ => format!("{line}\n"),
        };
        assert_eq!(with_panels, plain.lines().map(last).collect::<String>());
        assert_eq!(
            with_panels.lines().filter(|l| l.starts_with("A ")).count(),
            2
        );
    }
}
