//! How a viewport is read: exactly as it is given, or carried outward to tile edges first. Written from the rules in words (docs/RULES.md).

use crate::limits::{HIGHEST, LAST_PIXEL, WIDEST};
use crate::screen::Screen;
use vello_common::geometry::RectU16;

#[derive(Debug, Clone, Copy, PartialEq, Eq)]
pub enum Mode {
    /// The four numbers are multiples of 4.
    Exact,
    /// They may be any numbers; the limits are judged on the snapped box alone.
    Snapping,
}

impl Mode {
    /// The mode of a reset's word.
    pub(crate) fn of(word: u32) -> Option<Self> {
        match word {
            0 => Some(Self::Exact),
            1 => Some(Self::Snapping),
            _ => None,
        }
    }

    pub(crate) fn word(self) -> u32 {
        match self {
            Self::Exact => 0,
            Self::Snapping => 1,
        }
    }

    /// The box that a screen of this viewport holds, or none where a viewport rule fails.
    pub(crate) fn held(self, viewport: [u32; 4]) -> Option<[u32; 4]> {
        let carried = match self {
            Self::Exact if viewport.iter().any(|edge| edge % 4 != 0) => return None,
            Self::Exact => viewport.map(u64::from),
            Self::Snapping => snapped(viewport),
        };
        let [x0, y0, x1, y1] = carried;
        let [last, widest, highest] = [LAST_PIXEL, WIDEST, HIGHEST].map(u64::from);
        let good = x0 <= x1
            && y0 <= y1
            && x1 <= last
            && y1 <= last
            && x1 - x0 <= widest
            && y1 - y0 <= highest;
        good.then(|| carried.map(|edge| u32::try_from(edge).expect("at most 32,768")))
    }
}

/// Starts lowered to multiples of 4, ends raised to them.
pub(crate) fn snapped(viewport: [u32; 4]) -> [u64; 4] {
    let [x0, y0, x1, y1] = viewport.map(u64::from);
    let lowered = |edge: u64| edge - edge % 4;
    let raised = |edge: u64| edge.div_ceil(4) * 4;
    [lowered(x0), lowered(y0), raised(x1), raised(y1)]
}

/// A screen of the Rust that is new or reset must hold this box: as its viewport, as its clip box moved to (0, 0), and in rows.
pub(crate) fn must_hold(screen: &dyn Screen, held: RectU16) {
    let RectU16 { x0, y0, x1, y1 } = held;
    let own = (
        held,
        RectU16::new(0, 0, x1 - x0, y1 - y0),
        usize::from((y1 - y0) / 4),
    );
    let rusts = (screen.viewport(), screen.clip_box(), screen.rows());
    assert_eq!(rusts, own, "viewport, clip box and rows, the Rust's first");
}

#[cfg(test)]
mod tests {
    use super::{must_hold, snapped, Mode};
    use crate::scene::rect;
    use crate::width::Width;

    #[test]
    fn a_box_is_carried_outward() {
        for (viewport, held) in [
            ([0, 0, 1_366, 768], Some([0, 0, 1_368, 768])),
            ([1, 2, 1_367, 770], Some([0, 0, 1_368, 772])),
            ([4, 8, 12, 16], Some([4, 8, 12, 16])),
            ([7, 7, 5, 5], Some([4, 4, 8, 8])),
            ([5, 5, 3, 3], Some([4, 4, 4, 4])),
            ([9, 0, 3, 8], None),
            ([0, 9, 8, 3], None),
            ([3, 3, 4_096, 2_048], Some([0, 0, 4_096, 2_048])),
            ([0, 0, 4_097, 8], None),
            ([3, 0, 4_099, 8], None),
            ([0, 0, 8, 2_049], None),
            (
                [32_771, 32_771, 32_765, 32_768],
                Some([32_768, 32_768, 32_768, 32_768]),
            ),
            ([32_765, 0, 32_769, 8], None),
            ([0, 32_765, 8, 32_769], None),
            ([0, 0, u32::MAX, 8], None),
            ([u32::MAX; 4], None),
        ] {
            assert_eq!(Mode::Snapping.held(viewport), held, "{viewport:?}");
        }
        let last = u64::from(u32::MAX) + 1;
        assert_eq!(snapped([u32::MAX; 4]), [last - 4, last - 4, last, last]);
    }

    #[test]
    fn the_exact_mode_asks_for_multiples_of_4() {
        for (viewport, good) in [
            ([4, 8, 12, 16], true),
            ([0, 0, 1_368, 768], true),
            ([0, 0, 1_366, 768], false),
            ([1, 0, 8, 8], false),
            ([0, 2, 8, 8], false),
            ([0, 0, 8, 7], false),
            ([8, 0, 4, 8], false),
            ([0, 0, 4_100, 8], false),
            ([0, 0, 8, 2_052], false),
            ([32_764, 0, 32_772, 8], false),
        ] {
            let held = good.then_some(viewport);
            assert_eq!(Mode::Exact.held(viewport), held, "{viewport:?}");
        }
    }

    /// Every remainder of every side, in the scene's corners and where sides are reversed.
    #[test]
    fn the_rust_holds_the_snapped_box() {
        let mut screen = Width::Of128.screen(rect([0; 4]));
        for [x0, y0, x1, y1] in [
            [0, 0, 4, 4],
            [4, 8, 4, 8],
            [0, 0, 1_368, 768],
            [128, 12, 1_496, 140],
            [0, 0, 4_096, 2_048],
            [28_672, 30_720, 32_768, 32_768],
            [32_768; 4],
        ] {
            for by in 0..256 {
                let by = [0, 2, 4, 6].map(|at| by >> at & 3);
                let viewport = [x0 + by[0], y0 + by[1], x1 - by[2], y1 - by[3]];
                let held = Mode::Snapping.held(viewport);
                assert_eq!(held, Some([x0, y0, x1, y1]), "{viewport:?}");
                screen.reset(rect(viewport));
                must_hold(&*screen, rect([x0, y0, x1, y1]));
                must_hold(
                    &*Width::Of128.screen(rect(viewport)),
                    rect([x0, y0, x1, y1]),
                );
            }
        }
    }
}
