//! The scenes that are timed, each as the records of a recording.

use coarse::Setup;
use oracle::generate::draft::{clipped, layer, solid, Draft};
use std::ops::Range;

pub(crate) struct Scene {
    pub(crate) name: &'static str,
    pub(crate) draft: Draft,
    /// Room for commands and for depth fills in a row.
    pub(crate) c: u32,
    pub(crate) d: u32,
    /// The rows of the one line that is repainted, where a scene has one.
    pub(crate) line: Range<usize>,
}

/// The program modules that draw: panels from 1 on.
const MODULES: u32 = 9;

/// So many records of the modules by turns.
fn panels(records: usize) -> Vec<u32> {
    (1..=MODULES).cycle().take(records).collect()
}

impl Scene {
    /// Draws and layers get their panels.
    fn new(name: &'static str, mut draft: Draft, c: u32, d: u32) -> Self {
        draft.draw_panels = panels(draft.draws.len());
        draft.layer_panels = panels(draft.layers.len());
        Self {
            name,
            draft,
            c,
            d,
            line: 0..0,
        }
    }

    /// At 128 pixels a bucket.
    pub(crate) fn setup(&self) -> Setup {
        Setup::new(self.c, self.d)
    }
}

/// Numbers that look random and are the same in every run.
struct Numbers(u32);

impl Numbers {
    fn below(&mut self, n: u32) -> u32 {
        self.0 = self.0.wrapping_mul(1_664_525).wrapping_add(1_013_904_223);
        (self.0 >> 8) % n
    }
}

pub(crate) fn all() -> Vec<Scene> {
    vec![
        banner(),
        wall(),
        text(),
        nested(),
        status(),
        small(),
        pages(),
        typed(),
    ]
}

/// The scenes that are timed at each width of a bucket.
pub(crate) fn of_widths() -> Vec<Scene> {
    vec![status(), wall(), pages()]
}

/// A status panel of 320 x 64: an opaque page, then 24 times a field of 18 to 41 tiles on four rows, and two lines of text in it.
fn status() -> Scene {
    let mut draft = Draft::new(320, 64);
    let mut numbers = Numbers(5);
    let page: Vec<_> = (0..16).map(|row| solid(row, 0, 80)).collect();
    let range = draft.segments(&page);
    draft.draw(range);
    for _ in 0..24 {
        let (row, first, width) = (
            4 * numbers.below(4),
            numbers.below(39),
            18 + numbers.below(24),
        );
        let field: Vec<_> = (row..row + 4)
            .map(|row| solid(row, first, first + width))
            .collect();
        let range = draft.segments(&field);
        draft.draw(range);
        let mut list = Vec::new();
        for row in row + 1..row + 3 {
            for letter in 0..width / 3 {
                let x = first + 3 * letter;
                list.push([1, row, x, x + 2, 16 * numbers.below(1_000_000)]);
            }
        }
        let range = draft.segments(&list);
        draft.draw(range);
    }
    finished("status panel", draft, 256, 64)
}

/// A page of 1,024 x 768 with 400 small opaque fills, four rows high.
fn banner() -> Scene {
    let mut draft = Draft::new(1_024, 768);
    let mut numbers = Numbers(1);
    for _ in 0..400 {
        let (row, first, width) = (
            numbers.below(188),
            numbers.below(200),
            6 + numbers.below(50),
        );
        let list: Vec<_> = (row..row + 4)
            .map(|row| solid(row, first, first + width))
            .collect();
        let range = draft.segments(&list);
        draft.draw(range);
    }
    finished("banner page", draft, 64, 64)
}

/// A page of 1,024 x 768 with 400 fills of one segment each, opaque or alpha by chance.
fn small() -> Scene {
    let mut draft = Draft::new(1_024, 768);
    let mut numbers = Numbers(6);
    for _ in 0..400 {
        let (row, first) = (numbers.below(192), numbers.below(200));
        let segment = if numbers.below(100) < 50 {
            solid(row, first, first + 6 + numbers.below(50))
        } else {
            let alpha = 16 * numbers.below(1_000_000);
            [1, row, first, first + 1 + numbers.below(4), alpha]
        };
        let range = draft.segments(&[segment]);
        draft.draw(range);
    }
    finished("small fills", draft, 64, 64)
}

/// A wall screen of 4,096 x 2,048 with 40 wide opaque panels.
fn wall() -> Scene {
    let mut draft = Draft::new(4_096, 2_048);
    let mut numbers = Numbers(2);
    for _ in 0..40 {
        let (row, first, width) = (
            numbers.below(384),
            numbers.below(400),
            300 + numbers.below(324),
        );
        let list: Vec<_> = (row..row + 128)
            .map(|row| solid(row, first, first + width))
            .collect();
        let range = draft.segments(&list);
        draft.draw(range);
    }
    finished("wall screen", draft, 64, 64)
}

/// A page of 1,920 x 1,080 with 4,000 alpha segments of one to four tiles: 100 lines of 40 over an opaque page.
fn text() -> Scene {
    let mut draft = Draft::new(1_920, 1_080);
    let mut numbers = Numbers(3);
    let page: Vec<_> = (0..270).map(|row| solid(row, 0, 480)).collect();
    let range = draft.segments(&page);
    draft.draw(range);
    for line in 0..100 {
        let mut list = Vec::new();
        for row in 2 * line..2 * line + 2 {
            let mut x = numbers.below(20);
            for _ in 0..20 {
                let width = 1 + numbers.below(4);
                list.push([1, row, x, x + width, 16 * numbers.below(1_000_000)]);
                x += width + numbers.below(18);
            }
        }
        let range = draft.segments(&list);
        draft.draw(range);
    }
    finished("text", draft, 64, 64)
}

/// The wall screen with four opaque pages one on the other, each over all of it, and 40 panels of its size on the last.
fn pages() -> Scene {
    let mut draft = Draft::new(4_096, 2_048);
    let mut numbers = Numbers(7);
    for _ in 0..4 {
        let page: Vec<_> = (0..512).map(|row| solid(row, 0, 1_024)).collect();
        let range = draft.segments(&page);
        draft.draw(range);
    }
    for _ in 0..40 {
        let (row, first, width) = (
            numbers.below(384),
            numbers.below(400),
            300 + numbers.below(324),
        );
        let list: Vec<_> = (row..row + 128)
            .map(|row| solid(row, first, first + width))
            .collect();
        let range = draft.segments(&list);
        draft.draw(range);
    }
    finished("wall of pages", draft, 64, 64)
}

/// A page of 1,920 x 1,080 full of text, 135 lines of 60 alpha segments on two rows each, of which the last one typed is repainted.
fn typed() -> Scene {
    let mut draft = Draft::new(1_920, 1_080);
    let mut numbers = Numbers(8);
    let page: Vec<_> = (0..270).map(|row| solid(row, 0, 480)).collect();
    let range = draft.segments(&page);
    draft.draw(range);
    for line in 0..135 {
        let mut list = Vec::new();
        for row in 2 * line..2 * line + 2 {
            let mut x = numbers.below(8);
            for _ in 0..30 {
                let width = 1 + numbers.below(4);
                list.push([1, row, x, x + width, 16 * numbers.below(1_000_000)]);
                x += width + numbers.below(12);
            }
        }
        let range = draft.segments(&list);
        draft.draw(range);
    }
    Scene {
        line: 268..270,
        ..finished("busy screen", draft, 64, 64)
    }
}

/// 16 layers, one in the other, each with a clip and two fills.
fn nested() -> Scene {
    let mut draft = Draft::new(1_024, 512);
    let mut numbers = Numbers(4);
    let mut inner = 0;
    for depth in (0..16).rev() {
        let (x, y) = (8 * depth, 2 * depth);
        let clip: Vec<_> = (y..128 - y)
            .map(|row| [1, row, x / 4, 256 - x / 4, 16 * 256 * row])
            .collect();
        let clip = draft.segments(&clip);
        let mut draws = (u32::MAX, 0);
        for _ in 0..2 {
            let row = y + numbers.below(20);
            let list: Vec<_> = (row..row + 60).map(|row| solid(row, 40, 220)).collect();
            let range = draft.segments(&list);
            let draw = draft.draw(range);
            draws = (draws.0.min(draw), draw + 1);
        }
        let node = draft.node(draws, inner);
        inner = draft.layer(clipped(
            layer(node),
            [4 * x, 4 * y, 1_024 - 4 * x, 512 - 4 * y],
            clip,
            0,
        ));
    }
    let root = draft.node((0, 0), inner);
    Scene::new("nested layers", draft.rooted(root), 256, 64)
}

/// All draws in order, in one node.
fn finished(name: &'static str, mut draft: Draft, c: u32, d: u32) -> Scene {
    let draws = u32::try_from(draft.draws.len()).expect("few draws");
    let root = draft.node((0, draws), 0);
    Scene::new(name, draft.rooted(root), c, d)
}
