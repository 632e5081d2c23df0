//! The building steps that a recording's walk takes.

use crate::generate::draft::Draft;

#[derive(Clone, Copy)]
pub enum Step {
    Fill(usize),
    Push(usize),
    Pop,
}

pub fn steps(draft: &Draft) -> Vec<Step> {
    let mut steps = Vec::new();
    nodes(draft, draft.root[0], draft.root[1], &mut steps);
    steps
}

fn nodes(draft: &Draft, start: u32, end: u32, steps: &mut Vec<Step>) {
    for node in &draft.nodes[start as usize..end as usize] {
        steps.extend((node[0]..node[1]).map(|i| Step::Fill(i as usize)));
        if node[2] != 0 {
            let layer = node[2] as usize - 1;
            steps.push(Step::Push(layer));
            nodes(draft, draft.layers[layer][1], draft.layers[layer][2], steps);
            steps.push(Step::Pop);
        }
    }
}
