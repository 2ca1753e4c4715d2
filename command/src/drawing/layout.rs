//! Places for boxes: in layers, each below all that it takes from, near to the middle of these. A wire that passes layers has a lane of
//! its own through each of them, so that no box hides it; the wires of one box share lanes.

use super::Edge;

#[derive(Clone, Copy, Debug, PartialEq, Eq)]
pub struct Box {
    pub x: usize,
    pub y: usize,
    pub width: usize,
    pub height: usize,
}

pub struct Layout {
    pub boxes: Vec<Box>,
    /// For each edge the lanes that it passes, from above.
    pub lanes: Vec<Vec<Box>>,
}

const GAP: usize = 20;
const LAYER_GAP: usize = 52;
const LANE_WIDTH: usize = 8;

impl Box {
    pub fn middle(&self) -> usize {
        self.x + self.width / 2
    }

    pub fn bottom(&self) -> usize {
        self.y + self.height
    }
}

/// The places of boxes with these widths and heights. An edge goes from a box to a later one.
pub fn layout(sizes: &[(usize, usize)], edges: &[Edge]) -> Layout {
    let mut rows = Rows::new(sizes, edges);
    rows.place();
    let lanes = edges.iter().map(|edge| rows.passed(edge).iter().map(|&lane| rows.items[lane]).collect()).collect();
    Layout { boxes: rows.items[..sizes.len()].to_vec(), lanes }
}

/// Boxes, and behind them lanes, in layers.
struct Rows {
    items: Vec<Box>,
    /// What each item hangs from, in the layer above.
    hangs_from: Vec<Vec<usize>>,
    layers: Vec<Vec<usize>>,
    depths: Vec<usize>,
    /// The lanes of each box, one for each layer below it.
    lanes: Vec<Vec<usize>>,
}

impl Rows {
    fn new(sizes: &[(usize, usize)], edges: &[Edge]) -> Rows {
        let depths = depths(sizes.len(), edges);
        let mut rows = Rows {
            items: sizes.iter().map(|&(width, height)| Box { x: 0, y: 0, width, height }).collect(),
            hangs_from: vec![Vec::new(); sizes.len()],
            layers: vec![Vec::new(); depths.iter().max().map_or(0, |depth| depth + 1)],
            lanes: vec![Vec::new(); sizes.len()],
            depths,
        };
        for (index, &depth) in rows.depths.iter().enumerate() {
            rows.layers[depth].push(index);
        }
        for edge in edges {
            rows.add_lanes(edge);
            let last = rows.passed(edge).last().copied().unwrap_or(edge.from);
            rows.hangs_from[edge.to].push(last);
        }
        rows
    }

    /// Makes the lanes that an edge needs and that are not there yet.
    fn add_lanes(&mut self, edge: &Edge) {
        let first = self.depths[edge.from] + 1;
        for layer in first + self.lanes[edge.from].len()..self.depths[edge.to] {
            let above = self.lanes[edge.from].last().copied().unwrap_or(edge.from);
            let lane = self.items.len();
            self.items.push(Box { x: 0, y: 0, width: LANE_WIDTH, height: 0 });
            self.hangs_from.push(vec![above]);
            self.layers[layer].push(lane);
            self.lanes[edge.from].push(lane);
        }
    }

    /// The lanes that an edge passes.
    fn passed(&self, edge: &Edge) -> &[usize] {
        let between = self.depths[edge.to] - self.depths[edge.from] - 1;
        &self.lanes[edge.from][..between]
    }

    fn place(&mut self) {
        let mut y = GAP;
        for mut layer in std::mem::take(&mut self.layers) {
            layer.sort_by_key(|&index| self.wanted_middle(index));
            let height = layer.iter().map(|&index| self.items[index].height).max().unwrap_or(0);
            let mut x = GAP;
            for index in layer {
                let wanted = self.wanted_middle(index).saturating_sub(self.items[index].width / 2);
                let item = &mut self.items[index];
                (item.x, item.y) = (x.max(wanted), y);
                if item.height == 0 {
                    item.height = height;
                }
                x = item.x + item.width + GAP;
            }
            y += height + LAYER_GAP;
        }
    }

    /// The middle of what an item hangs from.
    fn wanted_middle(&self, index: usize) -> usize {
        let above = &self.hangs_from[index];
        above.iter().map(|&item| self.items[item].middle()).sum::<usize>() / above.len().max(1)
    }
}

/// The layer of each box: one below the lowest that it takes from.
fn depths(count: usize, edges: &[Edge]) -> Vec<usize> {
    let mut depths = vec![0; count];
    for index in 0..count {
        let sources = edges.iter().filter(|edge| edge.to == index);
        depths[index] = sources.map(|edge| depths[edge.from] + 1).max().unwrap_or(0);
    }
    depths
}

#[cfg(test)]
mod tests {
    use super::{layout, Box};
    use crate::drawing::Edge;

    fn apart(one: &Box, other: &Box) -> bool {
        one.x + one.width <= other.x || other.x + other.width <= one.x || one.bottom() <= other.y || other.bottom() <= one.y
    }

    #[test]
    fn nothing_covers_anything() {
        let edges: Vec<Edge> = (1..40).flat_map(|to| [(to * 7 / 11, to), (to / 3, to), (0, to)]).map(|(from, to)| edge(from, to)).collect();
        let places = layout(&[(100, 40); 40], &edges);
        for (index, one) in places.boxes.iter().enumerate() {
            assert!(places.boxes[..index].iter().all(|other| apart(one, other)));
            assert!(places.lanes.iter().flatten().all(|lane| apart(one, lane)));
        }
        for edge in &edges {
            assert!(places.boxes[edge.from].bottom() < places.boxes[edge.to].y);
        }
    }

    fn edge(from: usize, to: usize) -> Edge {
        Edge { from, to, names: Vec::new() }
    }
}
