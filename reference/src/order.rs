//! The rules of an order: each call once, and after the calls whose identifiers it uses.

use crate::codes;
use crate::fault::Fault;
use crate::graph::Graph;

/// Refuses with the first fault of the order.
pub fn keep(graph: &Graph, order: &[u32]) -> Result<(), Fault> {
    if order.len() != graph.calls.len() {
        return Err(Fault::new(codes::ORDER_LENGTH, 0));
    }
    let uses = first_uses(graph);
    let mut placed = vec![false; order.len()];
    for (place, call) in order.iter().map(|call| *call as usize).enumerate() {
        let fault = |code| Err(Fault::new(code, place as u32));
        match placed.get(call) {
            None => return fault(codes::NO_CALL),
            Some(true) => return fault(codes::CALL_REPEATED),
            Some(false) => {}
        }
        let wires = &graph.wires[uses[call]..uses[call + 1]];
        if wires.iter().any(|[_, by]| !placed[*by as usize]) {
            return fault(codes::USE_TOO_EARLY);
        }
        placed[call] = true;
    }
    Ok(())
}

/// For each call the place of its first use among the wires, and behind them their number.
fn first_uses(graph: &Graph) -> Vec<usize> {
    let mut first = Vec::with_capacity(graph.calls.len() + 1);
    let mut next = 0;
    for [_, _, _, used] in &graph.calls {
        first.push(next);
        next += *used as usize;
    }
    first.push(next);
    first
}

#[cfg(test)]
mod tests {
    use crate::limits::WORK_WORDS;

    const LIST: &[u8] = b"fragment external(shape: extent[]) -> (output: tensor) \
        fragment add(x: tensor, y: tensor) -> (z: tensor)";
    const DOCUMENT: &[u8] = b"version 1.0 graph g(a) -> (z) \
        { a = external(shape = [1]) b = add(a, 1) c = add(a, a) z = add(c, b) }";

    #[test]
    fn first_fault_of_an_order() {
        let cases: [(&[u32], [u32; 4]); 13] = [
            (&[0, 1, 2, 3], [0, 0, 0, 4]),
            (&[0, 2, 1, 3], [0, 0, 0, 4]),
            (&[], [41, 0, 0, 0]),
            (&[9, 1, 2], [41, 0, 0, 0]),
            (&[0, 1, 2, 3, 3], [41, 0, 0, 0]),
            (&[0, 1, 4, 4], [42, 0, 2, 0]),
            (&[u32::MAX, 0, 1, 2], [42, 0, 0, 0]),
            (&[0, 1, 1, 9], [43, 0, 2, 0]),
            (&[0, 0, 3, 9], [43, 0, 1, 0]),
            (&[1, 0, 2, 3], [44, 0, 0, 0]),
            (&[0, 1, 3, 2], [44, 0, 2, 0]),
            (&[0, 3, 1, 1], [44, 0, 1, 0]),
            (&[3, 9, 9, 9], [44, 0, 0, 0]),
        ];
        for (order, answer) in cases {
            let mut work = [vec![7; WORK_WORDS], vec![7; WORK_WORDS]];
            let [list_work, document_work] = &mut work;
            let answered = crate::order(LIST, DOCUMENT, list_work, document_work, order);
            assert_eq!(answered.numbers(), answer, "{order:?}");
            assert!(work.concat().iter().all(|word| *word == 0));
        }
    }
}
