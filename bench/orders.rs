//! Orders of the calls of a pair.

use crate::inputs::Pair;
use crate::library::{CALL_WORDS, WIRE_WORDS, WORK_WORDS};

/// A pair, and a right order of its calls.
pub struct Ordered {
    pub pair: Pair,
    pub order: Vec<u32>,
}

impl Ordered {
    /// A right order other than the document's own, where there is one. It is made
    /// from the end, each time by the call whose last user was put last.
    pub fn new(pair: Pair) -> Ordered {
        let needs = needs(&pair);
        let mut users = vec![0; needs.len()];
        needs.iter().flatten().for_each(|need| users[*need] += 1);
        let mut ready: Vec<usize> = (0..needs.len()).filter(|call| users[*call] == 0).collect();
        let mut order = Vec::new();
        while let Some(call) = ready.pop() {
            order.push(call as u32);
            for need in &needs[call] {
                users[*need] -= 1;
                if users[*need] == 0 {
                    ready.push(*need);
                }
            }
        }
        order.reverse();
        Ordered { pair, order }
    }
}

/// For each call the calls that assign what it uses.
fn needs(Pair { list, document }: &Pair) -> Vec<Vec<usize>> {
    let mut work = [vec![0; WORK_WORDS], vec![0; WORK_WORDS]];
    let [list_work, document_work] = &mut work;
    let (mut calls, mut wires) = (vec![0; CALL_WORDS], vec![0; WIRE_WORDS]);
    let (call_table, wire_table) = (&mut calls, &mut wires);
    let answer = nnef_reference::check(
        list,
        document,
        list_work,
        document_work,
        call_table,
        wire_table,
    );
    let mut wires = wires.chunks(2).map(|wire| wire[1] as usize);
    let calls = calls.chunks(4).take(answer.detail as usize);
    calls
        .map(|call| wires.by_ref().take(call[3] as usize).collect())
        .collect()
}
