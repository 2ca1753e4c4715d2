//! Random orders of a graph's calls, from right ones to noise.

use nnef_random::Rng;

/// For each call the calls that assign what it uses.
pub type Needs = Vec<Vec<usize>>;

type Maker = fn(&mut Rng, &Needs) -> Vec<u32>;

/// The sorts of order, with their names; some stand more than once to be picked more often.
pub const SORTS: &[(&str, Maker)] = &[
    ("right", right),
    ("right", right),
    ("right", right),
    ("shuffled", shuffled),
    ("one pair exchanged", one_pair_exchanged),
    ("one pair exchanged", one_pair_exchanged),
    ("one call moved", one_call_moved),
    ("repeats", repeats),
    ("repeats", repeats),
    ("out of range", out_of_range),
    ("out of range", out_of_range),
    ("another length", another_length),
    ("another length", another_length),
    ("several faults", several_faults),
];

/// Each call after those that it needs; of the calls that may come next any is taken.
pub fn right(rng: &mut Rng, needs: &Needs) -> Vec<u32> {
    let mut users = vec![Vec::new(); needs.len()];
    let mut missing: Vec<usize> = needs.iter().map(Vec::len).collect();
    for (call, needed) in needs.iter().enumerate() {
        needed.iter().for_each(|need| users[*need].push(call));
    }
    let mut ready: Vec<usize> = (0..needs.len())
        .filter(|call| missing[*call] == 0)
        .collect();
    let mut order = Vec::new();
    while !ready.is_empty() {
        let call = ready.swap_remove(rng.below(ready.len()));
        order.push(call as u32);
        for user in &users[call] {
            missing[*user] -= 1;
            if missing[*user] == 0 {
                ready.push(*user);
            }
        }
    }
    order
}

fn shuffled(rng: &mut Rng, needs: &Needs) -> Vec<u32> {
    let mut order: Vec<u32> = (0..needs.len() as u32).collect();
    rng.shuffle(&mut order);
    order
}

fn one_pair_exchanged(rng: &mut Rng, needs: &Needs) -> Vec<u32> {
    let mut order = right(rng, needs);
    exchange(rng, needs, &mut order);
    order
}

fn one_call_moved(rng: &mut Rng, needs: &Needs) -> Vec<u32> {
    let mut order = right(rng, needs);
    relocate(rng, needs, &mut order);
    order
}

fn repeats(rng: &mut Rng, needs: &Needs) -> Vec<u32> {
    let mut order = right(rng, needs);
    for _ in 0..rng.between(1, 3) {
        repeat(rng, needs, &mut order);
    }
    order
}

fn out_of_range(rng: &mut Rng, needs: &Needs) -> Vec<u32> {
    let mut order = right(rng, needs);
    for _ in 0..rng.between(1, 3) {
        put_beyond(rng, needs, &mut order);
    }
    order
}

fn another_length(rng: &mut Rng, needs: &Needs) -> Vec<u32> {
    let mut order = right(rng, needs);
    if rng.percent(30) {
        put_beyond(rng, needs, &mut order);
    }
    resize(rng, needs, &mut order);
    order
}

fn several_faults(rng: &mut Rng, needs: &Needs) -> Vec<u32> {
    let mut order = right(rng, needs);
    for _ in 0..rng.between(2, 5) {
        rng.pick(&[exchange, relocate, repeat, put_beyond])(rng, needs, &mut order);
    }
    if rng.percent(10) {
        resize(rng, needs, &mut order);
    }
    order
}

/// A place of the order, which is not empty.
fn place(rng: &mut Rng, order: &[u32]) -> usize {
    rng.below(order.len())
}

/// Exchanges two numbers: any two, neighbours, or a call and one that it needs.
fn exchange(rng: &mut Rng, needs: &Needs, order: &mut [u32]) {
    if order.is_empty() {
        return;
    }
    let one = place(rng, order);
    let other = match rng.below(4) {
        0 => place(rng, order),
        1 => one.saturating_sub(1),
        _ => match needs.get(order[one] as usize).map(Vec::as_slice) {
            None | Some([]) => place(rng, order),
            Some(needed) => {
                let need = rng.pick(needed) as u32;
                let found = order.iter().position(|call| *call == need);
                found.unwrap_or(one)
            }
        },
    };
    order.swap(one, other);
}

/// Takes a number out and puts it in elsewhere.
fn relocate(rng: &mut Rng, _: &Needs, order: &mut [u32]) {
    if order.is_empty() {
        return;
    }
    let (from, to) = (place(rng, order), place(rng, order));
    match from <= to {
        true => order[from..=to].rotate_left(1),
        false => order[to..=from].rotate_right(1),
    }
}

/// Puts the number of another place in the place of one.
fn repeat(rng: &mut Rng, _: &Needs, order: &mut [u32]) {
    if !order.is_empty() {
        order[place(rng, order)] = order[place(rng, order)];
    }
}

/// Puts a number that is no call in the place of one, mostly just beyond.
fn put_beyond(rng: &mut Rng, needs: &Needs, order: &mut [u32]) {
    if order.is_empty() {
        return;
    }
    let count = needs.len() as u32;
    let any = count + rng.below((u32::MAX - count) as usize) as u32;
    let near = count + rng.below(1_000) as u32;
    let beyond = [
        count,
        count,
        count + 1,
        near,
        any,
        1 << 16,
        1 << 31,
        u32::MAX,
    ];
    order[place(rng, order)] = rng.pick(&beyond);
}

/// Gives the order another length, often by one, seldom far greater.
fn resize(rng: &mut Rng, needs: &Needs, order: &mut Vec<u32>) {
    let count = needs.len();
    let length = match rng.below(10) {
        0 | 1 => 0,
        2 | 3 => count.saturating_sub(1),
        4 | 5 => count + 1,
        6 => rng.below(20_000),
        _ => rng.below(2 * count + 2),
    };
    order.truncate(length);
    while order.len() < length {
        let more = rng.below(count.max(1)) as u32;
        order.push(more);
    }
}
