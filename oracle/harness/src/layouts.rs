//! Random inputs of every call but the verdict: layouts that are accepted, nearly accepted or anything, and lists that fit or have one fault.

use crate::input::{Input, Layout, List};
use crate::random::{Random, STEPS};
use crate::reference::reach;
use crate::shapes;

type Axes = (List<u64>, List<i64>);

/// Extents below 6 with strides of a dense array.
fn dense(random: &mut Random, rank: usize) -> Axes {
    let mut extents = List::new();
    for _ in 0..rank {
        extents.push(random.between(1, if rank > 8 { 3 } else { 5 }));
    }
    let strides = dense_strides(random, extents.slice(), 30);
    (extents, strides)
}

/// Strides of a dense array in some order, some with gaps and some reversed; the first step has up to so many bits.
pub fn dense_strides(random: &mut Random, extents: &[u64], bits: u64) -> List<i64> {
    let rank = extents.len();
    let mut strides = List::of(&vec![0; rank]);
    let start = random.below(rank.max(1) as u64) as usize;
    let mut step = if random.once_in(4) { random.of_width(bits) as i64 } else { 1 };
    for place in 0..rank {
        let axis = (start + place) % rank;
        strides.items[axis] = if random.once_in(4) { step.wrapping_neg() } else { step };
        step = step.wrapping_mul(extents[axis] as i64);
        if random.once_in(4) {
            step = step.wrapping_add(random.below(4) as i64);
        }
    }
    strides
}

/// Small extents with strides of any width, so that spans come near the range.
fn wide(random: &mut Random, rank: usize) -> Axes {
    let (mut extents, mut strides) = (List::new(), List::new());
    for _ in 0..rank {
        extents.push(random.between(1, 4));
        let stride = random.of_width(if rank > 3 { 60 } else { 62 }) as i64;
        strides.push(if random.once_in(2) { -stride } else { stride });
    }
    (extents, strides)
}

/// Small strides that overlap, and stride 0 under any extent.
fn overlapping(random: &mut Random, rank: usize) -> Axes {
    let (mut extents, mut strides) = (List::new(), List::new());
    for _ in 0..rank {
        let fixed = random.once_in(3);
        extents.push(if fixed { random.extent().max(1) } else { random.between(1, 40) });
        strides.push(if fixed { 0 } else { random.below(11) as i64 - 5 });
    }
    (extents, strides)
}

fn anything(random: &mut Random, rank: usize) -> Axes {
    let (mut extents, mut strides) = (List::new(), List::new());
    for _ in 0..rank {
        extents.push(random.extent());
        strides.push(random.step());
    }
    (extents, strides)
}

/// Extents and strides; some with axes of extent 1 under any stride, some with a zero extent.
fn axes(random: &mut Random, rank: usize) -> Axes {
    let (mut extents, mut strides) = match random.below(10) {
        0..=3 => dense(random, rank),
        4 | 5 => wide(random, rank),
        6 | 7 => overlapping(random, rank),
        8 => anything(random, rank),
        _ => shapes::shape(random),
    };
    let rank = extents.len.min(strides.len).min(16);
    (extents.len, strides.len) = (rank, rank);
    if random.once_in(3) {
        for axis in 0..rank {
            if random.once_in(2) {
                extents.items[axis] = 1;
                strides.items[axis] = if random.once_in(2) { random.pick(&STEPS) } else { random.step() };
            }
        }
    }
    if rank > 0 && random.once_in(8) {
        let axis = random.below(rank as u64) as usize;
        extents.items[axis] = 0;
    }
    (extents, strides)
}

/// Length and offset that just hold the axes, or miss by one, or are anything.
pub fn placed(random: &mut Random, extents: &[u64], strides: &[i64]) -> (u64, i64) {
    let (low, high) = reach(extents, strides);
    let room = (1i128 << 63) - 1 - (high - low);
    if room < 0 || random.once_in(20) || extents.contains(&0) && random.once_in(2) {
        return (random.extent(), random.step());
    }
    let slack = match random.below(4) {
        0 | 1 => 0,
        2 => random.below(5) as i128,
        _ => room - random.below(2) as i128,
    };
    let offset = slack.clamp(0, room) - low;
    let len = match random.below(8) {
        0..=3 => offset + high + 1,
        4 | 5 => offset + high + 1 + random.below(5) as i128,
        6 => u64::MAX as i128 - random.below(2) as i128,
        _ => offset + high + random.below(2) as i128,
    };
    let offset = if random.once_in(25) { offset - slack - 1 } else { offset };
    (len.clamp(0, u64::MAX as i128) as u64, offset.clamp(i64::MIN as i128, i64::MAX as i128) as i64)
}

/// A layout, in one of 50 cases with a rank that no layout has.
pub fn layout(random: &mut Random) -> Layout {
    let rank = random.rank();
    let (extents, strides) = axes(random, rank);
    let (len, offset) = placed(random, extents.slice(), strides.slice());
    handed(random, len, offset, extents.slice(), strides.slice())
}

/// A layout with anything in the places past its rank, and in one of 50 cases with a rank that no layout has.
pub fn handed(random: &mut Random, len: u64, offset: i64, extents: &[u64], strides: &[i64]) -> Layout {
    let mut layout = Layout::of(len, offset, extents, strides);
    for place in extents.len()..16 {
        layout.extents[place] = random.word();
        layout.strides[place] = random.word() as i64;
    }
    if random.once_in(50) {
        layout.rank = if random.once_in(2) { 17 } else { random.of_width(64).max(17) };
    }
    layout
}

pub fn permute(random: &mut Random, layout: Layout) -> Input {
    let rank = layout.held();
    let mut axes = List::new();
    (0..rank as u64).for_each(|axis| axes.push(axis));
    for place in (1..rank).rev() {
        axes.items.swap(place, random.below(place as u64 + 1) as usize);
    }
    match random.below(8) {
        0 => axes.len = random.length(),
        1 if rank > 0 => axes.items[random.below(rank as u64) as usize] = axis(random, rank),
        2 if rank > 0 => axes.items[random.below(rank as u64) as usize] = random.below(rank as u64),
        _ => {}
    }
    Input::Permute { layout, axes }
}

/// An axis that may be outside the rank.
pub fn axis(random: &mut Random, rank: usize) -> u64 {
    match random.below(4) {
        0 => rank as u64,
        1 => rank as u64 + random.below(3),
        2 => random.pick(&[16, 17, 63, 64, 65, 1 << 16, 1 << 32, 1 << 63, u64::MAX]),
        _ => random.below(17),
    }
}

pub fn diagonal(random: &mut Random, layout: Layout) -> Input {
    let rank = layout.held();
    let mut pairs = List::new();
    let count = if random.once_in(8) { random.below(20) } else { random.below(rank.max(1) as u64 + 1).min(6) };
    for _ in 0..count {
        let fault = rank < 2 || random.once_in(24);
        let (one, other) = if fault {
            (axis(random, rank), axis(random, rank))
        } else {
            let one = random.below(rank as u64);
            (one, (one + random.between(1, rank as u64 - 1)) % rank as u64)
        };
        pairs.push(one);
        pairs.push(if random.once_in(40) { one } else { other });
    }
    if random.once_in(10) && pairs.len < 40 {
        pairs.push(random.below(20));
    }
    Input::Diagonal { layout, pairs }
}

pub fn broadcast(random: &mut Random, layout: Layout) -> Input {
    let mut target = List::of(layout.extents());
    for place in 0..target.len {
        if target.items[place] == 1 && random.once_in(2) {
            target.items[place] = if random.once_in(8) { 0 } else { random.extent() };
        }
    }
    match random.below(8) {
        0 => target.len = random.length(),
        1 if target.len > 0 => target.items[random.below(target.len as u64) as usize] = random.extent(),
        _ => {}
    }
    Input::Broadcast { layout, target }
}

/// Layouts for `offset`, empty ones too: there an index can be taken up to the zero extent, and products and sums can leave the range.
fn indexed(random: &mut Random) -> Layout {
    let mut layout = layout(random);
    let rank = layout.held();
    if rank > 1 && random.once_in(4) {
        for place in 0..rank - 1 {
            layout.extents[place] = random.extent().max(1);
            layout.strides[place] = random.step();
        }
        layout.extents[rank - 1] = 0;
        layout.offset = random.step();
    }
    layout
}

pub fn offset(random: &mut Random, layout: Layout) -> Input {
    let rank = layout.held();
    let mut index = List::new();
    for &extent in layout.extents() {
        let last = extent.saturating_sub(1);
        index.push(match random.below(8) {
            0..=3 => random.below(last + 1),
            4 | 5 => last,
            6 => last.min(1),
            _ => 0,
        });
    }
    match random.below(10) {
        0 => index.len = random.length(),
        1 if rank > 0 => {
            let place = random.below(rank as u64) as usize;
            index.items[place] = layout.extents[place].saturating_add(random.below(2));
        }
        2 if rank > 0 => index.items[random.below(rank as u64) as usize] = random.extent(),
        _ => {}
    }
    Input::Offset { layout, index }
}

/// Check-in: lists of unequal length or above 16 in one of 16 cases.
fn check_in(random: &mut Random) -> (u64, i64, List<u64>, List<i64>) {
    let rank = random.rank();
    let (mut extents, mut strides) = axes(random, rank);
    let (len, offset) = placed(random, extents.slice(), strides.slice());
    match random.below(32) {
        0 => extents.len = random.length(),
        1 => strides.len = random.length(),
        _ => {}
    }
    (len, offset, extents, strides)
}

fn extents(random: &mut Random) -> List<u64> {
    let mut extents = List::new();
    let count = if random.once_in(16) { random.length() } else { random.rank() };
    let bits = if count == 0 { 1 } else { (70 / count as u64).clamp(1, 64) };
    for _ in 0..count {
        extents.push(match random.below(24) {
            0 => random.extent(),
            1 => 0,
            _ => random.of_width(bits).max(1),
        });
    }
    extents
}

fn order(random: &mut Random) -> Input {
    let mut strides = List::new();
    let count = if random.once_in(16) { random.length() } else { random.rank() };
    (0..count).for_each(|_| strides.push(random.step()));
    let out = if random.once_in(10) { random.length() } else { count };
    Input::Order { strides, out }
}

/// An input of any call.
pub fn any(random: &mut Random) -> Input {
    match random.below(32) {
        0..=3 => {
            let (len, offset, extents, strides) = check_in(random);
            Input::Bounds { len, offset, extents, strides }
        }
        4..=7 => {
            let (len, offset, extents, strides) = check_in(random);
            Input::New { len, offset, extents, strides }
        }
        8..=10 => {
            let layout = layout(random);
            permute(random, layout)
        }
        11..=14 => {
            let layout = layout(random);
            diagonal(random, layout)
        }
        15..=17 => {
            let layout = layout(random);
            broadcast(random, layout)
        }
        18..=20 => {
            let layout = indexed(random);
            offset(random, layout)
        }
        21 => Input::Column { extents: extents(random) },
        22 => Input::Row { extents: extents(random) },
        23 => order(random),
        _ => shapes::injective(random),
    }
}
