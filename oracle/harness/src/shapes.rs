//! Random extents and strides for the verdict, aimed at each of its parts.

use crate::input::{Input, List};
use crate::random::Random;
use crate::reference::words_needed;

type Axes = (List<u64>, List<i64>);

fn of(axes: &[(u64, i64)]) -> Axes {
    let (mut extents, mut strides) = (List::new(), List::new());
    for &(extent, stride) in axes {
        extents.push(extent);
        strides.push(stride);
    }
    (extents, strides)
}

/// Few positions and small strides: every part is near.
fn small(random: &mut Random) -> Axes {
    let rank = random.between(0, 5);
    let reach = random.between(1, 30) as i64;
    let axes: Vec<_> = (0..rank).map(|_| (random.between(1, 6), random.below(2 * reach as u64 + 1) as i64 - reach)).collect();
    of(&axes)
}

/// Each stride just above the spans before it, or just not.
fn separated(random: &mut Random) -> Axes {
    let rank = random.rank();
    let mut axes = Vec::new();
    let mut span = 0i64;
    for _ in 0..rank {
        let extent = random.between(1, if rank > 8 { 4 } else { 12 });
        let stride = span + 1 + if random.once_in(3) { random.of_width(3) as i64 } else { 0 } - random.once_in(12) as i64;
        axes.push((extent, stride));
        span = span.saturating_add((extent as i64 - 1).saturating_mul(stride)).min(1 << 58);
    }
    of(&axes)
}

/// Nearly more positions than offsets.
fn crowded(random: &mut Random) -> Axes {
    let rank = random.between(2, 4);
    let extents: Vec<u64> = (0..rank).map(|_| random.between(2, 7)).collect();
    let total: u64 = extents.iter().product();
    let mean = total / extents.iter().map(|extent| extent - 1).sum::<u64>();
    let axes: Vec<_> = extents.iter().map(|&extent| (extent, random.between(1, 2 * mean + 2) as i64)).collect();
    of(&axes)
}

/// Two axes near s2/g = d1 or s1/g = d2, alone or under separated ones.
fn two_axes(random: &mut Random) -> Axes {
    let bits = random.between(2, 30);
    let (one, other) = (random.of_width(bits).max(1), random.of_width(bits).max(1));
    let g = random.of_width(62 - 2 * bits.min(28)).max(1);
    let near = |random: &mut Random, number: u64| (number + random.below(3)).saturating_sub(1).max(2);
    let (d1, d2) = (near(random, other), near(random, one));
    let d2 = if random.once_in(3) { random.of_width(bits) + 2 } else { d2 };
    let (s1, s2) = ((one * g) as i64, (other * g) as i64);
    let mut axes = vec![(d1, s1), (d2, s2)];
    let span = (d1 as i128 - 1) * s1 as i128 + (d2 as i128 - 1) * s2 as i128;
    if span < 1 << 60 && random.once_in(3) {
        axes.push((random.between(2, 3), span as i64 + 1));
    }
    of(&axes)
}

/// Three to eight axes whose strides are close, so that they interleave; two may be long.
fn searched(random: &mut Random) -> Axes {
    let others = random.between(1, 6);
    let most = [0, 40, 9, 5, 3, 3, 2][others as usize];
    let bits = random.between(3, 56);
    let base = random.of_width(bits).max(1);
    let spread = if random.once_in(2) { random.between(1, 12) } else { random.of_width(bits).max(1) };
    let g = if random.once_in(3) { random.between(2, 40) } else { 1 };
    let mut axes: Vec<_> = (0..others).map(|_| (random.between(2, most.max(2)), (base + random.below(spread)) as i64)).collect();
    let long = [(2, 6), (2, 6), (2, 60), (5000, 9000), (1 << 20, 1 << 24)][random.below(5) as usize];
    for _ in 0..2 {
        axes.push((random.between(long.0, long.1), ((base + random.below(spread)) / g + 1) as i64 * g as i64));
    }
    of(&axes)
}

/// Differences that nearly cancel: strides are sums of few numbers.
fn sums(random: &mut Random) -> Axes {
    let rank = random.between(3, 6);
    let bits = random.between(2, 50);
    let parts = [random.of_width(bits).max(1), random.of_width(bits).max(1), random.between(1, 3)];
    let stride = |random: &mut Random| {
        let sum: u64 = parts.iter().map(|part| part * random.below(4)).sum();
        sum.max(1) as i64
    };
    let axes: Vec<_> = (0..rank).map(|_| (random.between(2, 5), stride(random))).collect();
    of(&axes)
}

/// Spans near the range: the strides share 2^63 among them.
fn at_the_range(random: &mut Random) -> Axes {
    let rank = random.between(1, 5);
    let share = (1u64 << 63) / rank;
    let axes: Vec<_> = (0..rank)
        .map(|_| {
            let extent = random.between(2, 4);
            let bits = random.pick(&[3, 62]);
            let less = random.of_width(bits).min(share / 4);
            (extent, (share / (extent - 1)).saturating_sub(less) as i64)
        })
        .collect();
    of(&axes)
}

/// Half above the budget: Undecided, if the positions are many enough.
fn over_budget(random: &mut Random) -> Axes {
    let rank = random.between(12, 16);
    let base = random.of_width(28) + 2;
    let axes: Vec<_> = (0..rank).map(|_| (random.between(3, 7), (base + random.below(40)) as i64)).collect();
    of(&axes)
}

/// Few positions, half just above the budget: enumerated. Slow, so rare.
fn enumerated(random: &mut Random) -> Axes {
    let base = if random.once_in(2) { random.between(400, 4000) } else { random.of_width(40) + 4000 };
    let twos = random.between(0, 12);
    let threes = [12, 12, 11, 11, 10, 9, 9, 8, 7, 7, 6, 5, 4][twos as usize];
    let spread = random.of_width(24).max(200);
    let mut axes: Vec<_> = (0..threes).map(|_| (3, (base + random.below(spread)) as i64)).collect();
    (0..twos).for_each(|_| axes.push((2, (base + random.below(spread)) as i64)));
    axes.truncate(16);
    of(&axes)
}

/// The same with all positions apart: separated axes, and over them two that interleave but never meet.
fn enumerated_distinct(random: &mut Random) -> Axes {
    let (twos, threes, top) = random.pick(&[(0, 11, [(3, 2), (2, 3)]), (12, 2, [(3, 3), (3, 4)]), (4, 9, [(3, 5), (4, 3)]), (6, 8, [(3, 2), (2, 5)])]);
    let mut lower = [3; 16];
    lower[..twos].fill(2);
    let scale = random.pick(&[1, 1, 3, 70, 1000]);
    let mut axes = Vec::new();
    let mut step = scale;
    for place in 0..twos + threes {
        let other = random.between(place as u64, (twos + threes) as u64 - 1) as usize;
        lower.swap(place, other);
        axes.push((lower[place], step));
        step *= lower[place] as i64;
    }
    axes.extend(top.map(|(extent, factor)| (extent, factor * step)));
    let (extents, strides) = of(&axes);
    dressed(random, (extents, strides))
}

pub fn enumerated_any(random: &mut Random) -> Axes {
    if random.once_in(2) {
        enumerated(random)
    } else {
        enumerated_distinct(random)
    }
}

/// An enumeration that a few words of scratch are enough for, or nearly.
pub fn enumerable(random: &mut Random) -> Input {
    let (extents, strides) = enumerated_any(random);
    let needed = words_needed(extents.slice(), strides.slice()).unwrap_or(0);
    let words = if random.once_in(2) { needed } else { random.below(needed.clamp(1, 65_536)) };
    Input::Injective { extents, strides, words: words as usize }
}

/// A long search: half from thousands to the budget.
fn long_search(random: &mut Random, most: u64) -> Axes {
    let edge = random.between(8, most);
    let base = random.of_width(40) + 10_000;
    let g = if random.once_in(2) { random.between(2, 1000) } else { 1 };
    let mut axes: Vec<_> = (0..2).map(|_| (random.between(edge, edge + 4), (base + random.below(base)) as i64)).collect();
    (0..2).for_each(|_| axes.push((random.between(2 * edge, 1 << 20), ((base + random.below(base)) / g + 1) as i64 * g as i64)));
    of(&axes)
}

/// Signs, order, axes of extent 1 and a zero stride do not change the part that is aimed at, or end it early.
fn dressed(random: &mut Random, (mut extents, mut strides): Axes) -> Axes {
    if random.once_in(3) {
        while extents.len < 16 && random.once_in(2) {
            extents.push(1);
            strides.push(random.step());
        }
    }
    for place in (1..extents.len).rev() {
        let other = random.below(place as u64 + 1) as usize;
        extents.items.swap(place, other);
        strides.items.swap(place, other);
    }
    if random.once_in(2) {
        for place in 0..strides.len {
            if random.once_in(2) {
                strides.items[place] = strides.items[place].wrapping_neg();
            }
        }
    }
    if extents.len > 0 {
        let place = random.below(extents.len as u64) as usize;
        match random.below(60) {
            0 => strides.items[place] = 0,
            1 => extents.items[place] = 0,
            2 => extents.items[place] = random.extent(),
            3 => strides.items[place] = random.step(),
            _ => {}
        }
    }
    (extents, strides)
}

/// Extents and strides aimed at some part of the verdict.
pub fn shape(random: &mut Random) -> Axes {
    let axes = match random.below(64) {
        0..=11 => small(random),
        12..=19 => separated(random),
        20..=25 => crowded(random),
        26..=33 => two_axes(random),
        34..=45 => searched(random),
        46..=51 => sums(random),
        52..=55 => at_the_range(random),
        56..=58 => over_budget(random),
        _ => {
            let rank = random.rank();
            let axes: Vec<_> = (0..rank).map(|_| (random.extent(), random.step())).collect();
            of(&axes)
        }
    };
    dressed(random, axes)
}

/// The verdict, with scratch that is enough, short or none; a few inputs are slow on purpose.
pub fn injective(random: &mut Random) -> Input {
    let (mut extents, mut strides) = match random.below(100_000) {
        0 | 1 => long_search(random, 700),
        2..=11 => long_search(random, 40),
        12..=23 => enumerated_any(random),
        _ => shape(random),
    };
    match random.below(100) {
        0 => extents.len = random.length(),
        1 => strides.len = random.length(),
        _ => {}
    }
    let words = match words_needed(extents.slice(), strides.slice()) {
        Some(needed) if random.once_in(4) => random.below(needed),
        Some(needed) => needed + random.below(4),
        None => random.below(4),
    };
    Input::Injective { extents, strides, words: words as usize }
}
