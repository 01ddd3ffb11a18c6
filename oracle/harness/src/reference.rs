//! The rules (docs/RULES.md) once more, as plain Rust over 128-bit numbers: what strided-rs has no answer for (the accepted test, refusal numbers, the count, words needed).

use crate::input::Layout;
use strided_view::KernelDType;

/// The sums of negative and of positive spans of the active axes; a span counts as 2^65 at most, which passes every bound.
pub fn reach(extents: &[u64], strides: &[i64]) -> (i128, i128) {
    let (mut low, mut high) = (0i128, 0i128);
    for (&extent, &stride) in extents.iter().zip(strides) {
        if extent > 1 {
            let span = ((extent - 1) as i128 * stride as i128).clamp(-(1 << 65), 1 << 65);
            low += span.min(0);
            high += span.max(0);
        }
    }
    (low, high)
}

/// Whether a layout is accepted, for a rank of at most 16.
pub fn accepted(layout: &Layout) -> bool {
    if layout.extents().contains(&0) {
        return true;
    }
    let (low, high) = reach(layout.extents(), layout.strides());
    let (low, high) = (low + layout.offset as i128, high + layout.offset as i128);
    low >= 0 && high < 1 << 63 && high < layout.len as i128
}

/// The positions of an accepted layout in their order, each as its index vector (places past the rank are 0) and its offset.
pub struct Positions<'a> {
    layout: &'a Layout,
    next: Option<[u64; 16]>,
}

impl Positions<'_> {
    pub fn of(layout: &Layout) -> Positions<'_> {
        let is_empty = layout.extents().contains(&0);
        Positions { layout, next: (!is_empty).then_some([0; 16]) }
    }
}

impl Iterator for Positions<'_> {
    type Item = ([u64; 16], i128);

    fn next(&mut self) -> Option<([u64; 16], i128)> {
        let index = self.next?;
        let steps = index.iter().zip(self.layout.strides()).map(|(&place, &stride)| place as i128 * stride as i128);
        let offset = self.layout.offset as i128 + steps.sum::<i128>();
        self.next = following(index, self.layout.extents());
        Some((index, offset))
    }
}

/// The index vector behind another, axis 0 the fastest; none behind the last.
fn following(mut index: [u64; 16], extents: &[u64]) -> Option<[u64; 16]> {
    for (place, &extent) in index.iter_mut().zip(extents) {
        *place += 1;
        if *place < extent {
            return Some(index);
        }
        *place = 0;
    }
    None
}

/// What the rules say of extents and strides.
#[derive(Clone, Copy, PartialEq, Debug)]
pub enum Judged {
    Refused(u8),
    Distinct(u64),
    Repeated(u64),
    Undecided,
    /// The block is enumerated, with so many words of scratch.
    Enumerated(u64),
}

#[derive(Clone, Copy)]
struct Axis {
    place: usize,
    extent: u128,
    stride: u128,
}

impl Axis {
    fn span(&self) -> u128 {
        (self.extent - 1) * self.stride
    }
}

/// Judged before the search, or what is to be searched: the two set apart, the others, half.
enum Plan {
    Judged(Judged),
    Search(Vec<Axis>, Vec<Axis>, u64),
}

/// The verdict by its parts, without the enumeration itself.
pub fn judge(extents: &[u64], strides: &[i64]) -> Judged {
    match plan(extents, strides) {
        Plan::Judged(judged) => judged,
        Plan::Search(two, others, half) => search(&two, &others, half),
    }
}

/// The search's answer once more, with the differences in the order of strided-rs's own walk.
pub fn judge_by_rust_walk(extents: &[u64], strides: &[i64]) -> Option<Judged> {
    let Plan::Search(two, others, half) = plan(extents, strides) else {
        return None;
    };
    if collide_alone(&two[0], &two[1]) {
        return Some(Judged::Repeated(0));
    }
    let completion = Completion::new(&two[0], &two[1]);
    let axes: Vec<_> = others.iter().map(|axis| (axis.extent as u64 - 1, axis.stride as u64)).collect();
    Some(match KernelDType::place(&axes, |r| completion.completes(r)) {
        0 => Judged::Distinct(half),
        place => Judged::Repeated(place),
    })
}

/// The words of scratch that the enumeration needs, if it is reached; fewer than 8 axes never reach it.
pub fn words_needed(extents: &[u64], strides: &[i64]) -> Option<u64> {
    if extents.len() < 8 {
        return None;
    }
    match plan(extents, strides) {
        Plan::Judged(Judged::Enumerated(words)) => Some(words),
        _ => None,
    }
}

/// How many difference vectors or positions a verdict looks at, at most.
pub fn cost(extents: &[u64], strides: &[i64]) -> u64 {
    match plan(extents, strides) {
        Plan::Search(_, _, half) => half,
        Plan::Judged(Judged::Enumerated(_)) => 16_777_216.min(extents.iter().product()),
        Plan::Judged(_) => 0,
    }
}

/// The inputs.
fn refused(extents: &[u64], strides: &[i64]) -> Option<Judged> {
    if extents.len() > 16 || strides.len() > 16 {
        return Some(Judged::Refused(1));
    }
    if extents.len() != strides.len() {
        return Some(Judged::Refused(2));
    }
    if extents.contains(&0) {
        return Some(Judged::Distinct(0));
    }
    let Some(positions) = extents.iter().try_fold(1u64, |product, &extent| product.checked_mul(extent)) else {
        return Some(Judged::Refused(8));
    };
    if positions == 1 {
        return Some(Judged::Distinct(0));
    }
    let active = || extents.iter().zip(strides).filter(|(&extent, _)| extent > 1);
    if active().any(|(_, &stride)| stride == 0) {
        return Some(Judged::Repeated(0));
    }
    let (low, high) = reach(extents, strides);
    let half_range = 1i128 << 63;
    if active().any(|(&extent, &stride)| extent as i128 - 1 >= half_range || stride == i64::MIN) || low < -half_range || high >= half_range {
        return Some(Judged::Refused(3));
    }
    None
}

/// From the block on.
fn plan(extents: &[u64], strides: &[i64]) -> Plan {
    if let Some(judged) = refused(extents, strides) {
        return Plan::Judged(judged);
    }
    let mut axes = Vec::with_capacity(16);
    for (place, (&extent, &stride)) in extents.iter().zip(strides).enumerate() {
        if extent > 1 {
            axes.push(Axis { place, extent: extent as u128, stride: stride.unsigned_abs() as u128 });
        }
    }
    axes.sort_by_key(|axis| (axis.stride, axis.place));
    let (mut before, mut end) = (0, 0);
    for (number, axis) in axes.iter().enumerate() {
        if axis.stride <= before {
            end = number + 1;
        }
        before += axis.span();
    }
    axes.truncate(end);
    if axes.is_empty() {
        return Plan::Judged(Judged::Distinct(0));
    }
    let total: u128 = axes.iter().map(|axis| axis.extent).product();
    let span: u128 = axes.iter().map(Axis::span).sum();
    if total - 1 > span {
        return Plan::Judged(Judged::Repeated(0));
    }
    if axes.len() == 2 {
        return Plan::Judged(if collide_alone(&axes[0], &axes[1]) { Judged::Repeated(0) } else { Judged::Distinct(0) });
    }
    by_budget(axes, total, span)
}

/// The two longest axes set apart, then the two budgets.
fn by_budget(mut axes: Vec<Axis>, total: u128, span: u128) -> Plan {
    axes.sort_by_key(|axis| (u128::MAX - axis.extent, axis.place));
    let mut others = axes.split_off(2);
    others.sort_by_key(|axis| axis.place);
    let product = others.iter().try_fold(1u128, |product, axis| product.checked_mul(2 * axis.extent - 1));
    match product {
        Some(product) if (product - 1) / 2 <= 4_194_304 => Plan::Search(axes, others, ((product - 1) / 2) as u64),
        _ if total <= 16_777_216 => Plan::Judged(Judged::Enumerated(if span / 64 <= total { span / 64 + 1 } else { total } as u64)),
        _ => Plan::Judged(Judged::Undecided),
    }
}

fn gcd(a: u128, b: u128) -> u128 {
    if b == 0 {
        a
    } else {
        gcd(b, a % b)
    }
}

/// Whether some nonzero pair of differences of two axes sums to 0.
fn collide_alone(one: &Axis, other: &Axis) -> bool {
    let g = gcd(one.stride, other.stride);
    other.stride / g < one.extent && one.stride / g < other.extent
}

/// The search: the differences of `others` in the rules' order, the first that the two complete.
fn search(two: &[Axis], others: &[Axis], half: u64) -> Judged {
    if collide_alone(&two[0], &two[1]) {
        return Judged::Repeated(0);
    }
    let completion = Completion::new(&two[0], &two[1]);
    // Digits begin at the middle: the zero difference.
    let mut digits: Vec<u128> = others.iter().map(|axis| axis.extent - 1).collect();
    let mut sum = 0i128;
    for place in 1..=half {
        for (digit, axis) in digits.iter_mut().zip(others) {
            let last = 2 * (axis.extent - 1);
            if *digit < last {
                *digit += 1;
                sum += axis.stride as i128;
                break;
            }
            *digit = 0;
            sum -= (last * axis.stride) as i128;
        }
        if completion.completes(sum) {
            return Judged::Repeated(place);
        }
    }
    Judged::Distinct(half)
}

/// Whether x·A + y·B = r has a solution with |x| ≤ X, |y| ≤ Y.
struct Completion {
    a: i128,
    b: i128,
    x: i128,
    y: i128,
    g: i128,
    inverse: i128,
}

impl Completion {
    /// The axis with fewer differences is tried out.
    fn new(one: &Axis, other: &Axis) -> Completion {
        let (few, many) = if one.extent < other.extent { (one, other) } else { (other, one) };
        let (a, b) = (few.stride as i128, many.stride as i128);
        let g = gcd(few.stride, many.stride) as i128;
        Completion { a, b, x: few.extent as i128 - 1, y: many.extent as i128 - 1, g, inverse: inverse(a / g, b / g) }
    }

    fn completes(&self, r: i128) -> bool {
        if r % self.g != 0 || r.abs() > self.x * self.a + self.y * self.b {
            return false;
        }
        let fits = |x: i128| (r - x * self.a) % self.b == 0 && ((r - x * self.a) / self.b).abs() <= self.y;
        if self.x <= 12 {
            return (-self.x..=self.x).any(fits);
        }
        // The x that fit are one residue modulo B/g; of those from the least on that keeps |y| ≤ Y the first is the best.
        let modulus = self.b / self.g;
        let residue = (r / self.g).rem_euclid(modulus) * self.inverse % modulus;
        let least = (r - self.y * self.b).div_euclid(self.a).max(-self.x);
        let first = least + (residue - least).rem_euclid(modulus);
        [first, first + modulus].into_iter().any(|x| x.abs() <= self.x && fits(x))
    }
}

/// The inverse of `a` modulo `m`, both above 0 and coprime.
fn inverse(a: i128, m: i128) -> i128 {
    let (mut old, mut new) = ((a, 1i128), (m, 0i128));
    while new.0 != 0 {
        let q = old.0 / new.0;
        (old, new) = (new, (old.0 - q * new.0, old.1 - q * new.1));
    }
    old.1.rem_euclid(m)
}
