//! The calls that strided-rs does not have, by docs/RULES.md: normal form, record, reading, stepping over.

use crate::input::Layout;
use crate::reference::{accepted, judge, reach, Judged};
use crate::rust::{signed, unsigned};
use strided_view::is_injective_layout;

/// A refusal's number and its value.
pub type Refused = (u8, u64);

/// How many positions there are, if that is below 2^64.
pub fn positions(extents: &[u64]) -> Option<u64> {
    if extents.contains(&0) {
        return Some(0);
    }
    extents.iter().try_fold(1u64, |product, &extent| product.checked_mul(extent))
}

/// Fewer than 2^64 positions.
pub fn countable(extents: &[u64]) -> bool {
    positions(extents).is_some()
}

/// Axes of extent 1 dropped, then neighbours merged while there are any to merge.
fn merged(layout: &Layout) -> Vec<(u64, i64)> {
    let axes = layout.extents().iter().copied().zip(layout.strides().iter().copied());
    let mut axes: Vec<(u64, i64)> = axes.filter(|&(extent, _)| extent != 1).collect();
    let fits = |pair: &[(u64, i64)]| pair[1].1 as i128 == pair[0].0 as i128 * pair[0].1 as i128;
    while let Some(place) = axes.windows(2).position(fits) {
        axes[place].0 *= axes[place + 1].0;
        axes.remove(place + 1);
    }
    axes
}

pub fn normal_form(layout: &Layout) -> Result<Layout, Refused> {
    if layout.rank > 16 {
        return Err((1, 0));
    }
    if !accepted(layout) {
        return Err((3, 0));
    }
    if layout.extents().contains(&0) {
        return Ok(Layout::of(layout.len, 0, &[0], &[0]));
    }
    if !countable(layout.extents()) {
        return Err((8, 0));
    }
    let (extents, strides): (Vec<u64>, Vec<i64>) = merged(layout).into_iter().unzip();
    Ok(Layout::of(layout.len, layout.offset, &extents, &strides))
}

/// The verdict byte with enough scratch, and the words that it needs. Whether an enumeration finds positions apart is asked of strided-rs.
pub fn verdict(extents: &[u64], strides: &[i64]) -> (u8, u64) {
    match judge(extents, strides) {
        Judged::Distinct(_) => (1, 0),
        Judged::Repeated(_) => (2, 0),
        Judged::Undecided => (3, 0),
        Judged::Enumerated(words) => (if is_injective_layout(unsigned(extents), signed(strides)) { 1 } else { 2 }, words),
        Judged::Refused(number) => panic!("the verdict on an accepted layout is refused {number}"),
    }
}

fn bytes_of(normal: &Layout, verdict: u8) -> Vec<u8> {
    let mut bytes = vec![];
    bytes.extend((13 + 16 * normal.rank as u16).to_be_bytes());
    bytes.extend([1, verdict, normal.rank as u8]);
    bytes.extend(normal.offset.to_be_bytes());
    for (extent, stride) in normal.extents().iter().zip(normal.strides()) {
        bytes.extend(extent.to_be_bytes());
        bytes.extend(stride.to_be_bytes());
    }
    bytes
}

/// The record, if output and scratch are long enough.
pub fn write(layout: &Layout, room: usize, words: usize) -> Result<Vec<u8>, Refused> {
    let normal = normal_form(layout)?;
    let size = 13 + 16 * normal.rank;
    if (room as u64) < size {
        return Err((10, size));
    }
    let (verdict, needed) = verdict(normal.extents(), normal.strides());
    if (words as u64) < needed {
        return Err((9, needed));
    }
    Ok(bytes_of(&normal, verdict))
}

fn number<const N: usize>(bytes: &[u8], at: usize) -> [u8; N] {
    bytes[at..at + N].try_into().expect("N bytes")
}

/// The layout that the fields at the front hold, if they are a record but for its verdict's truth.
pub fn fields(bytes: &[u8]) -> Option<(Layout, u8)> {
    if bytes.len() < 13 {
        return None;
    }
    let (size, rank) = (u16::from_be_bytes(number(bytes, 0)) as usize, bytes[4] as usize);
    if bytes[2] != 1 || !(1..=3).contains(&bytes[3]) || rank > 16 || size != 13 + 16 * rank || size > bytes.len() {
        return None;
    }
    let axis = |place: usize| 13 + 16 * place;
    let extents: Vec<u64> = (0..rank).map(|place| u64::from_be_bytes(number(bytes, axis(place)))).collect();
    let strides: Vec<i64> = (0..rank).map(|place| i64::from_be_bytes(number(bytes, axis(place) + 8))).collect();
    let mut layout = Layout::of(0, i64::from_be_bytes(number(bytes, 5)), &extents, &strides);
    if !extents.contains(&0) {
        let (low, high) = reach(&extents, &strides);
        let (low, high) = (low + layout.offset as i128, high + layout.offset as i128);
        if low < 0 || high >= 1 << 63 || !countable(&extents) {
            return None;
        }
        layout.len = high as u64 + 1;
    }
    (normal_form(&layout) == Ok(layout)).then_some((layout, bytes[3]))
}

pub fn read(bytes: &[u8], words: usize) -> Result<Layout, Refused> {
    let (layout, said) = fields(bytes).ok_or((11, 0))?;
    let (verdict, needed) = verdict(layout.extents(), layout.strides());
    if (words as u64) < needed {
        return Err((9, needed));
    }
    if verdict != said {
        return Err((11, 0));
    }
    Ok(layout)
}

/// Where the bytes behind the record at the front begin.
pub fn step(bytes: &[u8]) -> usize {
    if bytes.len() < 2 {
        return bytes.len();
    }
    let size = u16::from_be_bytes(number(bytes, 0)) as usize;
    if size < 13 || size > bytes.len() {
        bytes.len()
    } else {
        size
    }
}
