//! strided-rs's answer to an input, each result, error and panic as a number and values of docs/RULES.md.
//! Refusals that strided-rs cannot give come first: 1, and 3 for a layout that no constructor of strided-rs would have made.

use crate::input::{Answer, Given, Input, Layout, List};
use crate::reference::{accepted, judge, Judged};
use std::panic::{catch_unwind, AssertUnwindSafe};
use strided_view::auxiliary::index_order_into;
use strided_view::{is_injective_layout, KernelDType, Result, StrideVec, StridedError, StridedView};

pub fn unsigned(list: &[u64]) -> &[usize] {
    // SAFETY: both are 64 bits here.
    unsafe { std::slice::from_raw_parts(list.as_ptr().cast(), list.len()) }
}

pub fn signed(list: &[i64]) -> &[isize] {
    // SAFETY: both are 64 bits here.
    unsafe { std::slice::from_raw_parts(list.as_ptr().cast(), list.len()) }
}

/// A buffer of any length: its elements take no room.
pub fn buffer(len: u64) -> &'static [()] {
    // SAFETY: a slice of a zero-sized type has no bytes, whatever its length.
    unsafe { std::slice::from_raw_parts(std::ptr::NonNull::dangling().as_ptr(), len as usize) }
}

/// A view of strided-rs made without its check: an accepted layout that came of `broadcast` need not pass it.
pub fn view(layout: &Layout) -> StridedView<'static, ()> {
    // SAFETY: every offset of an accepted layout lies within its buffer; an element has no bytes.
    unsafe { StridedView::new_unchecked(buffer(layout.len), unsigned(layout.extents()), signed(layout.strides()), layout.offset as isize) }
}

fn layout_of(view: &StridedView<'static, ()>) -> Layout {
    let mut layout = Layout { len: view.data().len() as u64, offset: view.offset() as i64, rank: view.ndim() as u64, extents: [0; 16], strides: [0; 16] };
    for (place, (&extent, &stride)) in view.dims().iter().zip(view.strides()).enumerate() {
        layout.extents[place] = extent as u64;
        layout.strides[place] = stride as i64;
    }
    layout
}

/// 6 is not here: strided-rs's error does not name the axis.
fn refusal(error: StridedError) -> Answer {
    match error {
        StridedError::StrideLengthMismatch => Answer::refused(2),
        StridedError::OffsetOverflow => Answer::refused(3),
        StridedError::RankMismatch(first, second) => Answer::with(4, first as u64, second as u64),
        StridedError::InvalidAxis { axis, rank } => Answer::with(5, axis as u64, rank as u64),
        other => panic!("strided-rs answers {other}, which the rules have no number for"),
    }
}

fn viewed(result: Result<StridedView<'static, ()>>) -> Answer {
    match result {
        Ok(view) => Answer::done(Given::Layout(layout_of(&view))),
        Err(error) => refusal(error),
    }
}

/// 1, then 3, as a layout and a list handed to a call are refused.
pub fn handed(layout: &Layout, list: usize) -> Option<Answer> {
    if layout.rank > 16 || list > 16 {
        Some(Answer::refused(1))
    } else if !accepted(layout) {
        Some(Answer::refused(3))
    } else {
        None
    }
}

fn broadcast(layout: &Layout, target: &[u64]) -> Answer {
    match view(layout).broadcast(unsigned(target)) {
        Err(StridedError::ShapeMismatch(extents, wanted)) => {
            let wrong = extents.iter().zip(&wanted).position(|(&extent, &wanted)| extent != wanted && extent != 1);
            Answer::with(6, wrong.expect("a mismatch has an axis") as u64, 0)
        }
        result => viewed(result),
    }
}

fn indexed(layout: &Layout, index: &[u64]) -> Answer {
    let (extents, strides) = (layout.extents(), layout.strides());
    let call = || KernelDType::indexed_offset(unsigned(extents), signed(strides), unsigned(index), layout.offset as isize);
    match catch_unwind(AssertUnwindSafe(call)) {
        Ok(offset) => Answer::done(Given::Offset(offset as i64)),
        Err(thrown) => {
            let text = thrown.downcast_ref::<String>().map(String::as_str).or(thrown.downcast_ref::<&str>().copied());
            panicked(text.unwrap_or(""), extents, index)
        }
    }
}

/// A panic of `indexed_offset`, told by its message. It names no axis: the first index that is not below its extent must be the one it speaks of.
fn panicked(message: &str, extents: &[u64], index: &[u64]) -> Answer {
    let numbers: Vec<u64> = message.split(|c: char| !c.is_ascii_digit()).filter_map(|word| word.parse().ok()).collect();
    if message.contains("wrong number of indices") {
        Answer::with(4, numbers[0], numbers[1])
    } else if message.contains("out of bounds for dim") {
        let axis = index.iter().zip(extents).position(|(index, extent)| index >= extent).expect("an index is out of bounds");
        assert_eq!(numbers, [index[axis], extents[axis]], "strided-rs speaks of another axis: {message}");
        Answer::with(7, axis as u64, 0)
    } else if message.contains("index offset overflow") {
        Answer::refused(3)
    } else {
        panic!("strided-rs panics with {message}, which the rules have no number for")
    }
}

/// strided-rs says distinct or not; number, count and the words that the enumeration needs are the reference's, which must agree with it.
fn injective(extents: &[u64], strides: &[i64], words: usize) -> Answer {
    let judged = judge(extents, strides);
    if judged == Judged::Refused(1) {
        return Answer::refused(1);
    }
    if let Judged::Enumerated(needed) = judged {
        if (words as u64) < needed {
            return Answer::with(9, needed, 0);
        }
    }
    let distinct = is_injective_layout(unsigned(extents), signed(strides));
    let agree = match judged {
        Judged::Distinct(_) => distinct,
        Judged::Enumerated(_) => true,
        _ => !distinct,
    };
    assert!(agree, "the reference says {judged:?}, strided-rs {distinct}: {extents:?} {strides:?}");
    match judged {
        Judged::Refused(number) => Answer::refused(number),
        Judged::Distinct(count) => Answer::done(Given::Verdict(1, count)),
        Judged::Repeated(count) => Answer::done(Given::Verdict(2, count)),
        Judged::Undecided => Answer::done(Given::Verdict(3, 0)),
        Judged::Enumerated(_) => Answer::done(Given::Verdict(if distinct { 1 } else { 2 }, 0)),
    }
}

fn dense(extents: &[u64], call: fn(&[usize]) -> Result<StrideVec>) -> Answer {
    if extents.len() > 16 {
        return Answer::refused(1);
    }
    match call(unsigned(extents)) {
        Ok(strides) => {
            let mut list = List::new();
            strides.iter().for_each(|&stride| list.push(stride as i64));
            Answer::done(Given::Strides(list))
        }
        Err(error) => refusal(error),
    }
}

fn order(strides: &[i64], out: usize) -> Answer {
    if strides.len() > 16 {
        return Answer::refused(1);
    }
    let mut places = [0usize; 40];
    match index_order_into(signed(strides), &mut places[..out]) {
        Ok(()) => Answer::done(Given::Order(List::of(&places.map(|place| place as u64)[..out]))),
        Err(error) => refusal(error),
    }
}

/// Pairs as flat numbers, any number of them.
pub fn diagonal(layout: &Layout, flat: &[u64]) -> Answer {
    let pairs: Vec<(usize, usize)> = flat.chunks_exact(2).map(|pair| (pair[0] as usize, pair[1] as usize)).collect();
    viewed(view(layout).diagonal_view(&pairs))
}

pub fn answer(input: &Input) -> Answer {
    match input {
        Input::Bounds { extents, strides, .. } | Input::New { extents, strides, .. } if extents.len > 16 || strides.len > 16 => Answer::refused(1),
        Input::Bounds { len, offset, extents, strides } => {
            match KernelDType::validate_bounds(*len as usize, unsigned(extents.slice()), signed(strides.slice()), *offset as isize) {
                Ok(()) => Answer::done(Given::Nothing),
                Err(error) => refusal(error),
            }
        }
        Input::New { len, offset, extents, strides } => {
            viewed(StridedView::new(buffer(*len), unsigned(extents.slice()), signed(strides.slice()), *offset as isize))
        }
        Input::Permute { layout, axes } => {
            handed(layout, axes.len).unwrap_or_else(|| viewed(view(layout).permute(unsigned(axes.slice()))))
        }
        Input::Diagonal { layout, pairs } => handed(layout, 0).unwrap_or_else(|| diagonal(layout, pairs.slice())),
        Input::Broadcast { layout, target } => handed(layout, target.len).unwrap_or_else(|| broadcast(layout, target.slice())),
        Input::Offset { layout, index } => handed(layout, index.len).unwrap_or_else(|| indexed(layout, index.slice())),
        Input::Injective { extents, strides, words } => injective(extents.slice(), strides.slice(), *words),
        Input::Order { strides, out } => order(strides.slice(), *out),
        Input::Column { extents } => dense(extents.slice(), KernelDType::checked_col_major_strides),
        Input::Row { extents } => dense(extents.slice(), KernelDType::checked_row_major_strides),
    }
}

/// Whether strided-rs itself was asked: refusals that it cannot give come before it.
pub fn asked(input: &Input) -> bool {
    match input {
        Input::Bounds { extents, strides, .. } | Input::New { extents, strides, .. } => extents.len <= 16 && strides.len <= 16,
        Input::Permute { layout, axes } => handed(layout, axes.len).is_none(),
        Input::Diagonal { layout, .. } => handed(layout, 0).is_none(),
        Input::Broadcast { layout, target } => handed(layout, target.len).is_none(),
        Input::Offset { layout, index } => handed(layout, index.len).is_none(),
        Input::Injective { extents, strides, .. } => extents.len <= 16 && strides.len <= 16,
        Input::Order { strides, .. } => strides.len <= 16,
        Input::Column { extents } | Input::Row { extents } => extents.len <= 16,
    }
}
