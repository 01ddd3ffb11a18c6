//! Our library's answer to an input, with every word that it was lent looked at afterwards.

use crate::input::{Answer, Given, Input, Layout, List, VALUES};
use crate::ours::{self, *};
use crate::reference::words_needed;
use std::mem::offset_of;

/// What lent memory holds where nothing was put.
const PATTERN: u64 = 0xa5c3_96e1_d00d_beef;

// Areas of the lent words; each ends in words past what is handed over.
const LAYOUT: usize = 0;
const VALUES_AT: usize = 40;
const FOUND: usize = 48;
const PLACE: usize = 56;
const OUT: usize = 64;
const FIRST: usize = 112;
const SECOND: usize = 160;
pub const WORDS: usize = 208;

/// The words of a layout before its axes; each axis has two.
const HEAD: usize = offset_of!(ours::Layout, axes) / 8;

/// A wrong answer made up after the call, to see that it is noticed.
#[derive(Clone, Copy, PartialEq, Debug)]
pub enum Fault {
    None,
    Number,
    Word(usize),
    Scratch,
}

/// A call that takes a layout and a list and leaves a layout.
type View = unsafe extern "C" fn(*mut ours::Layout, *const u64, usize, *mut Values) -> u8;

pub struct Lent {
    words: [u64; WORDS],
    /// What the words should hold after the call.
    image: [u64; WORDS],
    scratch: Vec<u64>,
    pub fault: Fault,
}

impl Default for Lent {
    fn default() -> Lent {
        Lent { words: [PATTERN; WORDS], image: [PATTERN; WORDS], scratch: vec![PATTERN; 16], fault: Fault::None }
    }
}

impl Lent {
    fn put(&mut self, at: usize, words: &[u64]) {
        self.words[at..at + words.len()].copy_from_slice(words);
    }

    fn put_signed(&mut self, at: usize, words: &[i64]) {
        words.iter().enumerate().for_each(|(place, &word)| self.words[at + place] = word as u64);
    }

    fn put_layout(&mut self, layout: &Layout) {
        // SAFETY: the area has the words of a layout.
        unsafe { self.layout_at().write(layout.into()) };
    }

    fn put_axes(&mut self, at: usize, extents: &[u64], strides: &[i64]) {
        for (place, axis) in ours::axes(extents, strides).enumerate() {
            self.put(at + 2 * place, &[axis.extent, axis.stride as u64]);
        }
    }

    /// Where something lies, with all words behind it.
    fn at<T>(&mut self, area: usize) -> *mut T {
        self.words[area..].as_mut_ptr().cast()
    }

    fn layout_at(&mut self) -> *mut ours::Layout {
        self.at(LAYOUT)
    }

    fn values_at(&mut self) -> *mut Values {
        self.at(VALUES_AT)
    }

    /// These words may have changed.
    fn allow(&mut self, from: usize, count: usize) {
        self.image[from..from + count].copy_from_slice(&self.words[from..from + count]);
    }

    fn layout(&mut self) -> Layout {
        // SAFETY: the area has the words of a layout, and any words are one.
        Layout::from(unsafe { &*self.layout_at() })
    }

    /// Calls with the words as they are, makes the fault up, and takes the answer: on 0 from the `given` words, else from the values.
    fn call(&mut self, call: impl FnOnce(&mut Lent) -> u8, given: impl FnOnce(&mut Lent) -> Given) -> Answer {
        self.image = self.words;
        let mut number = call(self);
        match self.fault {
            Fault::Number => number ^= 1,
            Fault::Word(place) => self.words[place] ^= 1,
            _ => {}
        }
        if number == 0 {
            return Answer::done(given(self));
        }
        let count = VALUES.get(number as usize).copied().unwrap_or(0);
        self.allow(VALUES_AT, count);
        let mut answer = Answer::refused(number);
        answer.values[..count].copy_from_slice(&self.words[VALUES_AT..VALUES_AT + count]);
        answer
    }

    fn view(&mut self, layout: &Layout, list: &List<u64>, call: View) -> Answer {
        self.put_layout(layout);
        self.put(FIRST, list.slice());
        let len = list.len;
        // SAFETY: each pointer has what it is handed over for in `self.words`.
        let run = |lent: &mut Lent| unsafe { call(lent.layout_at(), lent.at(FIRST), len, lent.values_at()) };
        self.call(run, Lent::given_layout)
    }

    /// The layout made; the places past its rank must be as they were.
    fn given_layout(&mut self) -> Given {
        let layout = self.layout();
        self.allow(LAYOUT, HEAD + 2 * layout.held());
        Given::Layout(layout)
    }

    fn put_lists(&mut self, extents: &List<u64>, strides: &List<i64>) {
        self.put(FIRST, extents.slice());
        self.put_signed(SECOND, strides.slice());
    }

    fn indexed(&mut self, layout: &Layout, index: &List<u64>) -> Answer {
        self.put_layout(layout);
        self.put(FIRST, index.slice());
        let len = index.len;
        // SAFETY: as above.
        let run = |lent: &mut Lent| unsafe {
            strided_indexed_offset(lent.layout_at(), lent.at(FIRST), len, lent.at(PLACE), lent.values_at())
        };
        self.call(run, |lent| {
            lent.allow(PLACE, 1);
            Given::Offset(lent.words[PLACE] as i64)
        })
    }

    fn dense(&mut self, extents: &List<u64>, call: unsafe extern "C" fn(*const u64, usize, *mut i64, usize) -> u8) -> Answer {
        self.put(FIRST, extents.slice());
        let len = extents.len;
        // SAFETY: as above.
        let run = |lent: &mut Lent| unsafe { call(lent.at(FIRST), len, lent.at(OUT), len) };
        self.call(run, |lent| {
            lent.allow(OUT, len);
            let mut strides = List::new();
            (0..len).for_each(|place| strides.push(lent.words[OUT + place] as i64));
            Given::Strides(strides)
        })
    }

    fn order(&mut self, strides: &List<i64>, out: usize) -> Answer {
        self.put_signed(SECOND, strides.slice());
        let len = strides.len;
        // SAFETY: as above.
        let run = |lent: &mut Lent| unsafe { strided_index_order(lent.at(SECOND), len, lent.at(OUT), out) };
        self.call(run, |lent| {
            lent.allow(OUT, out);
            Given::Order(List::of(&lent.words[OUT..OUT + out]))
        })
    }

    fn injective(&mut self, extents: &List<u64>, strides: &List<i64>, words: usize) -> Answer {
        // Lists that differ in length are no axes: `Input::paired` made them as long as each other.
        assert_eq!(extents.len, strides.len, "a verdict takes axes");
        self.put_axes(FIRST, extents.slice(), strides.slice());
        if self.scratch.len() < words + 4 {
            self.scratch.resize(words + 4, PATTERN);
        }
        let len = extents.len;
        // SAFETY: as above; scratch has `words` words and more.
        let run = |lent: &mut Lent| unsafe {
            let scratch = lent.scratch.as_mut_ptr();
            strided_is_injective(lent.at(FIRST), len, scratch, words, lent.at(FOUND), lent.values_at())
        };
        self.call(run, |lent| {
            lent.allow(FOUND, 2);
            // SAFETY: the area has the words of what was found.
            let found = unsafe { lent.at::<Found>(FOUND).read() };
            Given::Verdict(found.verdict.into(), found.count)
        })
    }

    /// Whether scratch holds what it held, but for the words that the enumeration is free to use.
    fn scratch_kept(&mut self, extents: &List<u64>, strides: &List<i64>, words: usize) -> bool {
        let needed = words_needed(extents.slice(), strides.slice()).unwrap_or(0) as usize;
        let free = if needed <= words { needed } else { 0 };
        if self.fault == Fault::Scratch {
            self.scratch[words] ^= 1;
        }
        let kept = self.scratch[free..words + 4].iter().all(|&word| word == PATTERN);
        self.scratch[..words + 4].fill(PATTERN);
        kept
    }

    fn by_call(&mut self, input: &Input) -> Answer {
        match input {
            Input::Bounds { len, offset, extents, strides } => {
                self.put_lists(extents, strides);
                // SAFETY: as above.
                let run = |lent: &mut Lent| unsafe { strided_validate_bounds(*len, *offset, lent.at(FIRST), extents.len, lent.at(SECOND), strides.len) };
                self.call(run, |_| Given::Nothing)
            }
            Input::New { len, offset, extents, strides } => {
                // Length and offset stand in a layout whose rank and axes are anything.
                self.put(LAYOUT, &[*len, *offset as u64]);
                self.put_lists(extents, strides);
                // SAFETY: as above.
                let run = |lent: &mut Lent| unsafe {
                    strided_new(lent.layout_at(), lent.at(FIRST), extents.len, lent.at(SECOND), strides.len)
                };
                self.call(run, Lent::given_layout)
            }
            Input::Permute { layout, axes } => self.view(layout, axes, strided_permute),
            Input::Diagonal { layout, pairs } => self.view(layout, pairs, strided_diagonal_view),
            Input::Broadcast { layout, target } => self.view(layout, target, strided_broadcast),
            Input::Offset { layout, index } => self.indexed(layout, index),
            Input::Injective { extents, strides, words } => self.injective(extents, strides, *words),
            Input::Order { strides, out } => self.order(strides, *out),
            Input::Column { extents } => self.dense(extents, strided_column_strides),
            Input::Row { extents } => self.dense(extents, strided_row_strides),
        }
    }

    /// The answer, and whether all other memory is as it was.
    pub fn answer(&mut self, input: &Input) -> (Answer, bool) {
        let answer = self.by_call(input);
        let mut kept = self.words == self.image;
        if let Input::Injective { extents, strides, words } = input {
            kept &= self.scratch_kept(extents, strides, *words);
        }
        self.words = [PATTERN; WORDS];
        (answer, kept)
    }
}
