//! Strided layouts over one buffer of readings: views, the verdict whether two positions share a cell, and the record.
//!
//! A safe wrapper of the static library `libstrided.a`, whose functions are proved against their contracts. Nothing in it
//! panics. A call that needs scratch memory asks for it itself.
//!
//! A *reading* is one element of the buffer, of any type. Buffer lengths, offsets and strides count readings, never bytes.
//! What each call does is said in docs/RULES.md; a refusal has the number that it has there.
//!
//! ```
//! use strided_layouts::{Axis, Layout, Verdict};
//! let sheet = Layout::new(6, 0, &[2, 3], &[1, 2])?;
//! let turned = sheet.permute(&[1, 0])?;
//! assert_eq!(turned.axes(), &[Axis { extent: 3, stride: 2 }, Axis { extent: 2, stride: 1 }]);
//! assert_eq!(turned.verdict()?, (Verdict::Distinct, 0));
//! assert_eq!(Layout::read(&turned.write()?)?.axes(), turned.axes());
//! # Ok::<(), strided_layouts::Refusal>(())
//! ```

#![deny(missing_docs)]

mod calls;
mod refusal;

pub use refusal::Refusal;

use calls::{Found, Values};

/// The most axes of a layout, and the most entries of a list.
const MOST_AXES: usize = 16;

/// The bytes of the longest record.
const LONGEST_RECORD: usize = 13 + 16 * MOST_AXES;

/// Whether two positions share an offset.
#[derive(Clone, Copy, Debug, PartialEq, Eq)]
pub enum Verdict {
    /// No two positions share an offset.
    Distinct,
    /// Two positions share an offset: do not write through the layout.
    Repeated,
    /// It was not found out within the budgets of the verdict. The normal form may have another verdict.
    Undecided,
}

impl std::fmt::Display for Verdict {
    fn fmt(&self, f: &mut std::fmt::Formatter<'_>) -> std::fmt::Result {
        f.write_str(match self {
            Verdict::Distinct => "distinct",
            Verdict::Repeated => "repeated",
            Verdict::Undecided => "undecided",
        })
    }
}

/// An extent and a stride.
#[repr(C)]
#[derive(Clone, Copy, Debug, PartialEq, Eq)]
pub struct Axis {
    /// How many indices the axis has.
    pub extent: u64,
    /// How many readings lie from one index to the next.
    pub stride: i64,
}

/// The length of a buffer, an offset, and up to 16 axes. Each layout was checked in, read, or is a view or the normal form of
/// such a layout.
#[repr(C)]
#[derive(Clone, Copy)]
pub struct Layout {
    len: u64,
    offset: i64,
    rank: usize,
    axes: [Axis; MOST_AXES],
}

impl Layout {
    /// Checks in a layout of a buffer of `len` readings. Refusals: 1, 2, 3.
    pub fn new(len: u64, offset: i64, extents: &[u64], strides: &[i64]) -> Result<Layout, Refusal> {
        let mut made = Layout { len, offset, ..Layout::NONE };
        // SAFETY: each pointer is that of a slice of the length beside it or of a struct, and what is written is borrowed
        // for this call alone.
        let answer = unsafe {
            calls::strided_new(&mut made, extents.as_ptr(), extents.len(), strides.as_ptr(), strides.len())
        };
        Refusal::of(answer, Values::default()).map(|()| made)
    }

    /// What a call stores a layout into.
    const NONE: Layout = Layout { len: 0, offset: 0, rank: 0, axes: [Axis { extent: 0, stride: 0 }; MOST_AXES] };

    /// The length of the buffer, in readings.
    pub fn buffer_length(&self) -> u64 {
        self.len
    }

    /// The offset, in readings.
    pub fn offset(&self) -> i64 {
        self.offset
    }

    /// How many axes there are.
    pub fn rank(&self) -> usize {
        self.rank
    }

    /// The axes.
    pub fn axes(&self) -> &[Axis] {
        self.axes.get(..self.rank).unwrap_or_default()
    }

    /// The extent of each axis.
    pub fn extents(&self) -> impl ExactSizeIterator<Item = u64> + '_ {
        self.axes().iter().map(|axis| axis.extent)
    }

    /// The stride of each axis, in readings.
    pub fn strides(&self) -> impl ExactSizeIterator<Item = i64> + '_ {
        self.axes().iter().map(|axis| axis.stride)
    }

    /// Puts the axes in the order of the list. Refusals: 1, 4, 5.
    pub fn permute(&self, order: &[usize]) -> Result<Layout, Refusal> {
        self.viewed(calls::strided_permute, order)
    }

    /// Makes one axis of the axes that are tied by a chain of pairs. Refusals: 5, 3.
    pub fn diagonal_view(&self, pairs: &[(usize, usize)]) -> Result<Layout, Refusal> {
        let numbers: Vec<usize> = pairs.iter().flat_map(|&(one, other)| [one, other]).collect();
        self.viewed(calls::strided_diagonal_view, &numbers)
    }

    /// Stretches axes of extent 1 to their targets, with stride 0. Refusals: 1, 4, 6.
    pub fn broadcast(&self, targets: &[u64]) -> Result<Layout, Refusal> {
        self.viewed(calls::strided_broadcast, targets)
    }

    /// A call that takes a layout and a list and leaves a layout.
    fn viewed<T>(&self, call: View<T>, list: &[T]) -> Result<Layout, Refusal> {
        let mut next = *self;
        let mut values = Values::default();
        // SAFETY: as in `new`.
        let answer = unsafe { call(&mut next, list.as_ptr(), list.len(), &mut values) };
        Refusal::of(answer, values).map(|()| next)
    }

    /// The offset of an index vector, in readings. Refusals: 1, 4, 7 or 3.
    pub fn indexed_offset(&self, index: &[u64]) -> Result<i64, Refusal> {
        let mut offset = 0;
        let mut values = Values::default();
        // SAFETY: as in `new`.
        let answer = unsafe {
            calls::strided_indexed_offset(self, index.as_ptr(), index.len(), &mut offset, &mut values)
        };
        Refusal::of(answer, values).map(|()| offset)
    }

    /// The normal form: it has equally many positions, and the same offset at each. Refusals: 8.
    pub fn normal_form(&self) -> Result<Layout, Refusal> {
        let mut next = *self;
        // SAFETY: as in `new`.
        let answer = unsafe { calls::strided_normal_form(&mut next) };
        Refusal::of(answer, Values::default()).map(|()| next)
    }

    /// The verdict of the layout's axes, and how many difference vectors the search looked at: 0 if it looked at none.
    /// Refusals: 8, 3, 9.
    pub fn verdict(&self) -> Result<(Verdict, u64), Refusal> {
        verdict_of(self.axes())
    }

    /// Writes the mean of the readings along an axis, for each position of the remaining axes: all axes but this one, in their
    /// order. The means stand at the front of `out` in position order: the index of the first remaining axis changes fastest. The
    /// answer is how many they are; what stands behind them in `out` stays.
    ///
    /// A mean is a whole number in the unit of the readings: tenths of a millimetre, if that is what they are. Its readings are
    /// summed whole and divided once, to the nearest, halves away from zero. `readings` is a whole buffer, of at least the layout's
    /// highest offset + 1 readings; the buffer length of the layout does not matter. After a refusal `out` is as it was.
    ///
    /// Refusals: 5 the axis is not below the rank; 8 the remaining axes have more than 2^64 - 1 positions; 13 `readings` is too short
    /// (never if an extent is 0); 10 `out` is shorter than the means; 15 the extent along the axis is 0; 16 it is above 65,536. The
    /// last two come also if no mean is to be written.
    ///
    /// ```
    /// use strided_layouts::{Layout, Refusal};
    /// // Three points, each read in two faces, one right behind the other: 10.5 mm and 10.6 mm, ..
    /// let readings = [105, 106, -104, -105, 220, 220];
    /// let faces = Layout::new(6, 0, &[2, 3], &[1, 2])?; // the first axis is the face
    /// let mut means = [0; 3];
    /// assert_eq!(faces.means(0, &readings, &mut means)?, 3);
    /// assert_eq!(means, [106, -105, 220]);
    /// assert_eq!(faces.means(0, &readings, &mut means[..2]), Err(Refusal::ShortOutput { needed: 3 }));
    /// # Ok::<(), Refusal>(())
    /// ```
    pub fn means(&self, axis: usize, readings: &[i32], out: &mut [i32]) -> Result<usize, Refusal> {
        let mut values = Values::default();
        // SAFETY: as in `new`.
        let answer = unsafe {
            calls::strided_means(
                self, axis, readings.as_ptr(), readings.len(), out.as_mut_ptr(), out.len(), &mut values,
            )
        };
        Refusal::of(answer, values).map(|()| values.first)
    }

    /// The record of the layout's normal form. Refusals: 8, 9.
    pub fn write(&self) -> Result<Vec<u8>, Refusal> {
        let mut bytes = [0; LONGEST_RECORD];
        let mut values = Values::default();
        with_scratch(|scratch| {
            // SAFETY: as in `new`.
            let answer = unsafe {
                calls::strided_write(
                    self, bytes.as_mut_ptr(), bytes.len(), scratch.as_mut_ptr(), scratch.len(), &mut values,
                )
            };
            Refusal::of(answer, values)
        })?;
        Ok(bytes.into_iter().take(values.first).collect())
    }

    /// The layout of the record that the bytes begin with, in the shortest buffer that accepts it. Refusals: 11, 9.
    pub fn read(bytes: &[u8]) -> Result<Layout, Refusal> {
        let mut made = Layout::NONE;
        let mut values = Values::default();
        with_scratch(|scratch| {
            // SAFETY: as in `new`.
            let answer = unsafe {
                calls::strided_read(
                    &mut made, bytes.as_ptr(), bytes.len(), scratch.as_mut_ptr(), scratch.len(), &mut values,
                )
            };
            Refusal::of(answer, values)
        })?;
        Ok(made)
    }
}

/// Two layouts are equal if buffer length, offset and axes are.
impl PartialEq for Layout {
    fn eq(&self, other: &Layout) -> bool {
        (self.len, self.offset, self.axes()) == (other.len, other.offset, other.axes())
    }
}

impl Eq for Layout {}

impl std::fmt::Debug for Layout {
    fn fmt(&self, f: &mut std::fmt::Formatter<'_>) -> std::fmt::Result {
        f.debug_struct("Layout").field("len", &self.len).field("offset", &self.offset).field("axes", &self.axes()).finish()
    }
}

/// A call that takes a layout and a list.
type View<T> = unsafe extern "C" fn(*mut Layout, *const T, usize, *mut Values) -> u8;

/// Calls without scratch, and if that is refused 9, once more with as many scratch words as the refusal says.
fn with_scratch(mut call: impl FnMut(&mut [u64]) -> Result<(), Refusal>) -> Result<(), Refusal> {
    let words = match call(&mut []) {
        Err(Refusal::ShortScratch { words }) => words,
        settled => return settled,
    };
    let mut scratch: Vec<u64> = Vec::new();
    scratch.try_reserve_exact(words).map_err(|_| Refusal::ShortScratch { words })?;
    scratch.resize(words, 0);
    call(&mut scratch)
}

/// The verdict of axes, and how many difference vectors the search looked at: 0 if it looked at none. Refusals: 1, 8, 3, 9.
pub fn verdict_of(axes: &[Axis]) -> Result<(Verdict, u64), Refusal> {
    let mut found = Found::default();
    let mut values = Values::default();
    with_scratch(|scratch| {
        // SAFETY: as in `Layout::new`.
        let answer = unsafe {
            calls::strided_is_injective(
                axes.as_ptr(), axes.len(), scratch.as_mut_ptr(), scratch.len(), &mut found, &mut values,
            )
        };
        Refusal::of(answer, values)
    })?;
    let verdict = match found.verdict {
        1 => Verdict::Distinct,
        2 => Verdict::Repeated,
        _ => Verdict::Undecided,
    };
    Ok((verdict, found.count))
}

/// Copies readings from one buffer through `source` into another through `destination`: for each index vector the reading at its
/// offset in `source` is stored at its offset in `destination`. Every other reading of `to` stays as it was. The two layouts need
/// the same extents.
///
/// Offsets count readings. How long the buffers are is said by `from` and `to`; the buffer lengths of the layouts do not matter.
/// `to` is written only if the verdict on `destination` is [`Verdict::Distinct`]. That verdict may need scratch, which the call asks
/// for itself. After a refusal `to` is as it was.
///
/// Refusals: 12 the extents differ; 13 a buffer is shorter than its layout's highest offset + 1 (never if an extent is 0); 8 there
/// are more than 2^64 - 1 positions; 9 the memory for scratch could not be had; 14 the verdict on `destination` is not Distinct.
///
/// ```
/// use strided_layouts::{copy, Layout, Refusal};
/// let shots = Layout::new(6, 0, &[2, 3], &[1, 2])?; // three rows of two
/// let plan = Layout::new(6, 0, &[2, 3], &[3, 1])?; // the transpose: two rows of three
/// let mut sheet = [0; 6];
/// copy(&shots, &[1, 2, 3, 4, 5, 6], &plan, &mut sheet)?;
/// assert_eq!(sheet, [1, 3, 5, 2, 4, 6]);
/// assert_eq!(copy(&shots, &[1, 2, 3, 4, 5, 6], &plan, &mut sheet[..5]), Err(Refusal::ShortReadings));
/// # Ok::<(), Refusal>(())
/// ```
pub fn copy(source: &Layout, from: &[i32], destination: &Layout, to: &mut [i32]) -> Result<(), Refusal> {
    let mut values = Values::default();
    with_scratch(|scratch| {
        // SAFETY: as in `Layout::new`.
        let answer = unsafe {
            calls::strided_copy(
                source, from.as_ptr(), from.len(), destination, to.as_mut_ptr(), to.len(), scratch.as_mut_ptr(), scratch.len(),
                &mut values,
            )
        };
        Refusal::of(answer, values)
    })
}

/// The bytes behind the first record: behind as many as the length in the first two says. There are none if that length is
/// missing, below 13 or past the end. It looks at no other field.
pub fn step(bytes: &[u8]) -> &[u8] {
    // SAFETY: the pointer is that of a slice of the length beside it, and nothing is written.
    let at = unsafe { calls::strided_step(bytes.as_ptr(), bytes.len()) };
    bytes.get(at..).unwrap_or_default()
}

/// Answers what check-in would answer, and makes no layout. Refusals: 1, 2, 3.
pub fn validate_bounds(len: u64, offset: i64, extents: &[u64], strides: &[i64]) -> Result<(), Refusal> {
    // SAFETY: each pointer is that of a slice of the length beside it, and nothing is written.
    let answer = unsafe {
        calls::strided_validate_bounds(len, offset, extents.as_ptr(), extents.len(), strides.as_ptr(), strides.len())
    };
    Refusal::of(answer, Values::default())
}

/// A number for each stride: 1 for stride 0, and for any other 1 more than there are strides of smaller absolute value that
/// are not 0. Refusals: 1.
pub fn index_order(strides: &[i64]) -> Result<Vec<usize>, Refusal> {
    if MOST_AXES < strides.len() {
        return Err(Refusal::TooManyAxes);
    }
    let mut order = vec![0; strides.len()];
    // SAFETY: as in `Layout::new`.
    let answer = unsafe { calls::strided_index_order(strides.as_ptr(), strides.len(), order.as_mut_ptr(), order.len()) };
    Refusal::of(answer, Values::default()).map(|()| order)
}

/// Dense strides; the first axis is the densest. Refusals: 1, 3.
pub fn column_strides(extents: &[u64]) -> Result<Vec<i64>, Refusal> {
    dense(calls::strided_column_strides, extents)
}

/// Dense strides; the last axis is the densest. Refusals: 1, 3.
pub fn row_strides(extents: &[u64]) -> Result<Vec<i64>, Refusal> {
    dense(calls::strided_row_strides, extents)
}

fn dense(call: unsafe extern "C" fn(*const u64, usize, *mut i64, usize) -> u8, extents: &[u64]) -> Result<Vec<i64>, Refusal> {
    if MOST_AXES < extents.len() {
        return Err(Refusal::TooManyAxes);
    }
    let mut strides = vec![0; extents.len()];
    // SAFETY: as in `Layout::new`.
    let answer = unsafe { call(extents.as_ptr(), extents.len(), strides.as_mut_ptr(), strides.len()) };
    Refusal::of(answer, Values::default()).map(|()| strides)
}
