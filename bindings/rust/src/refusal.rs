//! Why a call was refused.

use crate::calls::Values;

/// Why a call was refused, with the values that the refusal returns. It prints itself as a sentence; `number` is its number in
/// docs/RULES.md, "Refusals, and which comes first".
#[derive(Clone, Copy, Debug, PartialEq, Eq)]
pub enum Refusal {
    /// 1: a list has more than 16 entries, or a layout more than 16 axes.
    TooManyAxes,
    /// 2: there are not as many strides as extents.
    LengthsDiffer,
    /// 3: an offset would lie outside the buffer, or a number does not fit 64 bits.
    OutOfRange,
    /// 4: a list has not one entry for each axis; both lengths, in the order of the call.
    WrongLength(usize, usize),
    /// 5: an axis is outside the rank, or was named before.
    BadAxis {
        /// The axis.
        axis: usize,
        /// The rank.
        rank: usize,
    },
    /// 6: an extent is neither its target nor 1.
    BadExtent {
        /// The first such axis.
        axis: usize,
    },
    /// 7: an index is not below its extent.
    BadIndex {
        /// The first such axis.
        axis: usize,
    },
    /// 8: there are more than 2^64 - 1 positions.
    TooManyPositions,
    /// 9: the verdict needs scratch, and the memory for it could not be had.
    ShortScratch {
        /// How many scratch words, of 64 bits, are needed.
        words: usize,
    },
    /// 10: the output is too short for the means. A record always gets enough.
    ShortOutput {
        /// How much is needed: readings of means, or bytes of a record.
        needed: usize,
    },
    /// 11: the bytes do not begin with a record, or its verdict is false.
    NotARecord,
    /// 12: the two layouts have not the same extents in the same order.
    ExtentsDiffer,
    /// 13: a buffer ends at or before the highest offset of its layout.
    ShortReadings,
    /// 14: the verdict on the destination is repeated or undecided.
    NotDistinct,
    /// 15: the axis that means are taken along has extent 0.
    EmptyAxis,
    /// 16: the axis that means are taken along has an extent above 65,536.
    LongAxis,
    /// 255: there are fewer places than extents. The calls of this crate lend enough.
    ShortBuffer,
}

impl Refusal {
    /// The number of the refusal.
    pub fn number(&self) -> u8 {
        match self {
            Refusal::TooManyAxes => 1,
            Refusal::LengthsDiffer => 2,
            Refusal::OutOfRange => 3,
            Refusal::WrongLength(..) => 4,
            Refusal::BadAxis { .. } => 5,
            Refusal::BadExtent { .. } => 6,
            Refusal::BadIndex { .. } => 7,
            Refusal::TooManyPositions => 8,
            Refusal::ShortScratch { .. } => 9,
            Refusal::ShortOutput { .. } => 10,
            Refusal::NotARecord => 11,
            Refusal::ExtentsDiffer => 12,
            Refusal::ShortReadings => 13,
            Refusal::NotDistinct => 14,
            Refusal::EmptyAxis => 15,
            Refusal::LongAxis => 16,
            Refusal::ShortBuffer => 255,
        }
    }

    /// The answer of a call, with what it left in `values`.
    pub(crate) fn of(answer: u8, values: Values) -> Result<(), Refusal> {
        let Values { first, second } = values;
        Err(match answer {
            0 => return Ok(()),
            1 => Refusal::TooManyAxes,
            2 => Refusal::LengthsDiffer,
            3 => Refusal::OutOfRange,
            4 => Refusal::WrongLength(first, second),
            5 => Refusal::BadAxis { axis: first, rank: second },
            6 => Refusal::BadExtent { axis: first },
            7 => Refusal::BadIndex { axis: first },
            8 => Refusal::TooManyPositions,
            9 => Refusal::ShortScratch { words: first },
            10 => Refusal::ShortOutput { needed: first },
            11 => Refusal::NotARecord,
            12 => Refusal::ExtentsDiffer,
            13 => Refusal::ShortReadings,
            14 => Refusal::NotDistinct,
            15 => Refusal::EmptyAxis,
            16 => Refusal::LongAxis,
            _ => Refusal::ShortBuffer,
        })
    }
}

/// The sentences are those of the library in Rattle (`crates/view/src/layout.rt`).
impl std::fmt::Display for Refusal {
    fn fmt(&self, f: &mut std::fmt::Formatter<'_>) -> std::fmt::Result {
        match self {
            Refusal::TooManyAxes => write!(f, "more than 16 axes or entries"),
            Refusal::LengthsDiffer => write!(f, "the lists differ in length"),
            Refusal::OutOfRange => write!(f, "an offset would lie outside the buffer, or a number does not fit 64 bits"),
            Refusal::WrongLength(first, second) => {
                write!(f, "a list and the axes of the layout differ in number: {first} and {second}")
            }
            Refusal::BadAxis { axis, rank } => write!(f, "axis {axis} is outside the rank {rank}, or named twice"),
            Refusal::BadExtent { axis } => write!(f, "the extent of axis {axis} is neither its target nor 1"),
            Refusal::BadIndex { axis } => write!(f, "the index of axis {axis} is not below its extent"),
            Refusal::TooManyPositions => write!(f, "more than 2^64 - 1 positions"),
            Refusal::ShortScratch { words } => write!(f, "{words} words of scratch are needed"),
            Refusal::ShortOutput { needed } => {
                write!(f, "an output of {needed} is needed, in bytes of a record or in readings of means")
            }
            Refusal::NotARecord => write!(f, "the bytes are not a record"),
            Refusal::ExtentsDiffer => write!(f, "the two layouts differ in extents"),
            Refusal::ShortReadings => write!(f, "a buffer is shorter than its layout needs"),
            Refusal::NotDistinct => write!(f, "the verdict on the destination is not distinct"),
            Refusal::EmptyAxis => write!(f, "the extent along the axis is 0"),
            Refusal::LongAxis => write!(f, "the extent along the axis is above 65536"),
            Refusal::ShortBuffer => write!(f, "there are fewer places than extents"),
        }
    }
}

impl std::error::Error for Refusal {}
