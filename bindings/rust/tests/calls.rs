//! Each call of the wrapper: an answer, and a refusal with its values.
use strided_layouts::{column_strides, copy, index_order, row_strides, step, validate_bounds, verdict_of};
use strided_layouts::{Axis, Layout, Refusal, Verdict};

fn sheet() -> Layout {
    Layout::new(6, 0, &[2, 3], &[1, 2]).unwrap()
}

fn axes<const N: usize>(pairs: [(u64, i64); N]) -> [Axis; N] {
    pairs.map(|(extent, stride)| Axis { extent, stride })
}

#[test]
fn check_in() {
    assert_eq!(sheet().axes(), axes([(2, 1), (3, 2)]));
    assert!(sheet().extents().eq([2, 3]));
    assert!(sheet().strides().eq([1, 2]));
    assert_eq!((sheet().buffer_length(), sheet().offset(), sheet().rank()), (6, 0, 2));
    assert_eq!(Layout::new(5, 0, &[2, 3], &[1, 2]), Err(Refusal::OutOfRange));
    assert_eq!(Layout::new(6, 0, &[2, 3], &[1]), Err(Refusal::LengthsDiffer));
    assert_eq!(Layout::new(6, 0, &[1; 17], &[1; 17]), Err(Refusal::TooManyAxes));
    assert_eq!(Layout::new(0, 0, &[], &[]), Err(Refusal::OutOfRange));
    assert_eq!(Layout::new(1, 0, &[], &[]).unwrap().rank(), 0);
    assert_eq!(Layout::new(3, 2, &[3], &[-1]).unwrap().offset(), 2);
    assert_eq!(Layout::new(1, 0, &[1; 16], &[1; 16]).unwrap().axes(), axes([(1, 1); 16]));
}

#[test]
fn bounds() {
    assert_eq!(validate_bounds(6, 0, &[2, 3], &[1, 2]), Ok(()));
    assert_eq!(validate_bounds(5, 0, &[2, 3], &[1, 2]), Err(Refusal::OutOfRange));
    assert_eq!(validate_bounds(6, 0, &[2, 3], &[1]), Err(Refusal::LengthsDiffer));
    assert_eq!(validate_bounds(6, 0, &[1; 17], &[1; 17]), Err(Refusal::TooManyAxes));
}

#[test]
fn views() {
    let turned = sheet().permute(&[1, 0]).unwrap();
    assert_eq!(turned.axes(), axes([(3, 2), (2, 1)]));
    assert_eq!(sheet().permute(&[0]), Err(Refusal::WrongLength(1, 2)));
    assert_eq!(sheet().permute(&[0, 0]), Err(Refusal::BadAxis { axis: 0, rank: 2 }));
    assert_eq!(sheet().permute(&[0; 17]), Err(Refusal::TooManyAxes));
    let cube = Layout::new(60, 0, &[3, 4, 5], &[1, 3, 12]).unwrap();
    let tied = cube.diagonal_view(&[(0, 1), (1, 2)]).unwrap();
    assert_eq!(tied.axes(), axes([(3, 16)]));
    assert_eq!(cube.diagonal_view(&[(0, 3)]), Err(Refusal::BadAxis { axis: 3, rank: 3 }));
    let row = Layout::new(4, 0, &[1, 4], &[9, 1]).unwrap();
    let wide = row.broadcast(&[7, 4]).unwrap();
    assert_eq!(wide.axes(), axes([(7, 0), (4, 1)]));
    assert_eq!(row.broadcast(&[7]), Err(Refusal::WrongLength(2, 1)));
    assert_eq!(row.broadcast(&[7, 5]), Err(Refusal::BadExtent { axis: 1 }));
}

#[test]
fn offsets() {
    assert_eq!(sheet().indexed_offset(&[1, 2]), Ok(5));
    assert_eq!(sheet().indexed_offset(&[1, 3]), Err(Refusal::BadIndex { axis: 1 }));
    assert_eq!(sheet().indexed_offset(&[1]), Err(Refusal::WrongLength(1, 2)));
}

#[test]
fn verdicts() {
    assert_eq!(sheet().verdict(), Ok((Verdict::Distinct, 0)));
    assert_eq!(verdict_of(&axes([(4, 2000), (2000, 3)])), Ok((Verdict::Distinct, 0)));
    assert_eq!(verdict_of(&axes([(4, 2000), (2001, 3)])), Ok((Verdict::Repeated, 0)));
    assert_eq!(verdict_of(&axes([(2, 2), (2, 3), (2, 5)])), Ok((Verdict::Repeated, 1)));
    assert_eq!(verdict_of(&axes([(2, 4), (2, 5), (5_000_000, 6)])), Ok((Verdict::Distinct, 1)));
    assert_eq!(verdict_of(&axes([(2, i64::MIN)])), Err(Refusal::OutOfRange));
    let near = 10_000_000_000;
    assert_eq!(verdict_of(&axes([0, 1, 2, 3].map(|i| (1449, near + i)))), Ok((Verdict::Undecided, 0)));
    assert_eq!(verdict_of(&axes([(u64::MAX, 0), (2, 0)])), Err(Refusal::TooManyPositions));
    assert_eq!(verdict_of(&axes([(1, 1); 17])), Err(Refusal::TooManyAxes));
    assert_eq!(verdict_of(&[]), Ok((Verdict::Distinct, 0)));
}

// Twelve interleaved extents of 3 are enumerated, which needs scratch.
#[test]
fn scratch() {
    let threes: Vec<Axis> = (0..12).map(|i| Axis { extent: 3, stride: 100_000 + i }).collect();
    assert_eq!(verdict_of(&threes), Ok((Verdict::Repeated, 0)));
}

// What stands in the destination's buffer afterwards; a refusal leaves it.
fn copied(source: &Layout, from: &[i32], destination: &Layout, to: &[i32]) -> Result<Vec<i32>, Refusal> {
    let mut after = to.to_vec();
    let answer = copy(source, from, destination, &mut after);
    assert!(answer.is_ok() || after == to);
    answer.map(|()| after)
}

fn layout<const N: usize>(len: u64, offset: i64, extents: [u64; N], strides: [i64; N]) -> Layout {
    Layout::new(len, offset, &extents, &strides).unwrap()
}

#[test]
fn copies() {
    let turned = layout(6, 0, [2, 3], [3, 1]);
    assert_eq!(copied(&sheet(), &[1, 2, 3, 4, 5, 6], &turned, &[0; 6]), Ok(vec![1, 3, 5, 2, 4, 6]));
    let behind_one = layout(5, 1, [3], [1]);
    assert_eq!(copied(&layout(3, 2, [3], [-1]), &[7, 8, 9], &behind_one, &[-1; 5]), Ok(vec![-1, 9, 8, 7, -1]));
    let backwards = layout(9, 8, [3], [-3]);
    assert_eq!(copied(&layout(3, 0, [3], [1]), &[1, 2, 3], &backwards, &[0; 9]), Ok(vec![0, 0, 3, 0, 0, 2, 0, 0, 1]));
    assert_eq!(copied(&layout(3, 2, [], []), &[5, 6, 7], &layout(2, 1, [], []), &[1, 1]), Ok(vec![1, 7]));
    let stretched = layout(2, 0, [2, 3], [1, 0]);
    assert_eq!(copied(&stretched, &[4, 9], &sheet(), &[0; 6]), Ok(vec![4, 9, 4, 9, 4, 9]));
    assert_eq!(copied(&sheet(), &[i32::MIN; 6], &sheet(), &[i32::MAX; 7]).unwrap()[5..], [i32::MIN, i32::MAX]);
}

// Nothing is written, and no buffer is too short.
#[test]
fn copies_of_no_position() {
    let (one, other) = (layout(0, 7, [0, 3], [1, 1]), layout(0, -9, [0, 3], [5, 5]));
    assert_eq!(copied(&one, &[], &other, &[4]), Ok(vec![4]));
    assert_eq!(copied(&one, &[], &layout(0, 0, [3, 0], [1, 1]), &[]), Err(Refusal::ExtentsDiffer));
}

#[test]
fn copies_refused() {
    assert_eq!(copied(&layout(2, 0, [2, 1], [1, 0]), &[1, 2], &layout(2, 0, [2], [1]), &[0, 0]), Err(Refusal::ExtentsDiffer));
    // The slice counts, not the layout's length.
    let roomy = layout(100, 0, [2, 3], [1, 2]);
    assert_eq!(copied(&sheet(), &[0; 6], &roomy, &[0; 5]), Err(Refusal::ShortReadings));
    assert_eq!(copied(&roomy, &[0; 5], &sheet(), &[0; 6]), Err(Refusal::ShortReadings));
    assert_eq!(copied(&sheet(), &[1; 6], &roomy, &[0; 6]), Ok(vec![1; 6]));
    let stretched = layout(2, 0, [2, 3], [1, 0]);
    assert_eq!(copied(&sheet(), &[1; 6], &stretched, &[0; 1]), Err(Refusal::ShortReadings));
    assert_eq!(copied(&sheet(), &[1; 6], &stretched, &[0; 2]), Err(Refusal::NotDistinct));
    let slip = layout(3, 0, [2, 2], [1, 1]);
    assert_eq!(copied(&slip, &[1, 2, 3], &slip, &[0; 3]), Err(Refusal::NotDistinct));
    let wide = |targets: &[u64]| Layout::new(1, 0, &vec![1; targets.len()], &vec![0; targets.len()]).unwrap().broadcast(targets).unwrap();
    for (targets, refusal) in [
        (&[1 << 32, 1 << 32][..], Refusal::TooManyPositions),
        (&[1 << 32, (1 << 32) - 1], Refusal::NotDistinct),
        (&[(1 << 63) + 1], Refusal::NotDistinct),
    ] {
        assert_eq!(copied(&wide(targets), &[5], &wide(targets), &[0]), Err(refusal));
    }
}

// The verdict on twelve axes is enumerated, which needs scratch: 11072 words.
#[test]
fn copies_with_scratch() {
    let threes = |last| {
        let strides = std::array::from_fn(|axis| if axis < 11 { 2 * 3_i64.pow(axis as u32) } else { last });
        layout(708_587, 0, [3; 12], strides)
    };
    let from: Vec<i32> = (0..708_587).collect();
    let after = copied(&threes(177_147), &from, &threes(177_147), &[-1; 708_587]).unwrap();
    assert_eq!(after.iter().filter(|&&reading| reading != -1).count(), 3_usize.pow(12));
    assert!(after.iter().zip(&from).all(|(&reading, &place)| reading == -1 || reading == place));
    assert_eq!(copied(&threes(177_146), &from, &threes(177_146), &[-1; 708_587]), Err(Refusal::NotDistinct));
    assert_eq!(copied(&threes(177_147), &from, &threes(177_147), &[-1; 708_586]), Err(Refusal::ShortReadings));
}

// The means at the front of the output, and how many; what is behind them stays, and after a refusal all of it.
fn means(layout: &Layout, axis: usize, readings: &[i32], room: usize) -> Result<Vec<i32>, Refusal> {
    let mut out = vec![-1; room];
    let answer = layout.means(axis, readings, &mut out);
    assert!(out[answer.unwrap_or(0)..].iter().all(|&mean| mean == -1));
    answer.map(|count| out[..count].to_vec())
}

#[test]
fn means_along_an_axis() {
    let readings = [105, 106, -104, -105, 220, 220];
    assert_eq!(means(&sheet(), 0, &readings, 3), Ok(vec![106, -105, 220]));
    assert_eq!(means(&sheet(), 1, &readings, 5), Ok(vec![74, 74]));
    // The first remaining axis is the fastest, whatever its stride.
    let numbers: Vec<i32> = (0..24).collect();
    let cube = layout(24, 0, [2, 3, 4], [12, 4, 1]);
    assert_eq!(means(&cube, 1, &numbers, 8), Ok(vec![4, 16, 5, 17, 6, 18, 7, 19]));
    assert_eq!(means(&cube, 2, &numbers, 6), Ok(vec![2, 14, 6, 18, 10, 22]));
    assert_eq!(means(&layout(6, 5, [2, 3], [-1, -2]), 0, &readings, 3), Ok(vec![220, -105, 106]));
    assert_eq!(means(&layout(4, 1, [3], [1]), 0, &[90, 1, 2, 2], 1), Ok(vec![2]));
    assert_eq!(means(&layout(2, 0, [2, 3], [1, 0]), 0, &[-1, -2], 3), Ok(vec![-2; 3]));
    assert_eq!(means(&layout(1, 0, [1], [1]), 0, &[i32::MIN], 1), Ok(vec![i32::MIN]));
    let most = layout(1, 0, [1], [0]).broadcast(&[65_536]).unwrap();
    for reading in [i32::MIN, i32::MAX] {
        assert_eq!(means(&most, 0, &[reading], 1), Ok(vec![reading]));
    }
}

// To the nearest whole number, halves away from zero; the sum is one of more than 32 bits.
#[test]
fn means_are_rounded_once() {
    let (low, high) = (i32::MIN, i32::MAX);
    for (readings, mean) in [
        (&[1, 0][..], 1), (&[-1, 0], -1), (&[3, 0], 2), (&[-3, 0], -2), (&[low, high], -1), (&[high, high - 1], high),
        (&[low, low + 1], low), (&[1, 0, 0], 0), (&[-1, 0, 0], 0), (&[-1, -1, 0], -1), (&[high; 4], high), (&[low; 5], low),
        (&[1, 2, 2, 1], 2), (&[-1, -2, -2, -1], -2),
    ] {
        let count = readings.len() as u64;
        assert_eq!(means(&layout(count, 0, [count], [1]), 0, readings, 1), Ok(vec![mean]));
    }
}

#[test]
fn means_of_no_position() {
    assert_eq!(means(&layout(0, 7, [2, 0], [1, 1]), 0, &[], 1), Ok(vec![]));
    assert_eq!(means(&layout(0, 7, [0, 0], [1, 1]), 0, &[], 0), Err(Refusal::EmptyAxis));
    assert_eq!(means(&layout(0, 7, [65_537, 0], [1, 1]), 0, &[], 0), Err(Refusal::LongAxis));
}

#[test]
fn means_refused() {
    assert_eq!(means(&sheet(), 2, &[], 0), Err(Refusal::BadAxis { axis: 2, rank: 2 }));
    assert_eq!(means(&layout(1, 0, [], []), 0, &[5], 1), Err(Refusal::BadAxis { axis: 0, rank: 0 }));
    // The slice counts, not the layout's length, and the whole layout counts, not one place of each mean.
    let roomy = layout(100, 0, [2, 3], [1, 2]);
    assert_eq!(means(&roomy, 0, &[0; 5], 3), Err(Refusal::ShortReadings));
    assert_eq!(means(&roomy, 0, &[0; 6], 3), Ok(vec![0; 3]));
    assert_eq!(means(&sheet(), 0, &[0; 6], 2), Err(Refusal::ShortOutput { needed: 3 }));
    let none_along = layout(0, 0, [0, 3], [1, 1]);
    assert_eq!(means(&none_along, 0, &[], 2), Err(Refusal::ShortOutput { needed: 3 }));
    assert_eq!(means(&none_along, 0, &[], 3), Err(Refusal::EmptyAxis));
    let wide = |targets: &[u64]| Layout::new(1, 0, &vec![1; targets.len()], &vec![0; targets.len()]).unwrap().broadcast(targets).unwrap();
    assert_eq!(means(&wide(&[65_537]), 0, &[5], 0), Err(Refusal::ShortOutput { needed: 1 }));
    assert_eq!(means(&wide(&[65_537]), 0, &[5], 1), Err(Refusal::LongAxis));
    // Positions of the remaining axes alone are counted.
    assert_eq!(means(&wide(&[2, 1 << 32, 1 << 32]), 0, &[], 0), Err(Refusal::TooManyPositions));
    assert_eq!(means(&wide(&[1 << 32, 2, 1 << 31]), 0, &[], 0), Err(Refusal::ShortReadings));
    assert_eq!(means(&wide(&[1 << 32, 2, 1 << 32]), 0, &[5], 0), Err(Refusal::ShortOutput { needed: 1 << 33 }));
    let none_and_many = layout(0, 0, [0, 1 << 32, 1 << 32], [1, 1, 1]);
    assert_eq!(means(&none_and_many, 0, &[], 0), Err(Refusal::TooManyPositions));
    assert_eq!(means(&none_and_many, 1, &[], 0), Err(Refusal::LongAxis));
}

#[test]
fn records() {
    let bytes = sheet().write().unwrap();
    assert_eq!(bytes, [&[0, 0x1d, 1, 1, 1][..], &[0; 8], &[0, 0, 0, 0, 0, 0, 0, 6], &[0, 0, 0, 0, 0, 0, 0, 1]].concat());
    let read = Layout::read(&bytes).unwrap();
    assert_eq!(read, sheet().normal_form().unwrap());
    assert_eq!((read.buffer_length(), read.axes()), (6, &axes([(6, 1)])[..]));
    let two = [bytes.clone(), bytes.clone()].concat();
    assert_eq!(step(&two), &bytes[..]);
    assert_eq!(step(&bytes), &[] as &[u8]);
    assert_eq!(step(&[]), &[] as &[u8]);
    let mut lie = bytes.clone();
    lie[3] = 2;
    assert_eq!(Layout::read(&lie), Err(Refusal::NotARecord));
    assert_eq!(Layout::read(&[]), Err(Refusal::NotARecord));
}

#[test]
fn longest_record() {
    let far = Layout::new(1 << 40, 0, &[2; 16], &std::array::from_fn::<i64, 16, _>(|i| 3 << (2 * i))).unwrap();
    assert_eq!(far.write().unwrap().len(), 269);
}

// What stands past the rank of a layout does not count.
#[test]
fn equality() {
    let tied = Layout::new(60, 0, &[3, 4, 5], &[1, 3, 12]).unwrap().diagonal_view(&[(0, 1), (1, 2)]).unwrap();
    assert_eq!(tied, Layout::new(60, 0, &[3], &[16]).unwrap());
    assert_ne!(tied, Layout::new(59, 0, &[3], &[16]).unwrap());
    assert_eq!(format!("{tied:?}"), "Layout { len: 60, offset: 0, axes: [Axis { extent: 3, stride: 16 }] }");
}

#[test]
fn beside() {
    assert_eq!(index_order(&[4, 0, -2]), Ok(vec![2, 1, 1]));
    assert_eq!(index_order(&[1; 17]), Err(Refusal::TooManyAxes));
    assert_eq!(column_strides(&[0, 1 << 63, 5]), Ok(vec![1, 0, i64::MAX]));
    assert_eq!(row_strides(&[2, 3, 4]), Ok(vec![12, 4, 1]));
    assert_eq!(column_strides(&[1 << 62, 2]), Err(Refusal::OutOfRange));
    assert_eq!(column_strides(&[1; 17]), Err(Refusal::TooManyAxes));
    assert_eq!(Refusal::BadAxis { axis: 2, rank: 2 }.number(), 5);
}
