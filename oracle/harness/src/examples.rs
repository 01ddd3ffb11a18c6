//! Examples of the verdict, the normal form, the record, the copy and the means, those of docs/RULES.md among them, held against the reference
//! before it is used.

use crate::averaging::means;
use crate::copying::copy;
use crate::input::Layout;
use crate::record::{normal_form, read, write};
use crate::reference::{judge, Judged};

fn verdicts() {
    let cases: [(&[u64], &[i64], Judged); 12] = [
        (&[2, 3], &[1, 2], Judged::Distinct(0)),
        (&[2, 3], &[0, 1], Judged::Repeated(0)),
        (&[4, 2000], &[2000, 3], Judged::Distinct(0)),
        (&[4, 2001], &[2000, 3], Judged::Repeated(0)),
        (&[2, 2, 2], &[2, 3, 5], Judged::Repeated(1)),
        (&[2, 2, 5_000_000], &[4, 5, 6], Judged::Distinct(1)),
        (&[2], &[i64::MIN], Judged::Refused(3)),
        (&[3], &[1 << 62], Judged::Refused(3)),
        (&[3], &[-(1 << 62)], Judged::Distinct(0)),
        (&[(1 << 63) + 1], &[-1], Judged::Refused(3)),
        (&[1449; 4], &[10_000_000_000, 10_000_000_001, 10_000_000_002, 10_000_000_003], Judged::Undecided),
        (&[3; 12], &[100, 101, 102, 103, 104, 105, 106, 107, 108, 109, 110, 111], Judged::Repeated(0)),
    ];
    for (extents, strides, expected) in cases {
        assert_eq!(judge(extents, strides), expected, "{extents:?} {strides:?}");
    }
    let wide: Vec<i64> = (0..12).map(|axis| 100_000 + axis).collect();
    assert!(matches!(judge(&[3; 12], &wide), Judged::Enumerated(_)));
    assert!(!matches!(judge(&[3; 11], &wide[..11]), Judged::Enumerated(_)));
}

fn records() {
    let normal = |extents: &[u64], strides: &[i64]| normal_form(&Layout::of(100, 0, extents, strides));
    assert_eq!(normal(&[2, 1, 3], &[4, 9, 8]), Ok(Layout::of(100, 0, &[6], &[4])));
    assert_eq!(normal(&[2, 2], &[0, 0]), Ok(Layout::of(100, 0, &[4], &[0])));
    assert_eq!(normal(&[3, 2], &[2, 1]), Ok(Layout::of(100, 0, &[3, 2], &[2, 1])));
    let bytes = write(&Layout::of(6, 0, &[2, 3], &[1, 2]), 29, 0).expect("a record");
    assert_eq!(bytes, [0, 0x1d, 1, 1, 1, 0, 0, 0, 0, 0, 0, 0, 0, 0, 0, 0, 0, 0, 0, 0, 6, 0, 0, 0, 0, 0, 0, 0, 1]);
    assert_eq!(read(&bytes, 0), Ok(Layout::of(6, 0, &[6], &[1])));
}

/// A copy that is done, and what the destination's buffer holds afterwards.
fn done(source: Layout, from: &[i32], destination: Layout, to: &[i32], after: &[i32]) {
    let mut found = to.to_vec();
    let copied = copy(&source, from, &destination, &mut found, 0);
    assert_eq!((copied.answer, copied.verdict), (Ok(()), Some((1, 0))), "{source:?} {destination:?}");
    assert_eq!(found, after, "{source:?} {destination:?}");
}

/// A copy without scratch that is refused; the buffers have so many readings.
fn refused(number: u8, source: Layout, readings: usize, destination: Layout, room: usize) {
    let mut to = vec![7; room];
    let copied = copy(&source, &vec![1; readings], &destination, &mut to, 0);
    assert_eq!(copied.answer, Err((number, 0)), "{source:?} {destination:?}");
    assert_eq!(copied.free(), 0, "{source:?} {destination:?}");
    assert_eq!(to, vec![7; room], "{source:?} {destination:?}");
}

fn copies() {
    let of = Layout::of;
    done(of(6, 0, &[2, 3], &[1, 2]), &[1, 2, 3, 4, 5, 6], of(6, 0, &[2, 3], &[3, 1]), &[0; 6], &[1, 3, 5, 2, 4, 6]);
    done(of(3, 2, &[3], &[-1]), &[7, 8, 9], of(5, 1, &[3], &[1]), &[-1; 5], &[-1, 9, 8, 7, -1]);
    done(of(3, 0, &[3], &[1]), &[1, 2, 3], of(9, 8, &[3], &[-3]), &[0; 9], &[0, 0, 3, 0, 0, 2, 0, 0, 1]);
    done(of(3, 2, &[], &[]), &[5, 6, 7], of(2, 1, &[], &[]), &[1, 1], &[1, 7]);
    done(of(2, 0, &[2, 3], &[1, 0]), &[4, 9], of(6, 0, &[2, 3], &[1, 2]), &[0; 6], &[4, 9, 4, 9, 4, 9]);
    done(of(0, 7, &[0, 3], &[1, 1]), &[], of(0, -9, &[0, 3], &[5, 5]), &[4], &[4]);
    done(of(6, 0, &[2, 3], &[1, 2]), &[0, 1, 2, 3, 4, 5], of(100, 0, &[2, 3], &[1, 2]), &[9; 6], &[0, 1, 2, 3, 4, 5]);
    refused(14, of(6, 0, &[2, 3], &[1, 2]), 6, of(2, 0, &[2, 3], &[1, 0]), 2);
    refused(14, of(3, 0, &[2, 2], &[1, 1]), 3, of(3, 0, &[2, 2], &[1, 1]), 3);
    refused(12, of(2, 0, &[2, 1], &[1, 0]), 2, of(2, 0, &[2], &[1]), 2);
    refused(12, of(0, 0, &[0, 3], &[1, 1]), 0, of(0, 0, &[3, 0], &[1, 1]), 0);
    let long = Layout { rank: 17, ..of(1, 0, &[1; 16], &[1; 16]) };
    refused(1, of(0, 0, &[1], &[1]), 0, long, 1);
    refused(1, long, 0, of(0, 0, &[1], &[1]), 1);
    refused(3, of(5, 0, &[2, 3], &[1, 2]), 6, of(9, 0, &[3, 2], &[1, 3]), 9);
    refused(3, of(9, 0, &[3, 2], &[1, 3]), 9, of(5, 0, &[2, 3], &[1, 2]), 6);
    refused(13, of(6, 0, &[2, 3], &[1, 2]), 6, of(100, 0, &[2, 3], &[1, 2]), 5);
    refused(13, of(6, 0, &[2, 3], &[1, 2]), 5, of(100, 0, &[2, 3], &[1, 2]), 6);
    refused(13, of(2, 0, &[2, 2], &[1, 0]), 1, of(2, 0, &[2, 2], &[1, 0]), 2);
    for (number, extents) in [(8, &[1 << 32, 1 << 32][..]), (14, &[1 << 32, (1 << 32) - 1]), (14, &[(1 << 63) + 1])] {
        let one = of(1, 0, extents, &vec![0; extents.len()]);
        refused(number, one, 1, one, 1);
    }
    enumerated_copies();
}

/// Twelve axes that interleave: positions apart at the last stride, not so at one less.
fn enumerated_copies() {
    let layout = |last: i64| {
        let mut strides: Vec<i64> = (0..12).map(|axis| 2 * 3i64.pow(axis)).collect();
        strides[11] = last;
        Layout::of(708_587, 0, &[3; 12], &strides)
    };
    let from: Vec<i32> = (0..708_587).collect();
    let answer = |last: i64, room: usize, words: usize| {
        let mut to = vec![-1; room];
        let copied = copy(&layout(last), &from, &layout(last), &mut to, words);
        (copied.answer, copied.free(), to.into_iter().filter(|&reading| reading >= 0).count())
    };
    assert_eq!(answer(177_147, 708_587, 11_071), (Err((9, 11_072)), 0, 0));
    assert_eq!(answer(177_147, 708_587, 11_072), (Ok(()), 11_072, 531_441));
    assert_eq!(answer(177_146, 708_587, 11_072), (Err((14, 0)), 11_072, 0));
    assert_eq!(answer(177_147, 708_586, 11_072), (Err((13, 0)), 0, 0));
}

/// Means that are written: how many, and what the output holds afterwards, which is filled with 7 before.
fn meant(count: usize, layout: Layout, axis: u64, readings: &[i32], after: &[i32]) {
    let mut out = vec![7; after.len()];
    assert_eq!(means(&layout, axis, readings, &mut out).answer, Ok(count), "{layout:?}");
    assert_eq!(out, after, "{layout:?}");
}

/// Means that are refused; buffer and output have so many readings.
fn not_meant(number: u8, values: [u64; 2], layout: Layout, axis: u64, readings: usize, room: usize) {
    let mut out = vec![7; room];
    assert_eq!(means(&layout, axis, &vec![1; readings], &mut out).answer, Err((number, values)), "{layout:?}");
    assert_eq!(out, vec![7; room], "{layout:?}");
}

fn averages() {
    let of = Layout::of;
    let (faces, column) = (of(6, 0, &[2, 3], &[1, 2]), |length: u64| of(length, 0, &[length], &[1]));
    meant(3, faces, 0, &[10, 11, -10, -11, 3, 4], &[11, -11, 4, 7]);
    meant(2, faces, 1, &[10, 11, -10, -11, 3, 4], &[1, 1]);
    meant(2, of(6, 5, &[2, 3], &[-1, -2]), 1, &[1, 2, 3, 4, 5, 7], &[4, 3]);
    let (low, high) = (i32::MIN, i32::MAX);
    for ([one, other], mean) in [([0, 1], 1), ([-1, 0], -1), ([3, 0], 2), ([0, -3], -2), ([-1, 1], 0)] {
        meant(1, column(2), 0, &[one, other], &[mean]);
    }
    for ([one, other], mean) in [([high, low], -1), ([high - 1, high], high), ([low, low + 1], low), ([low; 2], low), ([high; 2], high)] {
        meant(1, column(2), 0, &[one, other], &[mean]);
    }
    for (readings, mean) in [([1, 0, 0], 0), ([1, 1, 0], 1), ([-1, 0, 0], 0), ([-1, -1, 0], -1), ([low; 3], low), ([high; 3], high)] {
        meant(1, column(3), 0, &readings, &[mean]);
    }
    meant(4, of(4, 0, &[4, 1], &[1, i64::MIN]), 1, &[5, low, high, -6], &[5, low, high, -6]);
    meant(6, of(2, 1, &[2, 3, 2], &[0, 0, -1]), 2, &[low, -1], &[-1_073_741_825; 6]);
    meant(1, of(1, 0, &[65_536], &[0]), 0, &[low], &[low]);
    meant(0, of(0, 9, &[2, 0], &[1, 1]), 0, &[], &[7]);
    not_meant(1, [0; 2], Layout { rank: 17, ..of(0, -1, &[0; 16], &[0; 16]) }, 17, 0, 0);
    not_meant(3, [0; 2], of(5, 0, &[2, 3], &[1, 2]), 2, 6, 3);
    not_meant(5, [2, 2], faces, 2, 0, 0);
    not_meant(5, [0, 0], of(1, 0, &[], &[]), 0, 1, 1);
    let half = 1 << 63;
    not_meant(8, [0; 2], of(0, 0, &[0, half, 2], &[0; 3]), 0, 0, 0);
    not_meant(8, [0; 2], of(1, 0, &[half, 65_537, 2], &[0; 3]), 1, 0, 0);
    not_meant(10, [half, 0], of(0, 0, &[0, half, 1], &[0; 3]), 0, 0, 0);
    not_meant(16, [0; 2], of(0, 0, &[65_537, half, 2, 0], &[0; 4]), 0, 0, 0);
    not_meant(13, [0; 2], faces, 0, 5, 2);
    not_meant(10, [3, 0], faces, 0, 6, 2);
    not_meant(10, [3, 0], of(0, 0, &[3, 0], &[1; 2]), 1, 0, 2);
    not_meant(15, [0; 2], of(0, 0, &[3, 0], &[1; 2]), 1, 0, 3);
    not_meant(15, [0; 2], of(0, 0, &[0, 0], &[1; 2]), 1, 0, 0);
    not_meant(10, [3, 0], of(1, 0, &[3, 65_537], &[0; 2]), 1, 1, 2);
    not_meant(16, [0; 2], of(1, 0, &[3, 65_537], &[0; 2]), 1, 1, 3);
}

pub fn check() {
    verdicts();
    records();
    copies();
    averages();
}
