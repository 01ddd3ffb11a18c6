//! The calls that strided-rs does not have, our library beside the reference: `added SECONDS SEED`.

use harness::copies::CopyInput;
use harness::input::{joined, Layout, VALUES};
use harness::means::MeansInput;
use harness::ours::{self, strided_copy, strided_means, strided_normal_form, strided_read, strided_step, strided_write, Values};
use harness::random::Random;
use harness::record::{self, Refused};
use harness::reference::words_needed;
use harness::{averaging, copies, copying, layouts, means, shapes};
use std::collections::BTreeMap;
use std::time::{Duration, Instant};

const PATTERN: u64 = 0xa5c3_96e1_d00d_beef;
const BYTE: u8 = 0xa5;
const READING: i32 = 0x3c96_e1d0;
/// So many readings lie in front of a lent buffer, and behind it.
const AROUND: usize = 8;

/// A struct that is handed over, and words behind it.
#[repr(C)]
#[derive(Clone, Copy, PartialEq)]
struct Guarded<T> {
    lent: T,
    behind: [u64; 2],
}

impl<T> Guarded<T> {
    fn of(lent: T) -> Guarded<T> {
        Guarded { lent, behind: [PATTERN; 2] }
    }

    /// Where the struct lies, with the words behind it.
    fn at(&mut self) -> *mut T {
        (self as *mut Guarded<T>).cast()
    }
}

const NO_VALUES: Values = Values { first: PATTERN as usize, second: PATTERN as usize };

struct Lent {
    layout: Guarded<ours::Layout>,
    values: Guarded<Values>,
    /// The words that are lent, and four behind them.
    scratch: Vec<u64>,
}

impl Lent {
    fn of(layout: &Layout, words: usize) -> Lent {
        Lent { layout: Guarded::of(layout.into()), values: Guarded::of(NO_VALUES), scratch: vec![PATTERN; words + 4] }
    }

    /// The words past what was handed over, and scratch but for the words from its first on that may hold anything.
    fn kept(&self, free: usize) -> bool {
        self.layout.behind == [PATTERN; 2] && self.values.behind == [PATTERN; 2] && self.scratch.iter().skip(free).all(|&word| word == PATTERN)
    }

    /// The layout, if the values are as they were.
    fn made(&self) -> Result<Layout, Refused> {
        if self.values.lent != NO_VALUES {
            return Err(CHANGED);
        }
        Ok(Layout::from(&self.layout.lent))
    }

    /// The refusal with its first value, if those that it does not have are as they were and the layout is too, also past its rank.
    fn refused(&self, number: u8, before: &Layout) -> Refused {
        let (number, [first, _]) = self.refused_with(number, before);
        (number, first)
    }

    /// The same with both values.
    fn refused_with(&self, number: u8, before: &Layout) -> averaging::Refused {
        let count = VALUES.get(number as usize).copied().unwrap_or(0);
        let mut values = [self.values.lent.first as u64, self.values.lent.second as u64];
        if self.layout.lent != before.into() || values[count..].iter().any(|&value| value != PATTERN) {
            return (CHANGED.0, [CHANGED.1; 2]);
        }
        values[count..].fill(0);
        (number, values)
    }
}

/// How many words of scratch the enumeration of a layout may use, if so many are lent.
fn free(layout: &Layout, words: usize) -> usize {
    let needed = words_needed(layout.extents(), layout.strides()).unwrap_or(0) as usize;
    if needed <= words {
        needed
    } else {
        0
    }
}

/// Stands for an answer after which lent memory is not as it should be.
const CHANGED: Refused = (254, 0);

/// What the reference answers to an input of a call, and the difference, if there is one.
struct Tried {
    call: &'static str,
    answer: String,
    difference: Option<String>,
}

fn tried<T>(call: &'static str, answer: &Result<T, Refused>, same: bool, difference: String) -> Tried {
    let answer = match answer {
        Ok(_) => "done".to_string(),
        Err((number, _)) => format!("refused {number}"),
    };
    Tried { call, answer, difference: (!same).then_some(difference) }
}

/// A layout; now and then one whose verdict is enumerated.
fn layout(random: &mut Random) -> Layout {
    if !random.once_in(20_000) {
        return layouts::layout(random);
    }
    let (extents, strides) = shapes::enumerated_any(random);
    Layout::of(u64::MAX, 1 << 62, extents.slice(), strides.slice())
}

fn normal(random: &mut Random) -> Tried {
    let layout = layouts::layout(random);
    let mut lent = Lent::of(&layout, 0);
    // SAFETY: the pointer is that of a layout.
    let number = unsafe { strided_normal_form(lent.layout.at()) };
    let found = if number == 0 { lent.made() } else { Err(lent.refused(number, &layout)) };
    let expected = record::normal_form(&layout);
    let same = found == expected && lent.kept(0);
    tried("normal form", &expected, same, format!("{} (rank {}): {number}", layout.text(), layout.rank))
}

fn write(random: &mut Random) -> Tried {
    let layout = layout(random);
    let normal = record::normal_form(&layout).unwrap_or(layout);
    let room = if random.once_in(8) { random.below(280) as usize } else { 13 + 16 * normal.held() + random.below(3) as usize };
    let needed = words_needed(normal.extents(), normal.strides()).unwrap_or(0);
    let words = if random.once_in(4) { needed / 2 } else { needed + random.below(3) } as usize;
    let mut lent = Lent::of(&layout, words);
    let mut out = [BYTE; 300];
    // SAFETY: each pointer is that of a struct or has so many bytes or words behind it.
    let number = unsafe {
        strided_write(lent.layout.at(), out.as_mut_ptr(), room, lent.scratch.as_mut_ptr(), words, lent.values.at())
    };
    let expected = record::write(&layout, room, words);
    let (found, used) = match number {
        0 => {
            let size = lent.values.lent.first.min(300);
            (Ok(out[..size].to_vec()), size)
        }
        _ => (Err(lent.refused(number, &layout)), 0),
    };
    let kept = lent.layout.lent == (&layout).into() && lent.values.lent.second == NO_VALUES.second && lent.kept(free(&normal, words));
    let same = found == expected && out[used..].iter().all(|&byte| byte == BYTE) && kept;
    tried("writing", &expected, same, format!("{} (rank {}), room {room}, {words} words: {number}", layout.text(), layout.rank))
}

/// The record of a layout, whole, cut, with bytes behind it or with one byte or one field changed.
fn bytes(random: &mut Random) -> Vec<u8> {
    let mut bytes = loop {
        if let Ok(bytes) = record::write(&layout(random), 300, usize::MAX) {
            break bytes;
        }
    };
    let place = random.below(bytes.len() as u64) as usize;
    match random.below(10) {
        0 => bytes.truncate(place),
        1 => bytes[place] ^= 1 << random.below(8),
        2 => bytes[random.below(5) as usize] = random.word() as u8,
        3 => bytes[3] = random.between(1, 3) as u8,
        4 if bytes.len() > 13 => {
            let field = 5 + 8 * random.below((bytes.len() as u64 - 5) / 8) as usize;
            let word = if random.once_in(2) { random.extent() } else { random.step() as u64 };
            bytes[field..field + 8].copy_from_slice(&word.to_be_bytes());
        }
        _ => {}
    }
    (0..random.below(4)).for_each(|_| bytes.push(random.word() as u8));
    bytes
}

fn read(random: &mut Random) -> Tried {
    let bytes = bytes(random);
    let mut kept_bytes = bytes.clone();
    let whole = record::read(&bytes, usize::MAX);
    let judged = whole.unwrap_or(Layout::of(0, 0, &[], &[]));
    let needed = words_needed(judged.extents(), judged.strides()).unwrap_or(0);
    let words = if random.once_in(4) { needed / 2 } else { needed + random.below(3) } as usize;
    let before = layouts::layout(random);
    let mut lent = Lent::of(&before, words);
    // SAFETY: as above.
    let number = unsafe {
        strided_read(lent.layout.at(), kept_bytes.as_mut_ptr(), bytes.len(), lent.scratch.as_mut_ptr(), words, lent.values.at())
    };
    let found = if number == 0 { lent.made() } else { Err(lent.refused(number, &before)) };
    // A record that is refused for its verdict may have used scratch, too: then only its words past the need are looked at.
    let kept = whole.is_err() || lent.kept(free(&judged, words));
    // SAFETY: as above.
    let stepped = unsafe { strided_step(bytes.as_ptr(), bytes.len()) };
    let expected = record::read(&bytes, words);
    let same = found == expected && kept && kept_bytes == bytes && stepped == record::step(&bytes);
    tried("reading", &expected, same, format!("{} with {words} words: {number}, stepping over: {stepped}", joined(&bytes)))
}

/// A buffer with readings in front of it and behind it.
fn around(readings: &[i32]) -> Vec<i32> {
    [&[READING; AROUND], readings, &[READING; AROUND]].concat()
}

fn copy(random: &mut Random) -> Tried {
    let CopyInput { source, from, destination, to, words } = copies::copy(random);
    let mut after = to.clone();
    let copied = copying::copy(&source, &from, &destination, &mut after, words);
    let (mut lent_source, mut lent) = (Guarded::of((&source).into()), Lent::of(&destination, words));
    let (lent_from, mut lent_to) = (around(&from), around(&to));
    // SAFETY: each pointer is that of a struct or has so many readings or words behind it.
    let number = unsafe {
        let (from_at, to_at) = (lent_from[AROUND..].as_ptr(), lent_to[AROUND..].as_mut_ptr());
        let scratch_at = lent.scratch.as_mut_ptr();
        strided_copy(lent_source.at(), from_at, from.len(), lent.layout.at(), to_at, to.len(), scratch_at, words, lent.values.at())
    };
    let found = if number == 0 { lent.made().map(|_| ()) } else { Err(lent.refused(number, &destination)) };
    let layouts_kept = lent_source == Guarded::of((&source).into()) && lent.layout.lent == (&destination).into();
    let buffers = lent_from == around(&from) && lent_to == around(&after);
    let same = found == copied.answer && layouts_kept && buffers && lent.kept(copied.free());
    let text = format!("{} (rank {}) to {} (rank {})", source.text(), source.rank, destination.text(), destination.rank);
    let lengths = format!("{} and {} readings, {words} words", from.len(), to.len());
    let tried = tried("copy", &copied.answer, same, format!("{text}, {lengths}: {number}, and not {:?}", copied.answer));
    Tried { answer: copied.kind(&source), ..tried }
}

fn means(random: &mut Random) -> Tried {
    let MeansInput { layout, axis, readings, out } = means::means(random);
    let mut after = out.clone();
    let averaged = averaging::means(&layout, axis, &readings, &mut after);
    let mut lent = Lent::of(&layout, 0);
    let (lent_readings, mut lent_out) = (around(&readings), around(&out));
    // SAFETY: as above.
    let number = unsafe {
        let (readings_at, out_at) = (lent_readings[AROUND..].as_ptr(), lent_out[AROUND..].as_mut_ptr());
        strided_means(lent.layout.at(), axis as usize, readings_at, readings.len(), out_at, out.len(), lent.values.at())
    };
    let is_kept = lent.layout.lent == (&layout).into() && lent.values.lent.second == NO_VALUES.second;
    let found = match number {
        0 if is_kept => Ok(lent.values.lent.first),
        _ => Err(lent.refused_with(number, &layout)),
    };
    let buffers = lent_readings == around(&readings) && lent_out == around(&after);
    let same = found == averaged.answer && buffers && lent.kept(0);
    let text = format!("{} (rank {}), axis {axis}, {} readings, {} of output", layout.text(), layout.rank, readings.len(), out.len());
    let difference = (!same).then(|| format!("{text}: {found:?}, and not {:?}", averaged.answer));
    Tried { call: "means", answer: averaged.kind(&layout, axis), difference }
}

fn main() {
    harness::examples::check();
    let words: Vec<u64> = std::env::args().skip(1).map(|word| word.parse().expect("a number")).collect();
    let mut random = Random::new(words[1]);
    let end = Instant::now() + Duration::from_secs(words[0]);
    let (mut inputs, mut differences) = (0u64, 0u64);
    let mut answers: BTreeMap<(&str, String), u64> = BTreeMap::new();
    println!("seed {}: the added calls beside the reference", words[1]);
    while inputs % 256 != 0 || Instant::now() < end {
        inputs += 1;
        let tried = match random.below(5) {
            0 => normal(&mut random),
            1 => write(&mut random),
            2 => read(&mut random),
            3 => copy(&mut random),
            _ => means(&mut random),
        };
        *answers.entry((tried.call, tried.answer)).or_default() += 1;
        if let Some(text) = tried.difference {
            differences += 1;
            if differences <= 20 {
                println!("difference in {}: {text}", tried.call);
            }
        }
    }
    println!("by call and answer:");
    answers.iter().for_each(|((call, answer), count)| println!("  {call}, {answer}: {count}"));
    println!("{inputs} inputs, {differences} differences");
    std::process::exit(i32::from(differences > 0));
}
