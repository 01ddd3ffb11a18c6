//! Random sessions of the program `layout`: lines, good and malformed, each with what it answers.

use crate::copies::{self, CopyInput};
use crate::help::TOPICS;
use crate::input::{Input, Layout, List};
use crate::means::{self, MeansInput};
use crate::random::{Random, EXTENTS, STEPS};
use crate::reference::words_needed;
use crate::text::{bytes, line, list, Session, COMMANDS, LONGEST};
use crate::{layouts, record, shapes};
use std::fmt::Display;

type Word = Vec<u8>;

/// A line without its line feed, and what it answers.
pub struct Asked {
    pub line: Vec<u8>,
    pub answers: Vec<String>,
    /// The layouts that were current and held before it.
    pub before: Layout,
    pub held: Layout,
}

struct Maker<'a> {
    random: &'a mut Random,
    session: Session,
    asked: Vec<Asked>,
}

/// A session of some hundred lines. Verdicts look at few vectors, but for one session in many.
pub fn session(random: &mut Random) -> Vec<Asked> {
    let budget = match random.below(256) {
        0 => 40_000_000,
        1..=31 => 3_000_000,
        _ => 200_000,
    };
    let mut maker = Maker { random, session: Session::new(budget), asked: vec![] };
    let length = maker.random.between(1, 600) as usize;
    while maker.asked.len() < length {
        maker.step();
    }
    maker.asked
}

/// Bytes that lines are cut, split and counted at, and bytes that do not print.
const BYTES: [u8; 28] = [
    b' ', b'\t', b'\r', b',', b',', b':', b'-', b'-', b'+', b'#', b'.', b'\\', b'0', b'1', b'9', b'a', b'F', b'g', b'x', 0, 1, 0x0b, 0x0c, 0x1b, 0x7f, 0x80, 0xc3, 0xff,
];

/// Pieces of words: characters of two to four bytes, parts of them, what is no character though it looks like one, and numbers at the ends of ranges.
const PIECES: [&[u8]; 50] = [
    "é".as_bytes(), "ß".as_bytes(), "€".as_bytes(), "漢".as_bytes(), "🦀".as_bytes(), "\u{85}".as_bytes(), "\u{a0}".as_bytes(), "\u{2028}".as_bytes(), "\u{feff}".as_bytes(),
    "\u{9b}".as_bytes(), "\u{ad}".as_bytes(), "\u{300}".as_bytes(), "\u{61c}".as_bytes(), "\u{200b}".as_bytes(), "\u{202e}".as_bytes(), "\u{2066}".as_bytes(), "\u{fe0f}".as_bytes(),
    "\u{e0041}".as_bytes(), "\u{e000}".as_bytes(),
    b"\xc3", b"\xa9", b"\xe2\x82", b"\xf0\x9f\xa6", b"\xc0\x80", b"\xed\xa0\x80", b"\xf4\x90\x80\x80", b"\xf8\x88\x80\x80\x80", b"\xff\xfe",
    b"18446744073709551615", b"18446744073709551616", b"18446744073709551614", b"9223372036854775807", b"9223372036854775808", b"-9223372036854775808", b"-9223372036854775809",
    b"2147483647", b"2147483648", b"-2147483648", b"-2147483649", b"65535", b"65536", b"65537", b"-0", b"-1", b"+1", b"0x10", b"1e3", b"340282366920938463463374607431768211456", b"000000000000000000000000000000000000000000007", b"--1",
];

impl Maker<'_> {
    fn once_in(&mut self, n: u64) -> bool {
        self.random.once_in(n)
    }

    fn below(&mut self, n: usize) -> usize {
        self.random.below(n as u64) as usize
    }

    /// Asks a line, unless its verdict is too dear, or two pieces of it make a character that is none of `PIECES`: Rust and the
    /// kit have tables of different versions of Unicode, and may not agree whether it can be seen.
    fn ask(&mut self, line: Vec<u8>) {
        if line.contains(&b'\n') || has_other_character(&line) {
            return;
        }
        let (before, held) = (self.session.layout, self.session.held);
        let Some(answers) = self.session.answer(&line) else {
            return;
        };
        self.asked.push(Asked { line, answers, before, held });
    }

    /// One line, or two that belong together; after a view its layout is often shown.
    fn step(&mut self) {
        match self.below(24) {
            0 => {
                let line = self.wordless();
                self.ask(line);
            }
            1 => {
                let line = self.long();
                self.ask(line);
            }
            2..=7 => {
                let mut words = self.good();
                for _ in 0..1 + self.below(2) {
                    self.spoil(&mut words);
                }
                let line = self.spaced(&words);
                self.ask(line);
            }
            8..=12 => self.library(),
            _ => {
                let words = self.good();
                let line = self.spaced(&words);
                self.ask(line);
            }
        }
        if self.once_in(4) {
            self.ask(b"show".to_vec());
        }
    }

    /// A layout's words; above rank 16 the lists have more entries than the layout holds.
    fn laid(&mut self, name: &str, layout: &Layout) -> Vec<Word> {
        let (mut extents, mut strides) = (layout.extents().to_vec(), layout.strides().to_vec());
        if layout.rank > 16 {
            let rank = if self.once_in(4) { self.random.between(17, 64) } else { self.random.between(17, 20) };
            while extents.len() < rank as usize {
                extents.push(self.random.extent());
                strides.push(self.random.step());
            }
        }
        checked_in(name, layout.len, layout.offset, &extents, &strides)
    }

    /// A call of the library as `oracle/compare` draws them: a view's layout is set first.
    fn library(&mut self) {
        let input = layouts::any(self.random);
        if let Input::Permute { layout, .. } | Input::Diagonal { layout, .. } | Input::Broadcast { layout, .. } | Input::Offset { layout, .. } = &input {
            let words = self.laid("set", layout);
            self.ask(line(&words));
        }
        let words = self.called(&input);
        let line = self.spaced(&words);
        self.ask(line);
    }

    /// The command that makes a call; a view is one of the current layout.
    fn called(&mut self, input: &Input) -> Vec<Word> {
        match input {
            Input::Bounds { len, offset, extents, strides } => checked_in("bounds", *len, *offset, extents.slice(), strides.slice()),
            Input::New { len, offset, extents, strides } => checked_in("new", *len, *offset, extents.slice(), strides.slice()),
            Input::Permute { axes, .. } => command("permute", &[list(axes.slice())]),
            Input::Diagonal { pairs, .. } => command("diagonal", &[paired(pairs.slice())]),
            Input::Broadcast { target, .. } => command("broadcast", &[list(target.slice())]),
            Input::Offset { index, .. } => command("offset", &[list(index.slice())]),
            Input::Injective { extents, strides, words } => {
                let scratch = if *words > 65_536 || self.once_in(2) { vec![] } else { vec![word(words)] };
                [command("injective", &[list(extents.slice()), list(strides.slice())]), scratch].concat()
            }
            Input::Order { strides, out } => command("order", &[list(strides.slice()), word(out)]),
            Input::Column { extents } => command("column", &[list(extents.slice())]),
            Input::Row { extents } => command("row", &[list(extents.slice())]),
        }
    }

    /// WORDS for a verdict on these, or none: enough, just enough, short by one or anything.
    fn scratch(&mut self, extents: &[u64], strides: &[i64]) -> Vec<Word> {
        let needed = words_needed(extents, strides).unwrap_or(0);
        let words = match self.below(8) {
            0..=2 => return vec![],
            3 => needed,
            4 => needed.saturating_sub(1),
            5 => self.random.of_width(17),
            _ => needed + self.random.below(4),
        };
        vec![word(words.min(65_536))]
    }

    /// A command that is spelled as it should be.
    fn good(&mut self) -> Vec<Word> {
        let layout = self.session.layout;
        let random = &mut *self.random;
        match random.below(24) {
            0 => self.drawn(),
            1 => command("normal", &[]),
            2 | 3 => {
                let scratch = self.scratch(layout.extents(), layout.strides());
                command("verdict", &scratch)
            }
            4 | 5 => self.record(&layout),
            6 | 7 => {
                let record = self.bytes();
                let read = record::fields(&record).map_or(Layout::of(0, 0, &[], &[]), |(layout, _)| layout);
                let scratch = self.scratch(read.extents(), read.strides());
                [command("read", &[self.hexadecimal(&record)]), scratch].concat()
            }
            8 => {
                let mut all = self.bytes();
                for _ in 0..self.below(4) {
                    all.extend(self.bytes());
                }
                all.truncate(2045);
                command("rest", &[self.hexadecimal(&all)])
            }
            9 => {
                let topic = if random.once_in(2) { name(random) } else { random.pick(&TOPICS) };
                command("help", &[word(topic)])
            }
            10 if random.once_in(4) => command("help", &[]),
            10 | 11 => self.enumerated(),
            12 => {
                let input = layouts::permute(random, layout);
                self.called(&input)
            }
            13 => {
                let input = layouts::diagonal(random, layout);
                self.called(&input)
            }
            14 => {
                let input = layouts::broadcast(random, layout);
                self.called(&input)
            }
            15 => {
                let input = layouts::offset(random, layout);
                self.called(&input)
            }
            16 => {
                let layout = layouts::layout(random);
                self.laid("set", &layout)
            }
            17 => {
                let layout = layouts::layout(random);
                self.laid("new", &layout)
            }
            18 if random.once_in(4) => command("hold", &[]),
            18 | 19 => self.copied(),
            20 | 21 => self.meant(),
            _ => {
                let input = layouts::any(random);
                self.called(&input)
            }
        }
    }

    /// A picture: of the current layout, or of one with about as many positions as are drawn or fewer, where most positions share cells.
    fn drawn(&mut self) -> Vec<Word> {
        if self.once_in(4) {
            return command("draw", &[]);
        }
        let (mut extents, mut strides, mut most) = (vec![], vec![], if self.once_in(4) { 220 } else { 40 });
        for _ in 0..self.below(5) {
            let extent = if self.once_in(16) { 0 } else { self.random.between(1, most) };
            most /= extent.max(1);
            extents.push(extent);
            strides.push(if extent < 2 { self.random.step() } else { self.random.between(0, 8) as i64 - 4 });
        }
        let offset = if self.once_in(8) { self.random.below(40) as i64 } else { 1000 };
        let words = checked_in("set", self.random.between(1000, 2000), offset, &extents, &strides);
        self.ask(line(&words));
        command("draw", &[])
    }

    /// A copy: through layouts that were drawn for it, or through those that are there.
    fn copied(&mut self) -> Vec<Word> {
        let CopyInput { source, from, destination, to, words } = copies::small(self.random);
        if !self.once_in(8) {
            let held = self.laid("set", &destination);
            self.ask(line(&held));
            self.ask(b"hold".to_vec());
            let current = self.laid("set", &source);
            self.ask(line(&current));
        }
        let scratch = match self.below(4) {
            0 => vec![],
            1 => self.scratch(destination.extents(), destination.strides()),
            _ => vec![word(words.min(65_536))],
        };
        [command("copy", &[list(&from), list(&to)]), scratch].concat()
    }

    /// Means: through a layout that was drawn for them, or through the one that is there.
    fn meant(&mut self) -> Vec<Word> {
        let MeansInput { layout, axis, readings, out } = means::small(self.random);
        if !self.once_in(8) {
            let current = self.laid("set", &layout);
            self.ask(line(&current));
        }
        let room = if self.once_in(4) { self.random.of_width(17).min(65_536) } else { out.len() as u64 };
        command("means", &[word(axis), list(&readings), word(room)])
    }

    fn record(&mut self, layout: &Layout) -> Vec<Word> {
        let normal = record::normal_form(layout).unwrap_or(*layout);
        let size = 13 + 16 * normal.held() as u64;
        let room = match self.below(8) {
            0 => size - 1,
            1 => size,
            2 => self.random.below(size),
            3 => self.random.of_width(17).min(65_536),
            _ => 269,
        };
        let scratch = self.scratch(normal.extents(), normal.strides());
        [command("record", &[word(room)]), scratch].concat()
    }

    /// Extents and strides whose verdict is enumerated, in all three commands that have WORDS.
    fn enumerated(&mut self) -> Vec<Word> {
        let (extents, strides) = if self.once_in(32) { most_words(self.random) } else { shapes::enumerated_any(self.random) };
        let (extents, strides) = (extents.slice(), strides.slice());
        let scratch = self.scratch(extents, strides);
        let sort = self.below(4);
        if sort > 1 {
            return [command("injective", &[list(extents), list(strides)]), scratch].concat();
        }
        let layout = Layout::of(u64::MAX, 1 << 62, extents, strides);
        let words = self.laid("set", &layout);
        self.ask(line(&words));
        if sort == 1 {
            return self.record(&layout);
        }
        [command("verdict", &[]), scratch].concat()
    }

    /// A record that was answered, whole, cut, with bytes behind it, or with one byte or one field changed; now and then anything.
    fn bytes(&mut self) -> Vec<u8> {
        let random = &mut *self.random;
        if self.session.records.is_empty() || random.once_in(16) {
            return (0..random.below(40)).map(|_| random.word() as u8 & 0x1f).collect();
        }
        let mut bytes = self.session.records[random.below(self.session.records.len() as u64) as usize].clone();
        let place = random.below(bytes.len() as u64) as usize;
        match random.below(16) {
            0 => bytes.truncate(place),
            1 => bytes[place] ^= 1 << random.below(8),
            2 => bytes[random.below(5) as usize] = random.word() as u8,
            3 => bytes[3] = random.between(0, 4) as u8,
            4 if bytes.len() > 13 => {
                let field = 5 + 8 * random.below((bytes.len() as u64 - 5) / 8) as usize;
                let word = if random.once_in(2) { random.extent() } else { random.step() as u64 };
                bytes[field..field + 8].copy_from_slice(&word.to_be_bytes());
            }
            5 => bytes[..2].copy_from_slice(&(random.between(0, 300) as u16).to_be_bytes()),
            6..=8 => (0..random.below(20)).for_each(|_| bytes.push(random.word() as u8)),
            _ => {}
        }
        bytes
    }

    /// Bytes as a word, now and then in capitals or in both.
    fn hexadecimal(&mut self, from: &[u8]) -> Word {
        let mut word = bytes(from);
        let sort = self.below(4);
        for byte in &mut word {
            if sort == 0 || sort == 1 && self.random.once_in(2) {
                byte.make_ascii_uppercase();
            }
        }
        word
    }

    /// The words with something between them, mostly one space.
    fn spaced(&mut self, words: &[Word]) -> Vec<u8> {
        if self.once_in(2) {
            return line(words);
        }
        let mut line = self.spaces(4);
        for (place, word) in words.iter().enumerate() {
            if place > 0 {
                line.push(if self.once_in(4) { b'\t' } else { b' ' });
                line.extend(self.spaces(8));
            }
            line.extend(word);
        }
        line.extend(self.spaces(4));
        match self.below(16) {
            0..=3 => line.push(b'\r'),
            4 => line.extend(b"\r\r"),
            5 => {
                let place = self.below(line.len() + 1);
                line.insert(place, b'\r');
            }
            _ => {}
        }
        line
    }

    /// No spaces and tabs, or once in `n` some.
    fn spaces(&mut self, n: u64) -> Vec<u8> {
        if !self.once_in(n) {
            return vec![];
        }
        (0..self.below(5)).map(|_| if self.once_in(3) { b'\t' } else { b' ' }).collect()
    }

    /// A line with no word, or a comment.
    fn wordless(&mut self) -> Vec<u8> {
        let mut line = self.spaces(1);
        if self.once_in(2) {
            line.push(b'#');
            for _ in 0..self.below(40) {
                line.push(self.piece()[0]);
            }
        }
        if self.once_in(4) {
            line.push(b'\r');
        }
        line
    }

    /// A byte, or a piece of a word.
    fn piece(&mut self) -> Vec<u8> {
        match self.below(4) {
            0 => vec![self.random.word() as u8],
            1 => self.random.pick(&PIECES).to_vec(),
            _ => vec![self.random.pick(&BYTES)],
        }
    }

    /// A line of about the most bytes that a line has, or far more.
    fn long(&mut self) -> Vec<u8> {
        let size = match self.below(8) {
            0 => self.random.between(8180, 8200),
            1 => self.random.of_width(18),
            _ => self.random.between(LONGEST as u64 - 3, LONGEST as u64 + 3),
        } as usize;
        let words = self.good();
        let mut line = self.spaced(&words);
        let missing = size.saturating_sub(line.len());
        match self.below(6) {
            // Spaces, in front, between or behind.
            0 => drop(line.splice(0..0, vec![b' '; missing])),
            1 => {
                let place = line.iter().position(|&byte| byte == b' ').unwrap_or(line.len());
                line.splice(place..place, vec![b' '; missing]);
            }
            2 => line.extend(vec![b'\t'; missing]),
            // Zeros in front of a number, or a word of so many bytes.
            3 => {
                let place = line.iter().position(u8::is_ascii_digit).unwrap_or(0);
                line.splice(place..place, vec![b'0'; missing]);
            }
            4 => {
                let byte = self.random.pick(&[b'x', b'0', b',', 0xc3]);
                line.extend(vec![byte; missing]);
            }
            // A comment.
            _ => drop(line.splice(0..0, vec![b'#'; missing])),
        }
        if self.once_in(2) {
            *line.last_mut().expect("a long line") = b'\r';
        }
        line
    }

    /// One fault.
    fn spoil(&mut self, words: &mut Vec<Word>) {
        let place = self.below(words.len());
        match self.below(16) {
            0 if words.len() > 1 => drop(words.remove(place)),
            1 => {
                let word = if self.once_in(2) { words[place].clone() } else { self.piece() };
                words.insert(place, word);
            }
            2 => {
                let other = self.below(words.len());
                words.swap(place, other);
            }
            3 => self.spoil_name(&mut words[0]),
            4 => words[place] = self.junk(),
            5 if words.len() > 1 => {
                let place = 1 + self.below(words.len() - 1);
                words[place] = self.random.pick(&PIECES).to_vec();
            }
            6 | 7 if words.len() > 1 => {
                let place = 1 + self.below(words.len() - 1);
                self.many_entries(&mut words[place]);
            }
            8..=11 if words.len() > 1 => {
                let place = 1 + self.below(words.len() - 1);
                self.spoil_entry(&mut words[place]);
            }
            12 => {
                let last = words.len() - 1;
                words[last] = self.number();
            }
            _ => self.spoil_bytes(&mut words[place]),
        }
    }

    /// Another name, or nearly one.
    fn spoil_name(&mut self, named: &mut Word) {
        match self.below(6) {
            0 => named.make_ascii_uppercase(),
            1 => named.truncate(named.len() - 1),
            2 => named.extend(self.piece()),
            3 => *named = word(name(self.random)),
            4 => *named = word(self.random.pick(&["exit", "quit", "end", "bye"])),
            _ => self.spoil_bytes(named),
        }
    }

    /// Some bytes of a word changed, added or taken out.
    fn spoil_bytes(&mut self, word: &mut Word) {
        for _ in 0..1 + self.below(3) {
            let place = self.below(word.len() + 1);
            let piece = self.piece();
            match self.below(3) {
                0 if place < word.len() => drop(word.remove(place)),
                1 if place < word.len() => drop(word.splice(place..place + 1, piece)),
                _ => drop(word.splice(place..place, piece)),
            }
        }
        if word.is_empty() {
            word.push(b'-');
        }
    }

    /// A word of pieces, its length about what an error shows.
    fn junk(&mut self) -> Word {
        let size = if self.once_in(3) { self.random.below(200) } else { self.random.between(28, 36) } as usize;
        let mut word = vec![];
        while word.len() < size {
            let piece = if self.once_in(2) { vec![b'a'] } else { self.piece() };
            word.extend(piece);
        }
        if self.once_in(2) {
            word.truncate(size);
        }
        word
    }

    /// A number, small, at an end of a range, or with zeros in front.
    fn number(&mut self) -> Word {
        match self.below(6) {
            0 => word(self.random.pick(&EXTENTS)),
            1 => word(self.random.pick(&STEPS)),
            2 => self.random.pick(&PIECES[18..]).to_vec(),
            3 => word(format!("{:0width$}", self.random.of_width(64), width = self.random.below(60) as usize)),
            4 => word(u64::MAX as u128 + self.random.of_width(64) as u128),
            _ => word(self.random.below(70_000)),
        }
    }

    /// A list's entry that is none, or another one.
    fn spoil_entry(&mut self, word: &mut Word) {
        let mut entries: Vec<Word> = word.split(|&byte| byte == b',').map(<[u8]>::to_vec).collect();
        let place = self.below(entries.len());
        match self.below(8) {
            0 => entries[place].clear(),
            1 => entries.insert(place, vec![]),
            2 => entries[place] = self.junk(),
            3 | 4 => entries[place] = self.number(),
            5 => entries[place] = b"-".to_vec(),
            6 => entries[place].push(b':'),
            _ => self.spoil_bytes(&mut entries[place]),
        }
        *word = entries.join(&b',');
    }

    /// A list of about 64 entries or far more, with or without one that is none.
    fn many_entries(&mut self, word: &mut Word) {
        let count = match self.below(8) {
            0 => self.random.between(100, 1500),
            1 => self.random.between(15, 20),
            _ => self.random.between(62, 67),
        } as usize;
        let entries: Vec<Word> = word.split(|&byte| byte == b',').map(<[u8]>::to_vec).collect();
        let mut entries: Vec<Word> = entries.iter().cycle().take(count).cloned().collect();
        if entries.iter().any(|entry| entry == b"-") {
            entries.fill(b"1".to_vec());
        }
        if self.once_in(3) {
            let place = self.below(count);
            entries[place] = self.junk();
        }
        *word = entries.join(&b',');
    }
}

/// Whether a line has a character past ASCII that is none of `PIECES`.
fn has_other_character(line: &[u8]) -> bool {
    let characters = line.utf8_chunks().flat_map(|chunk| chunk.valid().chars());
    characters.filter(|character| !character.is_ascii()).any(|character| !PIECES.contains(&character.to_string().as_bytes()))
}

fn word(text: impl Display) -> Word {
    text.to_string().into_bytes()
}

/// A command of a name and the words behind it.
fn command(name: &str, rest: &[Word]) -> Vec<Word> {
    [&[word(name)], rest].concat()
}

fn checked_in(name: &str, len: u64, offset: i64, extents: &[u64], strides: &[i64]) -> Vec<Word> {
    command(name, &[word(len), word(offset), list(extents), list(strides)])
}

/// The name of some command.
fn name(random: &mut Random) -> &'static str {
    random.pick(&COMMANDS).0.split(' ').next().expect("a name")
}

fn paired(flat: &[u64]) -> Word {
    let pairs: Vec<String> = flat.chunks_exact(2).map(|pair| format!("{}:{}", pair[0], pair[1])).collect();
    list(&pairs)
}

/// Total 2^24 and span/64 as large, or one less or more: the most words that an enumeration takes.
fn most_words(random: &mut Random) -> (List<u64>, List<i64>) {
    let span = (1i64 << 30) - 2 + random.below(5) as i64 + 66 * random.below(2) as i64;
    let mut strides: Vec<i64> = (0..12).map(|axis| span / 36 - 6 + axis).collect();
    strides[11] += span / 3 - strides.iter().sum::<i64>();
    (List::of(&[4; 12]), List::of(&strides))
}
