//! The program `layout` once more: what each line answers, written from docs/COMMANDS.md and not from the program's code.

use crate::input::{joined, Answer, Given, Input, Layout, List};
use crate::record::{self, Refused};
use crate::{averaging, copying, help, reference, rust};
use std::collections::BTreeMap;
use std::fmt::{self, Display};
use std::ops::RangeInclusive;

/// Bytes of a line, its line feed not counted.
pub const LONGEST: usize = 4096;
/// Entries of a list.
const ENTRIES: usize = 64;
/// The most that WORDS and ROOM may be.
const LENT: i128 = 65_536;
/// The most positions that are drawn.
const DRAWN: u64 = 200;
/// With so many positions means take long, and not each is refused.
const LONG_MEANS: RangeInclusive<u64> = 1 << 24..=1 << 32;
/// The words that are lent where WORDS is left out: no verdict needs more.
const ANY_WORDS: usize = 16_777_217;

const UNSIGNED: (i128, i128) = (0, u64::MAX as i128);
const SIGNED: (i128, i128) = (i64::MIN as i128, i64::MAX as i128);
const READING: (i128, i128) = (i32::MIN as i128, i32::MAX as i128);

/// Each command with its words, those in brackets may be left out, and what it does.
pub const COMMANDS: [(&str, &str); 22] = [
    ("new LEN OFFSET EXTENTS STRIDES", "check a layout in and make it current"),
    ("bounds LEN OFFSET EXTENTS STRIDES", "check the bounds of a layout; the current one stays"),
    ("set LEN OFFSET EXTENTS STRIDES", "make a layout current with no check; of more than 16 axes the first 16 are held"),
    ("show", "the current layout, as LEN OFFSET EXTENTS STRIDES"),
    ("hold", "keep the current layout as the held one, for copy"),
    ("draw", "the cells that the current layout reaches, each with the positions that share it; at most 200 positions"),
    ("permute LIST", "put the axes into the order of the list"),
    ("diagonal PAIRS", "tie the axes of each pair a:b into one"),
    ("broadcast LIST", "stretch axes of extent 1 to the extents of the list"),
    ("offset LIST", "the offset of an index vector"),
    ("normal", "the normal form; the current layout stays"),
    ("verdict [WORDS]", "whether two positions of the current layout share a cell, with WORDS words of scratch"),
    ("injective EXTENTS STRIDES [WORDS]", "whether two positions of a layout of these extents and strides share a cell, with WORDS words of scratch"),
    ("copy FROM TO [WORDS]", "copy readings FROM through the current layout into readings TO through the held one; the answer is TO afterwards"),
    ("means AXIS READINGS ROOM", "means of READINGS through the current layout along axis AXIS, into at most ROOM readings"),
    ("record ROOM [WORDS]", "the record of the current layout, in at most ROOM bytes"),
    ("read BYTES [WORDS]", "read a record and make its layout current"),
    ("rest BYTES", "what stands behind the record at the front"),
    ("order STRIDES OUTLEN", "the index order of strides, into OUTLEN places"),
    ("column EXTENTS", "dense strides, the first axis the densest"),
    ("row EXTENTS", "dense strides, the last axis the densest"),
    ("help [TOPIC]", "what a command does, a word of a usage is, or a refusal means; alone, every command"),
];

/// Why a line is not answered by its command.
enum Stop {
    /// A refusal or an error.
    Answer(String),
    /// The verdict costs more than may still be spent.
    Dear,
}

impl Stop {
    fn error(text: impl Display) -> Stop {
        Stop::Answer(format!("error: {text}"))
    }
}

type Said<T> = Result<T, Stop>;

/// A word or an entry in an error: its first 32 bytes, what cannot be seen escaped, and dots if there are more.
struct Shown<'a>(&'a [u8]);

impl Display for Shown<'_> {
    fn fmt(&self, out: &mut fmt::Formatter) -> fmt::Result {
        let mut rest = &self.0[..self.0.len().min(32)];
        while let Some(&byte) = rest.first() {
            let wide = (2..=rest.len().min(4)).find_map(|size| std::str::from_utf8(&rest[..size]).ok().filter(|text| text.chars().count() == 1));
            if let Some(text) = wide {
                // Rust escapes what does not print, and what changes the character in front of it.
                text.chars().try_for_each(|character| write!(out, "{}", character.escape_debug()))?;
                rest = &rest[text.len()..];
                continue;
            }
            match byte {
                0 => out.write_str("\\0")?,
                b'\n' => out.write_str("\\n")?,
                b'\r' => out.write_str("\\r")?,
                b'\t' => out.write_str("\\t")?,
                b'\\' => out.write_str("\\\\")?,
                0x21..=0x7e => write!(out, "{}", byte as char)?,
                _ => write!(out, "\\x{byte:02X}")?,
            }
            rest = &rest[1..];
        }
        out.write_str(if self.0.len() > 32 { ".." } else { "" })
    }
}

/// A decimal number in a range, with `-` in front if the range has negative numbers.
fn number(text: &[u8], (least, most): (i128, i128)) -> Option<i128> {
    let digits = match text {
        [b'-', digits @ ..] if least < 0 => digits,
        _ => text,
    };
    if digits.is_empty() || !digits.iter().all(u8::is_ascii_digit) {
        return None;
    }
    let size = digits.iter().fold(0i128, |size, digit| (10 * size + (digit - b'0') as i128).min(1 << 100));
    let number = if digits.len() < text.len() { -size } else { size };
    (least <= number && number <= most).then_some(number)
}

/// Whether a text is a number, however large.
fn is_number(text: &[u8]) -> bool {
    let digits = text.strip_prefix(b"-").unwrap_or(text);
    !digits.is_empty() && digits.iter().all(u8::is_ascii_digit)
}

/// What should stand somewhere.
#[derive(Clone, Copy)]
enum What {
    Number((i128, i128)),
    Pair,
}

/// The words of a line, counted from 1.
struct Words<'a>(Vec<&'a [u8]>);

impl<'a> Words<'a> {
    fn word(&self, place: usize) -> &'a [u8] {
        self.0[place - 1]
    }

    fn fault(&self, place: usize, why: impl Display) -> Stop {
        Stop::error(format_args!("word {place} ({}) {why}", Shown(self.word(place))))
    }

    /// The fault of a word, or of an entry of it, that is not what should stand there.
    fn misfit(&self, place: usize, entry: Option<usize>, text: &[u8], what: What) -> Stop {
        let number = is_number(text);
        let entry = entry.map(|index| format!(", entry {}", index + 1));
        let commas = if entry.is_some() && !number { ", and commas between the entries" } else { "" };
        let why = match what {
            What::Pair => "no pair of axes: write a:b, as 0:1".to_string(),
            What::Number((least, most)) if number => format!("outside the range from {least} to {most}"),
            What::Number((0, _)) => "no number: write digits, as 24".to_string(),
            What::Number(_) => "no number: write digits, as 24 or -24".to_string(),
        };
        Stop::error(format_args!("word {place}{} ({}) is {why}{commas}", entry.unwrap_or_default(), Shown(text)))
    }

    fn number(&self, place: usize, range: (i128, i128)) -> Said<i128> {
        let word = self.word(place);
        number(word, range).ok_or_else(|| self.misfit(place, None, word, What::Number(range)))
    }

    fn entries(&self, place: usize) -> Said<Vec<&'a [u8]>> {
        if self.word(place) == b"-" {
            return Ok(vec![]);
        }
        let entries: Vec<_> = self.word(place).split(|&byte| byte == b',').collect();
        if entries.len() > ENTRIES {
            return Err(self.fault(place, "has more than 64 entries"));
        }
        Ok(entries)
    }

    /// What each entry of a list spells.
    fn list<T>(&self, place: usize, what: What, spelled: impl Fn(&[u8]) -> Option<T>) -> Said<Vec<T>> {
        let entries = self.entries(place)?;
        let spelled = |(index, entry): (usize, &&[u8])| spelled(entry).ok_or_else(|| self.misfit(place, Some(index), entry, what));
        entries.iter().enumerate().map(spelled).collect()
    }

    fn unsigned(&self, place: usize) -> Said<Vec<u64>> {
        self.list(place, What::Number(UNSIGNED), |entry| number(entry, UNSIGNED).map(|number| number as u64))
    }

    fn signed(&self, place: usize) -> Said<Vec<i64>> {
        self.list(place, What::Number(SIGNED), |entry| number(entry, SIGNED).map(|number| number as i64))
    }

    fn readings(&self, place: usize) -> Said<Vec<i32>> {
        self.list(place, What::Number(READING), |entry| number(entry, READING).map(|number| number as i32))
    }

    /// The numbers of each pair, one after the other.
    fn pairs(&self, place: usize) -> Said<Vec<u64>> {
        let pair = |entry: &[u8]| {
            let colon = entry.iter().position(|&byte| byte == b':')?;
            Some([number(&entry[..colon], UNSIGNED)? as u64, number(&entry[colon + 1..], UNSIGNED)? as u64])
        };
        Ok(self.list(place, What::Pair, pair)?.concat())
    }

    fn bytes(&self, place: usize) -> Said<Vec<u8>> {
        let word = self.word(place);
        if word == b"-" {
            return Ok(vec![]);
        }
        let digit = |&byte: &u8| (byte as char).to_digit(16).map(|digit| digit as u8);
        let digits: Option<Vec<u8>> = word.iter().map(digit).collect();
        let digits = digits.ok_or_else(|| self.fault(place, "is not hexadecimal; a byte is two digits 0 to 9 or a to f, as 0f"))?;
        if digits.len() % 2 == 1 {
            return Err(self.fault(place, "has an odd number of hexadecimal digits; a byte is two"));
        }
        Ok(digits.chunks(2).map(|two| 16 * two[0] + two[1]).collect())
    }

    /// The words of scratch to lend, if the word is there.
    fn scratch(&self, place: usize) -> Said<usize> {
        if self.0.len() < place {
            return Ok(ANY_WORDS);
        }
        Ok(self.number(place, (0, LENT))? as usize)
    }

    fn layout(&self) -> Said<(u64, i64, Vec<u64>, Vec<i64>)> {
        Ok((self.number(2, UNSIGNED)? as u64, self.number(3, SIGNED)? as i64, self.unsigned(4)?, self.signed(5)?))
    }
}

/// A list of axes as the library takes it: one of more than 16 entries is refused 1 before all else.
fn axes<T: Copy + Default>(list: &[T]) -> Said<List<T>> {
    if list.len() > 16 {
        return Err(refused((1, 0)));
    }
    Ok(List::of(list))
}

fn refused((number, value): Refused) -> Stop {
    Stop::Answer(Answer::with(number, value, 0).text())
}

fn hexadecimal(bytes: &[u8]) -> String {
    if bytes.is_empty() {
        return "-".to_string();
    }
    bytes.iter().map(|byte| format!("{byte:02x}")).collect()
}

/// The command that a word names, as its place in `COMMANDS`.
fn command(word: &[u8]) -> Option<usize> {
    COMMANDS.iter().position(|(usage, _)| usage.split(' ').next().expect("a name").as_bytes() == word)
}

/// How many words a command takes behind its name, and how many a line has.
fn counted(least: usize, most: usize, given: usize) -> String {
    let wanted = if least < most { format!("{least} or {most}") } else { most.to_string() };
    let given_text = if given < 5 { given.to_string() } else { "more than 4".to_string() };
    let no_space = if most > 0 && given > most { " (no space within a list)" } else { "" };
    format!("{wanted} wanted, {given_text} given{no_space}")
}

fn help(place: usize) -> String {
    format!("{}: {}", COMMANDS[place].0, COMMANDS[place].1)
}

/// The positions of a layout, cell by cell; refused as its normal form is.
fn drawn(layout: &Layout) -> Said<Vec<String>> {
    record::normal_form(layout).map_err(refused)?;
    let extents = layout.extents();
    let positions: u64 = if extents.contains(&0) { 0 } else { extents.iter().product() };
    if positions > DRAWN {
        return Err(Stop::error(format_args!("draw shows at most {DRAWN} positions; the layout has {positions}")));
    }
    let mut cells: BTreeMap<i128, Vec<String>> = BTreeMap::new();
    for (index, cell) in reference::Positions::of(layout) {
        cells.entry(cell).or_default().push(joined(&index[..extents.len()]));
    }
    let count = format!("cells {}", cells.len());
    let rows = cells.iter().map(|(cell, shared)| format!("{cell}: {}", shared.join(" ")));
    Ok(std::iter::once(count).chain(rows).collect())
}

/// What the program holds between two lines.
pub struct Session {
    /// The current layout.
    pub layout: Layout,
    /// The layout that was current at the last `hold`.
    pub held: Layout,
    /// How many difference vectors and positions verdicts may still look at.
    pub budget: u64,
    /// The records that were answered.
    pub records: Vec<Vec<u8>>,
}

impl Session {
    pub fn new(budget: u64) -> Session {
        let empty = Layout::of(0, 0, &[0], &[0]);
        Session { layout: empty, held: empty, budget, records: vec![] }
    }

    /// The lines that a line answers; none, and nothing changed, if its verdict costs more than the budget.
    pub fn answer(&mut self, line: &[u8]) -> Option<Vec<String>> {
        if line.len() > LONGEST {
            return Some(vec!["error: the line is longer than 4096 bytes".to_string()]);
        }
        let line = line.strip_suffix(b"\r").unwrap_or(line);
        let words: Vec<&[u8]> = line.split(|byte| b" \t".contains(byte)).filter(|word| !word.is_empty()).collect();
        if words.first().is_none_or(|word| word.starts_with(b"#")) {
            return Some(vec![]);
        }
        match self.obey(&Words(words)) {
            Ok(lines) => Some(lines),
            Err(Stop::Answer(line)) => Some(vec![line]),
            Err(Stop::Dear) => None,
        }
    }

    fn obey(&mut self, words: &Words) -> Said<Vec<String>> {
        let way_on = match words.word(1) {
            b"exit" | b"quit" | b"end" | b"bye" => "to end, end the input (Ctrl-D at a terminal)",
            _ => "help lists the commands",
        };
        let place = command(words.word(1)).ok_or_else(|| words.fault(1, format_args!("is no command; {way_on}")))?;
        let usage = COMMANDS[place].0;
        let most = usage.split(' ').count();
        let least = most - usage.matches('[').count();
        if !(least..=most).contains(&words.0.len()) {
            return Err(Stop::error(format_args!("wrong number of words behind the name: {}; usage: {usage}", counted(least - 1, most - 1, words.0.len() - 1))));
        }
        if words.word(1) == b"draw" {
            return drawn(&self.layout);
        }
        if words.word(1) != b"help" {
            return Ok(vec![self.called(words)?]);
        }
        if words.0.len() == 1 {
            return Ok((0..COMMANDS.len()).map(help).chain(help::MORE.map(str::to_string)).collect());
        }
        let topic = command(words.word(2)).map(|place| vec![help(place)]).or_else(|| help::topic(words.word(2)));
        topic.ok_or_else(|| words.fault(2, "is no topic of help; topics are the commands, the words of their usages (as LIST), words, refused, and the numbers from 1 to 16"))
    }

    /// A command that calls the library.
    fn called(&mut self, words: &Words) -> Said<String> {
        let layout = self.layout;
        match words.word(1) {
            b"new" => {
                let (len, offset, extents, strides) = words.layout()?;
                self.viewed(rust::answer(&Input::New { len, offset, extents: axes(&extents)?, strides: axes(&strides)? }))
            }
            b"bounds" => {
                let (len, offset, extents, strides) = words.layout()?;
                Ok(rust::answer(&Input::Bounds { len, offset, extents: axes(&extents)?, strides: axes(&strides)? }).text())
            }
            b"set" => self.set(words),
            b"show" => Ok(layout.text()),
            b"hold" => {
                self.held = layout;
                Ok("ok".to_string())
            }
            b"permute" => {
                let axes = axes(&words.unsigned(2)?)?;
                self.viewed(rust::answer(&Input::Permute { layout, axes }))
            }
            b"diagonal" => {
                let pairs = words.pairs(2)?;
                self.viewed(rust::handed(&layout, 0).unwrap_or_else(|| rust::diagonal(&layout, &pairs)))
            }
            b"broadcast" => {
                let target = axes(&words.unsigned(2)?)?;
                self.viewed(rust::answer(&Input::Broadcast { layout, target }))
            }
            b"offset" => Ok(rust::answer(&Input::Offset { layout, index: axes(&words.unsigned(2)?)? }).text()),
            b"normal" => Ok(record::normal_form(&layout).map_err(refused)?.text()),
            b"verdict" => {
                let words = words.scratch(2)?;
                if layout.rank > 16 {
                    return Err(refused((1, 0)));
                }
                self.verdict(layout.extents(), layout.strides(), words)
            }
            b"injective" => {
                let (extents, strides, words) = (words.unsigned(2)?, words.signed(3)?, words.scratch(4)?);
                self.verdict(&extents, &strides, words)
            }
            b"copy" => self.copy(words),
            b"means" => self.means(words),
            b"record" => self.record(words),
            b"read" => self.read(words),
            b"rest" => {
                let bytes = words.bytes(2)?;
                Ok(hexadecimal(&bytes[record::step(&bytes)..]))
            }
            b"order" => {
                let (strides, out) = (words.signed(2)?, words.number(3, UNSIGNED)?);
                // No list of 16 has 40 places either.
                Ok(rust::answer(&Input::Order { strides: axes(&strides)?, out: out.min(40) as usize }).text())
            }
            b"column" => Ok(rust::answer(&Input::Column { extents: axes(&words.unsigned(2)?)? }).text()),
            _ => Ok(rust::answer(&Input::Row { extents: axes(&words.unsigned(2)?)? }).text()),
        }
    }

    /// The layout of an answer becomes current.
    fn viewed(&mut self, answer: Answer) -> Said<String> {
        match answer.given {
            Given::Layout(layout) => {
                self.layout = layout;
                Ok("ok".to_string())
            }
            _ => Ok(answer.text()),
        }
    }

    fn set(&mut self, words: &Words) -> Said<String> {
        let (len, offset, extents, strides) = words.layout()?;
        if extents.len() != strides.len() {
            return Err(Stop::error("set takes as many strides as extents: words 4 and 5"));
        }
        let held = extents.len().min(16);
        self.layout = Layout { rank: extents.len() as u64, ..Layout::of(len, offset, &extents[..held], &strides[..held]) };
        Ok("ok".to_string())
    }

    fn spend(&mut self, extents: &[u64], strides: &[i64]) -> Said<()> {
        let cost = reference::cost(extents, strides);
        self.budget = self.budget.checked_sub(cost).ok_or(Stop::Dear)?;
        Ok(())
    }

    fn verdict(&mut self, extents: &[u64], strides: &[i64], words: usize) -> Said<String> {
        let (extents, strides) = (axes(extents)?, axes(strides)?);
        self.spend(extents.slice(), strides.slice())?;
        Ok(rust::answer(&Input::Injective { extents, strides, words }).text())
    }

    /// A copy comes to the verdict only if 64 readings are enough for each layout: so the verdict costs nothing that counts.
    fn copy(&self, words: &Words) -> Said<String> {
        let (from, mut to, words) = (words.readings(2)?, words.readings(3)?, words.scratch(4)?);
        copying::copy(&self.layout, &from, &self.held, &mut to, words).answer.map_err(refused)?;
        Ok(joined(&to))
    }

    /// Means in `ROOM` places. They are not asked for if they would take long; above 2^32 positions every call is refused.
    fn means(&self, words: &Words) -> Said<String> {
        let (axis, readings, room) = (words.number(2, UNSIGNED)? as u64, words.readings(3)?, words.number(4, (0, LENT))? as usize);
        if record::positions(self.layout.extents()).is_some_and(|positions| LONG_MEANS.contains(&positions)) {
            return Err(Stop::Dear);
        }
        let mut out = vec![0; room];
        let count = averaging::means(&self.layout, axis, &readings, &mut out).answer.map_err(|(number, [first, second])| Stop::Answer(Answer::with(number, first, second).text()))?;
        Ok(joined(&out[..count]))
    }

    fn record(&mut self, words: &Words) -> Said<String> {
        let (room, words) = (words.number(2, (0, LENT))? as usize, words.scratch(3)?);
        if let Ok(normal) = record::normal_form(&self.layout) {
            self.spend(normal.extents(), normal.strides())?;
        }
        let record = record::write(&self.layout, room, words).map_err(refused)?;
        let digits = hexadecimal(&record);
        self.records.push(record);
        Ok(digits)
    }

    fn read(&mut self, words: &Words) -> Said<String> {
        let (bytes, words) = (words.bytes(2)?, words.scratch(3)?);
        if let Some((layout, _)) = record::fields(&bytes) {
            self.spend(layout.extents(), layout.strides())?;
        }
        self.layout = record::read(&bytes, words).map_err(refused)?;
        Ok("ok".to_string())
    }
}

/// A command line of words.
pub fn line(words: &[Vec<u8>]) -> Vec<u8> {
    words.join(&b' ')
}

/// Numbers of a list as a word.
pub fn list<T: Display>(items: &[T]) -> Vec<u8> {
    joined(items).into_bytes()
}

/// Bytes as a word.
pub fn bytes(bytes: &[u8]) -> Vec<u8> {
    hexadecimal(bytes).into_bytes()
}
