//! What `help` tells of words and refusals, written from docs/COMMANDS.md and not from the program's code.

/// The words in which usages are written, and what each is.
const WORDS: [(&str, &str); 16] = [
    ("LEN", "the length of the buffer, a number from 0 to 18446744073709551615, as 24"),
    ("OUTLEN", "how many places the output has, a number from 0 to 18446744073709551615, as 2"),
    ("OFFSET", "the number of the cell where all indices are 0, from -9223372036854775808 to 9223372036854775807, as 0"),
    ("EXTENTS", "an extent for each axis, numbers from 0 to 18446744073709551615 with commas between them, at most 64, as 4,6; - for none"),
    ("STRIDES", "a stride for each axis, numbers from -9223372036854775808 to 9223372036854775807 with commas between them, at most 64, as 1,-4; - for none"),
    ("LIST", "numbers from 0 to 18446744073709551615 with commas between them, at most 64, as 1,0; - for none"),
    ("PAIRS", "pairs a:b of axes with commas between them, at most 64, as 0:1,1:2; - for none"),
    ("FROM", "readings to copy, numbers from -2147483648 to 2147483647 with commas between them, at most 64, as 7,-8; - for none"),
    ("TO", "readings to copy into, numbers from -2147483648 to 2147483647 with commas between them, at most 64, as 0,0; - for none"),
    ("AXIS", "the axis to take means along, counted from 0, a number from 0 to 18446744073709551615, as 1"),
    ("READINGS", "readings to take means of, numbers from -2147483648 to 2147483647 with commas between them, at most 64, as 7,-8; - for none"),
    ("BYTES", "two hexadecimal digits for each byte and nothing between them, as 00ff; - for none"),
    ("WORDS", "how many words of scratch to lend, a number from 0 to 65536, as 1024; left out, as many as are needed"),
    ("ROOM", "how much output to lend, in bytes of a record or in readings of means, a number from 0 to 65536, as 64"),
    ("COMMAND", "the name of a command, as new"),
    ("TOPIC", "what help explains: a command, as new; a word of a usage, as LIST; words; refused; or a number from 1 to 16"),
];

/// The answers to refusals with the names of their values, by number from 1 on, and what each says.
const REFUSALS: [(&str, &str); 16] = [
    ("refused 1", "more than 16 axes or entries; the layout and each list of axes have at most 16"),
    ("refused 2", "the lists differ in length; give as many strides as extents, and to order an OUTLEN of as many places as strides"),
    ("refused 3", "an offset would lie outside the buffer, or a number does not fit 64 bits; look at LEN, OFFSET and each stride x (extent - 1)"),
    ("refused 4 A B", "a list and the axes of the layout differ in number: A and B; permute and offset have A entries for B axes, broadcast has B entries for A axes"),
    ("refused 5 AXIS RANK", "axis AXIS is outside the rank RANK, or named twice; axes are numbered from 0"),
    ("refused 6 AXIS", "the extent of axis AXIS is neither its target nor 1; only an axis of extent 1 is stretched"),
    ("refused 7 AXIS", "the index of axis AXIS is not below its extent; indices are counted from 0"),
    ("refused 8", "more than 2^64 - 1 positions; look at the extents"),
    ("refused 9 WORDS", "WORDS words of scratch are needed; lend as many (a line lends at most 65536), or leave WORDS out"),
    ("refused 10 ROOM", "an output of ROOM is needed, in bytes of a record or in readings of means; give at least as many as ROOM"),
    ("refused 11", "the bytes are not a record; no whole one stands at their beginning, or its verdict is false"),
    ("refused 12", "the two layouts differ in extents; give the current layout and the held one the same extents, in the same order"),
    ("refused 13", "a buffer is shorter than its layout needs; give each layout as many readings as its highest offset + 1"),
    ("refused 14", "the verdict on the destination is not distinct; hold a layout that verdict answers with distinct"),
    ("refused 15", "the extent along the axis is 0; means are taken along an axis of extent 1 to 65536"),
    ("refused 16", "the extent along the axis is above 65536; means are taken along an axis of extent 1 to 65536"),
];

/// What stands behind the commands if `help` stands alone.
pub const MORE: [&str; 2] = [
    "help new, help LIST and help 3 explain a command, a word of a usage, a refusal; help words and help refused explain all words, all refusals",
    "docs/COMMANDS.md says more; the program ends when its input ends (at a terminal by Ctrl-D)",
];

/// Words behind `help` that are topics, and no commands.
pub const TOPICS: [&str; 34] = [
    "words", "refused", "1", "2", "3", "4", "5", "6", "7", "8", "9", "10", "11", "12", "13", "14", "15", "16", "LEN", "OUTLEN", "OFFSET", "EXTENTS", "STRIDES", "LIST", "PAIRS", "FROM", "TO", "AXIS", "READINGS", "BYTES", "WORDS", "ROOM", "COMMAND", "TOPIC",
];

fn lines(rows: &[(&str, &str)]) -> Vec<String> {
    rows.iter().map(|(name, what)| format!("{name}: {what}")).collect()
}

/// The lines of a topic that is no command.
pub fn topic(word: &[u8]) -> Option<Vec<String>> {
    let word = std::str::from_utf8(word).ok()?;
    match word {
        "words" => return Some(lines(&WORDS)),
        "refused" => return Some(lines(&REFUSALS)),
        _ => {}
    }
    let refusal = REFUSALS.iter().find(|(answer, _)| answer.split(' ').nth(1) == Some(word));
    let row = WORDS.iter().find(|(name, _)| *name == word).or(refusal)?;
    Some(lines(&[*row]))
}
