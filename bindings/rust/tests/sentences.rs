//! Each refusal prints the sentence that the library in Rattle gives it. Needs the repository: it reads that library's source.
use std::collections::BTreeMap;
use strided_layouts::Refusal;

const LIBRARY: &str = include_str!(concat!(env!("CARGO_MANIFEST_DIR"), "/../../crates/view/src/layout.rt"));

/// name -> sentence, of each `#[error("SENTENCE")]` with the variant on the next line.
fn sentences() -> BTreeMap<&'static str, &'static str> {
    let mut lines = LIBRARY.lines().map(str::trim);
    let mut found = BTreeMap::new();
    while let Some(line) = lines.next() {
        if let Some(sentence) = line.strip_prefix("#[error(\"").and_then(|rest| rest.strip_suffix("\")]")) {
            let name = lines.next().unwrap_or_default().split([',', '(']).next().unwrap_or_default();
            found.insert(name, sentence);
        }
    }
    found
}

#[test]
fn sentences_of_refusals() {
    let refusals = [
        ("TooManyAxes", Refusal::TooManyAxes),
        ("LengthsDiffer", Refusal::LengthsDiffer),
        ("OutOfRange", Refusal::OutOfRange),
        ("WrongLength", Refusal::WrongLength(40, 50)),
        ("BadAxis", Refusal::BadAxis { axis: 40, rank: 50 }),
        ("BadExtent", Refusal::BadExtent { axis: 40 }),
        ("BadIndex", Refusal::BadIndex { axis: 40 }),
        ("TooManyPositions", Refusal::TooManyPositions),
        ("ShortScratch", Refusal::ShortScratch { words: 40 }),
        ("ShortOutput", Refusal::ShortOutput { needed: 40 }),
        ("NotARecord", Refusal::NotARecord),
        ("ExtentsDiffer", Refusal::ExtentsDiffer),
        ("ShortReadings", Refusal::ShortReadings),
        ("NotDistinct", Refusal::NotDistinct),
        ("EmptyAxis", Refusal::EmptyAxis),
        ("LongAxis", Refusal::LongAxis),
    ];
    let sentences = sentences();
    assert_eq!(sentences.len(), refusals.len());
    for (name, refusal) in refusals {
        assert_eq!(refusal.to_string(), sentences[name].replace("{0}", "40").replace("{1}", "50"));
    }
}

// So a refusal passes through `?` in a program's `main`.
#[test]
fn is_an_error() {
    let boxed: Box<dyn std::error::Error> = Refusal::NotARecord.into();
    assert_eq!(boxed.to_string(), "the bytes are not a record");
}
