//! Feeds random sessions of lines to the program `layout` and counts the lines that it answers otherwise than the model.
//! `lines SECONDS SEED THREADS PROGRAM [broken]`

use harness::random::Random;
use harness::sessions::{session, Asked};
use harness::text::COMMANDS;
use std::collections::BTreeMap;
use std::io::{Read, Write};
use std::process::{Command, Stdio};
use std::sync::Mutex;
use std::time::{Duration, Instant};

/// At most so many differences are printed.
const PRINTED: u64 = 20;

/// The byte order mark in UTF-8.
const MARK: &[u8] = b"\xef\xbb\xbf";

#[derive(Default)]
struct Tally {
    sessions: u64,
    lines: u64,
    differences: u64,
    flipped: u64,
    printed: u64,
    /// By command and answer.
    answers: BTreeMap<(String, String), u64>,
}

fn main() {
    harness::examples::check();
    std::panic::set_hook(Box::new(|_| {}));
    let words: Vec<String> = std::env::args().skip(1).collect();
    let number = |place: usize| words[place].parse::<u64>().expect("a number");
    let (seconds, seed, threads, program) = (number(0), number(1), number(2), &words[3]);
    let broken = words.get(4).is_some_and(|word| word == "broken");
    println!("seed {seed}, {threads} threads, {seconds} seconds, {program}{}", if broken { ", answers flipped on purpose" } else { "" });
    let total = Mutex::new(Tally::default());
    let end = Instant::now() + Duration::from_secs(seconds);
    std::thread::scope(|scope| {
        for thread in 0..threads {
            let total = &total;
            scope.spawn(move || run(Random::new(seed.wrapping_add(thread << 56)), end, program, broken, total));
        }
    });
    let total = total.into_inner().expect("no thread failed");
    println!("by command and answer:");
    for ((command, answer), count) in &total.answers {
        println!("  {command}: {answer}: {count}");
    }
    println!("{} sessions", total.sessions);
    if broken {
        println!("{} answers were flipped", total.flipped);
    }
    println!("{} lines, {} differences", total.lines, total.differences);
    std::process::exit(i32::from(total.differences > 0));
}

/// One thread: sessions in its own order until the end.
fn run(mut random: Random, end: Instant, program: &str, broken: bool, total: &Mutex<Tally>) {
    let mut faults = Random::new(random.word());
    while Instant::now() < end {
        let asked = session(&mut random);
        let mut input = asked.iter().map(|asked| &asked.line[..]).collect::<Vec<_>>().join(&b'\n');
        if random.once_in(2) {
            input.push(b'\n');
        }
        // One mark is passed over. A first line that begins with one gets another.
        if random.once_in(4) || input.starts_with(MARK) {
            input.splice(0..0, MARK.iter().copied());
        }
        let strict = random.once_in(2);
        let status = if strict && asked.iter().any(is_fault) { 3 } else { 0 };
        let piece = if random.once_in(4) { random.between(1, 5000) } else { 1 << 20 };
        let output = match answered(program, strict, status, &input, piece as usize) {
            Ok(output) => output,
            Err(text) => {
                let mut total = total.lock().expect("no thread failed");
                total.differences += 1;
                println!("difference in a session of {} lines: {text}", asked.len());
                continue;
            }
        };
        let mut found: Vec<&[u8]> = output.split(|&byte| byte == b'\n').collect();
        // Each answer ends with a line feed, so nothing stands behind the last.
        let whole = found.pop().is_some_and(<[u8]>::is_empty);
        let mut found: Vec<Vec<u8>> = found.into_iter().map(<[u8]>::to_vec).collect();
        let flipped = if broken { flip(&mut faults, &mut found) } else { 0 };
        let mut total = total.lock().expect("no thread failed");
        total.flipped += flipped;
        compare(&mut total, &asked, &found);
        if !whole {
            total.differences += 1;
            println!("difference: the last answer of a session has no line feed");
        }
    }
}

/// Whether a line is answered with an error or a refusal. What `help` says of a refusal begins alike, and has letters behind it.
fn is_fault(asked: &Asked) -> bool {
    let is_refusal = |answer: &str| answer.strip_prefix("refused ").is_some_and(|numbers| numbers.bytes().all(|byte| byte == b' ' || byte.is_ascii_digit()));
    asked.answers.first().is_some_and(|answer| answer.starts_with("error: ") || is_refusal(answer))
}

/// What the program writes to its end, its input written in pieces of so many bytes. It is to end with the status.
fn answered(program: &str, strict: bool, status: i32, input: &[u8], piece: usize) -> Result<Vec<u8>, String> {
    let mut child = Command::new(program)
        .args(strict.then_some("--strict"))
        .stdin(Stdio::piped())
        .stdout(Stdio::piped())
        .stderr(Stdio::piped())
        .spawn()
        .map_err(|error| format!("cannot start {program}: {error}"))?;
    let (mut stdin, mut stdout) = (child.stdin.take().expect("a pipe"), child.stdout.take().expect("a pipe"));
    let mut output = vec![];
    std::thread::scope(|scope| {
        // A program that ends early is told by its answers.
        scope.spawn(move || input.chunks(piece).try_for_each(|piece| stdin.write_all(piece)));
        stdout.read_to_end(&mut output).map_err(|error| error.to_string())
    })?;
    let ended = child.wait_with_output().map_err(|error| error.to_string())?;
    if ended.status.code() != Some(status) || !ended.stderr.is_empty() {
        return Err(format!("{}, on standard error {:?}", ended.status, String::from_utf8_lossy(&ended.stderr)));
    }
    Ok(output)
}

/// Counts the lines of a session that are answered otherwise. Where the number of lines is another, the first is one difference and the rest is passed over.
fn compare(total: &mut Tally, asked: &[Asked], found: &[Vec<u8>]) {
    total.sessions += 1;
    total.lines += asked.len() as u64;
    let count: usize = asked.iter().map(|asked| asked.answers.len()).sum();
    let mut place = 0;
    for asked in asked {
        *total.answers.entry(kind(asked)).or_default() += 1;
        for answer in &asked.answers {
            let answered = found.get(place).map_or(&b"nothing"[..], |line| line);
            place += 1;
            if answered == answer.as_bytes() {
                continue;
            }
            tell(total, asked, answer, answered);
            if found.len() != count {
                return;
            }
        }
    }
    if found.len() > count {
        total.differences += 1;
        println!("difference: {} answers too many, the first {}", found.len() - count, found[count].escape_ascii());
    }
}

fn tell(total: &mut Tally, asked: &Asked, answer: &str, answered: &[u8]) {
    total.differences += 1;
    if total.printed < PRINTED {
        total.printed += 1;
        println!(
            "difference at {} (before it {}, rank {}; held {}, rank {})\n  the model: {}\n  {} bytes, the program: {}",
            asked.line.escape_ascii(),
            asked.before.text(),
            asked.before.rank,
            asked.held.text(),
            asked.held.rank,
            answer.escape_default(),
            asked.line.len(),
            answered.escape_ascii()
        );
    }
}

/// The command and the answer without what is its own in each line.
fn kind(asked: &Asked) -> (String, String) {
    let first = asked.line.split(|byte| b" \t\r".contains(byte)).find(|word| !word.is_empty()).unwrap_or(b"");
    let name = |usage: &str| usage.split(' ').next().unwrap_or("").to_string();
    let command = COMMANDS.iter().map(|(usage, _)| name(usage)).find(|name| name.as_bytes() == first).unwrap_or("no command".to_string());
    let Some(answer) = asked.answers.first() else {
        return (command, "nothing".to_string());
    };
    let words: Vec<&str> = answer.split(' ').collect();
    let answer = match words[0] {
        "error:" if answer.ends_with(" bytes") || answer.contains("wrong number") || answer.contains("set takes") => words[..4].join(" "),
        "error:" => {
            let entry = if answer.contains(", entry ") { "an entry" } else { "a word" };
            format!("error: {entry} {}", answer.split(") ").last().unwrap_or("").split(" from").next().unwrap_or(""))
        }
        "refused" => words[..2].join(" "),
        "ok" | "distinct" | "repeated" | "undecided" => words[0].to_string(),
        _ => "shown".to_string(),
    };
    (command, answer)
}

/// Answers changed on purpose: each must be found. A session that lacks a line, or has one twice, has no other change.
fn flip(random: &mut Random, found: &mut Vec<Vec<u8>>) -> u64 {
    if found.is_empty() {
        return 0;
    }
    let place = random.below(found.len() as u64) as usize;
    match random.below(16) {
        0 => drop(found.remove(place)),
        1 => found.insert(place, found[place].clone()),
        _ => {
            let mut flipped = 0;
            for line in found {
                if random.once_in(100) {
                    flip_line(random, line);
                    flipped += 1;
                }
            }
            return flipped;
        }
    }
    1
}

/// Another line: one bit, one byte more or fewer, or an answer of another sort.
fn flip_line(random: &mut Random, line: &mut Vec<u8>) {
    let place = random.below(line.len().max(1) as u64) as usize;
    match random.below(4) {
        0 if !line.is_empty() => drop(line.remove(place)),
        1 => line.push(b' '),
        2 => *line = if line == b"ok" { b"refused 3".to_vec() } else { b"ok".to_vec() },
        _ => match line.get_mut(place) {
            Some(byte) => *byte ^= 1 << random.below(7),
            None => line.push(b'x'),
        },
    }
}
