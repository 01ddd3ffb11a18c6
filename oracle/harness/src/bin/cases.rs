//! Writes a list of commands of the program `layout` and strided-rs's answers to them. `cases SEED COMMANDS ANSWERS`
//! A number of inputs for each call, answer and rank are kept out of many random ones, so that rare answers are there too.

use harness::input::{joined, Answer, Given, Input, Layout};
use harness::random::Random;
use harness::{layouts, rust, shapes};
use std::collections::HashMap;
use strided_view::KernelDType;

/// So many random inputs are looked at.
const DRAWN: u64 = 400_000;
/// The program's own limit on scratch words.
const WORDS: usize = 65_536;
/// No search above this, so that the list is replayed in a moment.
const LONGEST: u64 = 50_000;

struct Lists {
    commands: String,
    answers: String,
    lines: u64,
    /// The current layout of the program, as text.
    current: String,
}

impl Lists {
    fn line(&mut self, command: &str, answer: &str) {
        assert!(command.len() <= 4096, "a line of the program has 4,096 bytes at most");
        self.commands += &format!("{command}\n");
        self.answers += &format!("{answer}\n");
        self.lines += 1;
    }

    /// Makes the layout current, takes the view, shows the layout after it.
    fn view(&mut self, layout: &Layout, command: &str, answer: &Answer) {
        self.line(&format!("set {}", layout.text()), "ok");
        self.current = layout.text();
        match answer.given {
            Given::Layout(after) => {
                self.line(command, "ok");
                self.current = after.text();
            }
            _ => self.line(command, &answer.text()),
        }
        let shown = self.current.clone();
        self.line("show", &shown);
    }

    fn add(&mut self, input: &Input, answer: &Answer) {
        match input {
            Input::New { .. } => {
                match answer.given {
                    Given::Layout(layout) => {
                        self.line(&input.text(), "ok");
                        self.current = layout.text();
                    }
                    _ => self.line(&input.text(), &answer.text()),
                }
                let shown = self.current.clone();
                self.line("show", &shown);
            }
            Input::Permute { layout, axes } => self.view(layout, &format!("permute {}", axes.text()), answer),
            Input::Broadcast { layout, target } => self.view(layout, &format!("broadcast {}", target.text()), answer),
            Input::Diagonal { layout, pairs } => {
                let pairs: Vec<String> = pairs.slice().chunks_exact(2).map(|pair| format!("{}:{}", pair[0], pair[1])).collect();
                self.view(layout, &format!("diagonal {}", joined(&pairs)), answer);
            }
            Input::Offset { layout, index } => {
                self.line(&format!("set {}", layout.text()), "ok");
                self.current = layout.text();
                self.line(&format!("offset {}", index.text()), &answer.text());
            }
            _ => self.line(&input.text(), &answer.text()),
        }
    }
}

/// The rank, and the step of strided-rs that decides a verdict: inputs that differ in these are kept apart.
fn sort_of(input: &Input) -> (usize, u8) {
    match input {
        Input::Bounds { extents, .. } | Input::New { extents, .. } | Input::Column { extents } | Input::Row { extents } => (extents.len, 0),
        Input::Permute { layout, .. } | Input::Diagonal { layout, .. } | Input::Broadcast { layout, .. } | Input::Offset { layout, .. } => (layout.held(), 0),
        Input::Order { strides, .. } => (strides.len, 0),
        Input::Injective { extents, strides, .. } if extents.len == strides.len => {
            (extents.len / 2, 1 + KernelDType::step(rust::unsigned(extents.slice()), rust::signed(strides.slice())).0)
        }
        Input::Injective { .. } => (0, 0),
    }
}

/// How many of a call, an answer and a sort are kept.
fn quota(call: usize) -> u32 {
    match call {
        6 => 16,
        3 => 7,
        _ => 6,
    }
}

/// Whether the program can take the input: even pairs, scratch and search within the limits, strided-rs itself asked.
fn fits(input: &Input) -> bool {
    match input {
        Input::Diagonal { pairs, .. } if pairs.len % 2 == 1 => false,
        Input::Injective { words, .. } if *words > WORDS => false,
        _ => rust::asked(input),
    }
}

fn main() {
    harness::examples::check();
    std::panic::set_hook(Box::new(|_| {}));
    let words: Vec<String> = std::env::args().skip(1).collect();
    let mut random = Random::new(words[0].parse().expect("a seed"));
    let mut lists = Lists { commands: String::new(), answers: String::new(), lines: 0, current: "0 0 0 0".to_string() };
    let mut kept: HashMap<(usize, String, usize, u8), u32> = HashMap::new();
    for drawn in 0..DRAWN {
        let input = if drawn % 2000 == 0 { shapes::enumerable(&mut random) } else { layouts::any(&mut random) };
        if !fits(&input) {
            continue;
        }
        let answer = rust::answer(&input);
        if matches!(answer.given, Given::Verdict(_, count) if count > LONGEST) {
            continue;
        }
        let (rank, step) = sort_of(&input);
        let count = kept.entry((input.call(), answer.kind(), rank, step)).or_default();
        if *count < quota(input.call()) {
            *count += 1;
            lists.add(&input, &answer);
        }
    }
    std::fs::write(&words[1], &lists.commands).expect("the commands can be written");
    std::fs::write(&words[2], &lists.answers).expect("the answers can be written");
    println!("{} commands", lists.lines);
}
