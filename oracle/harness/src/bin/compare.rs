//! Feeds random and edge inputs to strided-rs and to our library and counts where they differ. `compare SECONDS SEED THREADS [broken]`

use harness::input::{Input, CALLS};
use harness::lent::{Fault, Lent, WORDS};
use harness::random::Random;
use harness::reference::{judge, judge_by_rust_walk, Judged};
use harness::{layouts, rust};
use std::collections::BTreeMap;
use std::panic::catch_unwind;
use std::sync::Mutex;
use std::time::{Duration, Instant};
use strided_view::KernelDType;

/// At most so many differences are printed.
const PRINTED: u64 = 20;

#[derive(Default)]
struct Tally {
    inputs: u64,
    differences: u64,
    asked: u64,
    flipped: u64,
    printed: u64,
    /// By call and answer.
    answers: BTreeMap<(usize, String), u64>,
    /// By the step of strided-rs that decides, on a sample.
    steps: [u64; 8],
}

fn main() {
    harness::examples::check();
    std::panic::set_hook(Box::new(|_| {}));
    let words: Vec<String> = std::env::args().skip(1).collect();
    let number = |place: usize| words[place].parse::<u64>().expect("a number");
    let (seconds, seed, threads) = (number(0), number(1), number(2));
    let broken = words.get(3).is_some_and(|word| word == "broken");
    println!("seed {seed}, {threads} threads, {seconds} seconds{}", if broken { ", answers flipped on purpose" } else { "" });
    let total = Mutex::new(Tally::default());
    let end = Instant::now() + Duration::from_secs(seconds);
    std::thread::scope(|scope| {
        for thread in 0..threads {
            let total = &total;
            scope.spawn(move || run(Random::new(seed.wrapping_add(thread << 56)), end, broken, total));
        }
    });
    let total = total.into_inner().expect("no thread failed");
    report(&total, broken);
    println!("{} inputs, {} differences", total.inputs, total.differences);
    std::process::exit(i32::from(total.differences > 0));
}

/// One thread: inputs in its own order until the end.
fn run(mut random: Random, end: Instant, broken: bool, total: &Mutex<Tally>) {
    let mut tally = Tally::default();
    let mut lent = Lent::default();
    let mut faults = Random::new(random.word());
    while tally.inputs % 256 != 0 || Instant::now() < end {
        let input = layouts::any(&mut random).paired();
        tally.inputs += 1;
        let expected = match catch_unwind(|| rust::answer(&input)) {
            Ok(answer) => answer,
            Err(thrown) => {
                let text = thrown.downcast_ref::<String>().cloned().unwrap_or_default();
                tell(total, &mut tally, &input, &text, "");
                continue;
            }
        };
        lent.fault = if broken && faults.once_in(1000) { fault(&mut faults, &input) } else { Fault::None };
        tally.flipped += u64::from(lent.fault != Fault::None);
        let (found, kept) = lent.answer(&input);
        if found != expected || !kept {
            tell(total, &mut tally, &input, &expected.text(), &format!("{}{}", found.text(), if kept { "" } else { ", and lent memory that must stay was changed" }));
        }
        tally.asked += u64::from(rust::asked(&input));
        if tally.inputs % 8 == 0 {
            *tally.answers.entry((input.call(), expected.kind())).or_default() += 1;
            sample(total, &mut tally, &input);
        }
    }
    add(&mut total.lock().expect("no thread failed"), tally);
}

/// The reference beside strided-rs's private steps, and its count beside strided-rs's own walk.
fn sample(total: &Mutex<Tally>, tally: &mut Tally, input: &Input) {
    let Input::Injective { extents, strides, .. } = input else {
        return;
    };
    let (extents, strides) = (extents.slice(), strides.slice());
    if extents.len() > 16 {
        return;
    }
    let (step, distinct) = KernelDType::step(rust::unsigned(extents), rust::signed(strides));
    tally.steps[step as usize] += 1;
    let judged = judge(extents, strides);
    let agree = match judged {
        Judged::Refused(_) => step == 0,
        Judged::Distinct(count) => distinct && (step == 5) == (count > 0),
        Judged::Repeated(_) => !distinct && step < 6,
        Judged::Enumerated(_) => step == 6,
        Judged::Undecided => step == 7,
    };
    if !agree || judge_by_rust_walk(extents, strides).is_some_and(|walked| walked != judged) {
        tell(total, tally, input, &format!("step {step}, {distinct}"), &format!("reference {judged:?}"));
    }
}

/// One flipped thing that the comparison must notice: the number, any lent word, or a word behind scratch.
fn fault(random: &mut Random, input: &Input) -> Fault {
    match random.below(8) {
        0 => Fault::Number,
        1 if matches!(input, Input::Injective { .. }) => Fault::Scratch,
        _ => Fault::Word(random.below(WORDS as u64) as usize),
    }
}

fn tell(total: &Mutex<Tally>, tally: &mut Tally, input: &Input, expected: &str, found: &str) {
    tally.differences += 1;
    let mut total = total.lock().expect("no thread failed");
    if total.printed < PRINTED {
        total.printed += 1;
        println!("difference in {}: {}\n  strided-rs: {expected}\n  ours:     {found}", CALLS[input.call()], input.text());
    }
}

fn add(total: &mut Tally, tally: Tally) {
    total.inputs += tally.inputs;
    total.differences += tally.differences;
    total.asked += tally.asked;
    total.flipped += tally.flipped;
    for (key, count) in tally.answers {
        *total.answers.entry(key).or_default() += count;
    }
    for (step, count) in tally.steps.into_iter().enumerate() {
        total.steps[step] += count;
    }
}

fn report(total: &Tally, broken: bool) {
    println!("of every eighth input, by call and answer:");
    for ((call, answer), count) in &total.answers {
        println!("  {} {answer}: {count}", CALLS[*call]);
    }
    let names = ["refused", "one position", "separated", "crowded", "two axes", "searched", "enumerated", "undecided"];
    println!("of these verdicts, by the step of strided-rs that decides:");
    names.iter().zip(total.steps).for_each(|(name, count)| println!("  {name}: {count}"));
    println!("strided-rs was asked for {} inputs; before it come refusal 1 and refusal 3 of a layout handed in", total.asked);
    if broken {
        println!("{} answers were flipped", total.flipped);
    }
}
