//! The Rust front end and the published collector in one process: `one_process SEED [OPTIONS]`.
//!
//! `--lists N`, `--large N`, `--words N`, `--figures N`: how many lists of calls on small and middle heaps, lists on the largest,
//! calls on words of any content, and figures. `--threshold N`: the most T of a large heap; 8192 is the full size. `--calls N`: the
//! calls of a list. `--seeds N`: all of it with so many seeds, one after the other.

mod damage;
#[path = "../../oracle/driver/figure.rs"]
mod figure;
mod form;
mod heaps;
mod lists;
mod random;
mod session;
mod words;

use damage::Scene;
use lists::{Player, Reached, Setting};
use random::Random;
use std::collections::BTreeMap;
use std::process::exit;

/// What the lists must have reached in the published collector.
const EVENTS: &str = include_str!("../../oracle/events.txt");

#[derive(Clone, Copy)]
struct Options {
    seed: u64,
    seeds: u64,
    lists: u64,
    large: u64,
    words: u64,
    figures: u64,
    threshold: u64,
    calls: u64,
}

fn options() -> Option<Options> {
    let mut words = std::env::args().skip(1);
    let seed = words.next()?.parse().ok()?;
    let mut options =
        Options { seed, seeds: 1, lists: 200, large: 6, words: 40_000, figures: 100_000, threshold: 48, calls: 3000 };
    while let Some(name) = words.next() {
        let number = words.next()?.parse().ok()?;
        *match name.as_str() {
            "--seeds" => &mut options.seeds,
            "--lists" => &mut options.lists,
            "--large" => &mut options.large,
            "--words" => &mut options.words,
            "--figures" => &mut options.figures,
            "--threshold" => &mut options.threshold,
            "--calls" => &mut options.calls,
            _ => return None,
        } = number;
    }
    Some(options)
}

fn main() {
    // the collector's panics are answers: only others are worth a message
    std::panic::set_hook(Box::new(|panic| {
        if gc::hooks::question_of(panic.payload()).is_none() {
            eprintln!("one process: {panic}");
        }
    }));
    let Some(options) = options() else {
        eprintln!("one process: not understood; driver/main.rs explains the options");
        exit(2);
    };
    for seed in options.seed..options.seed + options.seeds {
        compare_all(&Options { seed, ..options });
    }
}

fn compare_all(options: &Options) {
    let reached = play_lists(options);
    demand("lists", &reached.answered, &[0, 3, 5, 6, 7, 8, 9, 10]);
    let Reached { collections: [young, old], visits: [young_visits, old_visits], held, .. } = reached;
    println!("one process: {young} nursery and {old} elder collections; in one call up to {young_visits} and {old_visits} visits");
    println!("one process: up to {held} elder cells");
    demand_events();
    demand("words of any content", &ask_words(options), &[0, 1, 2, 3, 4, 5, 6, 7, 8, 9, 10, 11]);
    compare_figures(options);
}

fn play_lists(options: &Options) -> Reached {
    let mut reached = Reached::default();
    for run in 0..options.lists + options.large {
        let mut random = Random::new(options.seed, run);
        let setting = if run >= options.lists {
            Setting::large(&mut random, options.threshold as usize)
        } else if random.percent(60) {
            Setting::small(&mut random)
        } else {
            Setting::middle(&mut random)
        };
        let mut player = Player::new(&mut random, setting, &mut reached);
        if let Err(what) = player.play(options.calls as usize) {
            println!("one process: list {run} of seed {} differs: {what}; shortened:", options.seed);
            let (calls, what) = lists::shortened(setting, player.calls);
            println!("new {:?}, {} registers", setting.sizes, setting.registers);
            calls.iter().for_each(|call| println!("{call:?}"));
            println!("{what}");
            exit(1);
        }
    }
    reached
}

fn ask_words(options: &Options) -> BTreeMap<u8, u64> {
    const CALLS: u64 = 10;
    let mut answered = BTreeMap::new();
    for run in 0..options.words.div_ceil(CALLS) {
        let mut random = Random::new(!options.seed, run);
        let fail = |what: &str| -> ! { fail(&format!("words of any content, run {run}: {what}")) };
        let mut scene = Scene::new(&mut random).unwrap_or_else(|what| fail(&what));
        for _ in 0..CALLS {
            let asked = scene.asked(&mut random);
            let expected = words::expected(&scene.image, &asked);
            let checked = words::by_checked(&scene.image, &asked).unwrap_or_else(|what| fail(&what));
            for left in [Some(checked), words::by_formed(&scene.image, &asked)].into_iter().flatten() {
                if left != expected {
                    println!("{asked:?} on {:?}", scene.image);
                    println!("{} {:?}, judged {} {:?}", left.question, left.out, expected.question, expected.out);
                    fail("another answer, or other words are left");
                }
            }
            *answered.entry(expected.question).or_default() += 1;
            scene.image = expected.image;
        }
    }
    answered
}

/// With three decimals, by Rust itself: it takes a tie to the even digit too, but leaves a sign on zero.
fn printed(number: f64) -> String {
    let text = format!("{number:.3}");
    if text == "-0.000" { String::from("0.000") } else { text }
}

fn compare_figures(options: &Options) {
    let mut random = Random::new(options.seed, u64::MAX);
    for _ in 0..options.figures {
        let number = match random.below(4) {
            0 => f64::from_bits(random.next()),
            // near halves of a thousandth
            1 => (random.below(2_100_000_000) as f64 - 1_050_000_000.0) / 1000.0 + 0.0005,
            2 => (random.below(4_000_001) as f64 - 2_000_000.0) / 16_384.0,
            // sixteenths: the odd ones are ties
            _ => (random.below(32_004_001) as f64 - 16_002_000.0) / 16.0,
        };
        let ours = ours::Figure::of(number).ok().map(|figure| figure.to_string());
        if ours != figure::figure(number) {
            fail(&format!("the figure of {number:e}: {ours:?}, judged {:?}", figure::figure(number)));
        }
        if ours.is_some_and(|figure| figure != printed(number)) {
            fail(&format!("the figure of {number:e} is not what Rust prints, {}", printed(number)));
        }
    }
    println!("one process: {} figures agree", options.figures);
}

/// Fails where something wanted was not seen.
fn demand(what: &str, answered: &BTreeMap<u8, u64>, wanted: &[u8]) {
    let calls: u64 = answered.values().sum();
    let counts: Vec<_> = answered.iter().map(|(question, count)| format!("{question}: {count}")).collect();
    println!("one process: {what}: {calls} calls agree (by answer: {})", counts.join(", "));
    for question in wanted {
        if !answered.contains_key(question) {
            fail(&format!("no call of the {what} was answered {question}"));
        }
    }
}

fn demand_events() {
    let seen = gc::hooks::events();
    for event in EVENTS.lines() {
        if !seen.contains_key(event) {
            fail(&format!("not reached: {event}"));
        }
    }
}

fn fail(what: &str) -> ! {
    println!("one process: {what}");
    exit(1)
}
