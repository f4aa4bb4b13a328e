// The benchmarks: the proved code and the hand-written Rust of hand.rs, in one process, on the same texts. docs/SPEED.md
// says how to build and run them.
//   bench                     all comparisons: the least time of each side, and the ratio
//   bench NAME proved|hand N  one side of one comparison, N times, for a profiler
mod hand;
mod texts;

use hand::{AirFirst, Bill, Outcome, Plant, Priced, Tariff};
use std::time::{Duration, Instant};

// ---- the proved side

mod proved {
    // Nothing checks these lines against crates/bench/src/exports.rt. A slice passes as its pointer and its length.
    unsafe extern "C" {
        fn nensuya_ask_chain(text: *const u8, length: usize, rounds: u32, answer: *mut u64) -> u32;
        fn nensuya_ask_pair(text: *const u8, length: usize, rounds: u32, answer: *mut u64) -> u32;
        fn nensuya_plan_priced(text: *const u8, length: usize, rate: u32, sweeps: u32, answer: *mut u64) -> u32;
        fn nensuya_book_chain(text: *const u8, length: usize, windows: u32, answer: *mut u64) -> u32;
        fn nensuya_plan_air_first(text: *const u8, length: usize, sweeps: u32, answer: *mut u64) -> u32;
    }

    fn found(number: u32, answer: u64) -> Result<u64, u32> {
        if number == 0 { Ok(answer) } else { Err(number) }
    }

    pub fn ask_chain(text: &[u8], rounds: u32) -> Result<u64, u32> {
        let mut answer = 0;
        let number = unsafe { nensuya_ask_chain(text.as_ptr(), text.len(), rounds, &mut answer) };
        found(number, answer)
    }

    pub fn ask_pair(text: &[u8], rounds: u32) -> Result<u64, u32> {
        let mut answer = 0;
        let number = unsafe { nensuya_ask_pair(text.as_ptr(), text.len(), rounds, &mut answer) };
        found(number, answer)
    }

    pub fn plan_priced(text: &[u8], rate: u32, sweeps: u32) -> Result<u64, u32> {
        let mut answer = 0;
        let number = unsafe { nensuya_plan_priced(text.as_ptr(), text.len(), rate, sweeps, &mut answer) };
        found(number, answer)
    }

    pub fn plan_air_first(text: &[u8], sweeps: u32) -> Result<u64, u32> {
        let mut answer = 0;
        let number = unsafe { nensuya_plan_air_first(text.as_ptr(), text.len(), sweeps, &mut answer) };
        found(number, answer)
    }

    pub fn book_chain(text: &[u8], windows: u32) -> Result<u64, u32> {
        let mut answer = 0;
        let number = unsafe { nensuya_book_chain(text.as_ptr(), text.len(), windows, &mut answer) };
        found(number, answer)
    }
}

// ---- the hand-written side: the same digest of the same answers

const MULTIPLIER: u64 = 6_364_136_223_846_793_005;
const ABSENT: u64 = u64::MAX;

fn mix(digest: u64, number: u64) -> u64 {
    digest.wrapping_mul(MULTIPLIER).wrapping_add(number)
}

fn mix_bill(digest: u64, bill: Option<Bill>) -> u64 {
    match bill {
        Some(bill) => mix(mix(digest, u64::from(bill.seconds)), u64::from(bill.cents)),
        None => mix(digest, ABSENT),
    }
}

fn mix_outcome(digest: u64, outcome: Option<Outcome>) -> u64 {
    match outcome {
        Some(outcome) => mix(mix(digest, outcome.next as u64), u64::from(outcome.weight)),
        None => mix(digest, ABSENT),
    }
}

fn ask<P: Plant>(plant: &P, rounds: u32) -> u64 {
    let mut digest = 0;
    for _ in 0..rounds {
        let (states, portfolios) = (plant.states(), plant.portfolios());
        digest = mix(mix(digest, states as u64), portfolios as u64);
        for state in 0..states + 1 {
            for portfolio in 0..portfolios + 1 {
                digest = mix(digest, u64::from(plant.feasible(state, portfolio)));
                digest = mix_bill(digest, plant.bill(state, portfolio));
                let count = plant.outcome_count(state, portfolio);
                digest = mix(digest, count as u64);
                for k in 0..count + 1 {
                    digest = mix_outcome(digest, plant.outcome(state, portfolio, k));
                }
            }
        }
    }
    digest
}

fn mix_amount<T: Tariff>(tariff: &T, before: u64, amount: T::Amount) -> u64 {
    (0..T::PLACES).fold(before, |digest, i| match tariff.place(amount, i) {
        Some(place) => mix(mix(digest, u64::from(place < 0)), place.unsigned_abs()),
        None => mix(digest, ABSENT),
    })
}

fn plan<P: Plant, T: Tariff>(plant: &P, tariff: &T, sweeps: u32) -> Result<u64, hand::Refusal> {
    let mut values = vec![tariff.zero(); plant.states()];
    let mut working = vec![tariff.zero(); plant.states()];
    let mut policy = vec![0u16; plant.states()];
    let claims = hand::plan(plant, tariff, sweeps, &mut values, &mut working, &mut policy)?;
    let mut digest = mix_amount(tariff, 0, claims.low);
    digest = mix_amount(tariff, digest, claims.high);
    digest = values.iter().fold(digest, |digest, value| mix_amount(tariff, digest, *value));
    Ok(policy.iter().fold(digest, |digest, portfolio| mix(digest, u64::from(*portfolio))))
}

// So many windows of a book in which everything is renewed each time, the outcomes drawn by the digest.
fn book<P: Plant>(plant: &P, windows: u32) -> Result<u64, hand::BookRefusal> {
    let policy = vec![(plant.portfolios() - 1) as u16; plant.states()];
    let mut open = hand::Open::make(plant, 0)?;
    let mut digest = 0;
    for _ in 0..windows {
        let on_air = open.issue(plant, &policy).map_err(|(_, why)| why)?.carry_out();
        let count = plant.outcome_count(on_air.state(), usize::from(on_air.portfolio()));
        let outcome = (digest >> 33) as usize % count.max(1);
        open = on_air.report(plant, outcome).map_err(|(_, why)| why)?;
        let account = open.account();
        digest = mix(mix(mix(digest, account.state as u64), account.seconds), account.cents);
    }
    Ok(digest)
}

// ---- the comparisons

// The rate of the plans under the priced tariff.
const RATE: u32 = 25;
// How long each comparison goes on.
const SPAN: Duration = Duration::from_secs(6);

struct Comparison {
    name: &'static str,
    proved: Box<dyn Fn() -> u64>,
    hand: Box<dyn Fn() -> u64>,
}

fn ask_of_chain(name: &'static str, text: String, rounds: u32) -> Comparison {
    let copy = text.clone();
    Comparison {
        name,
        proved: Box::new(move || proved::ask_chain(text.as_bytes(), rounds).expect("a lawful chain")),
        hand: Box::new(move || ask(&texts::read_chain(&copy).expect("a lawful chain"), rounds)),
    }
}

fn ask_of_pair(name: &'static str, text: String, rounds: u32) -> Comparison {
    let copy = text.clone();
    Comparison {
        name,
        proved: Box::new(move || proved::ask_pair(text.as_bytes(), rounds).expect("a lawful pair")),
        hand: Box::new(move || ask(&texts::read_pair(&copy).expect("a lawful pair"), rounds)),
    }
}

fn priced(name: &'static str, text: String, sweeps: u32) -> Comparison {
    let copy = text.clone();
    Comparison {
        name,
        proved: Box::new(move || proved::plan_priced(text.as_bytes(), RATE, sweeps).expect("a plan")),
        hand: Box::new(move || {
            let chain = texts::read_chain(&copy).expect("a lawful chain");
            plan(&chain, &Priced { rate: RATE }, sweeps).expect("a plan")
        }),
    }
}

fn air_first(name: &'static str, text: String, sweeps: u32) -> Comparison {
    let copy = text.clone();
    Comparison {
        name,
        proved: Box::new(move || proved::plan_air_first(text.as_bytes(), sweeps).expect("a plan")),
        hand: Box::new(move || {
            let chain = texts::read_chain(&copy).expect("a lawful chain");
            plan(&chain, &AirFirst, sweeps).expect("a plan")
        }),
    }
}

fn book_of_chain(name: &'static str, text: String, windows: u32) -> Comparison {
    let copy = text.clone();
    Comparison {
        name,
        proved: Box::new(move || proved::book_chain(text.as_bytes(), windows).expect("a book")),
        hand: Box::new(move || book(&texts::read_chain(&copy).expect("a lawful chain"), windows).expect("a book")),
    }
}

fn comparisons() -> Vec<Comparison> {
    vec![
        ask_of_chain("ask-chain-3", texts::chain_of(&[16, 16, 4]), 1),
        ask_of_chain("ask-chain-6", texts::chain_of(&[4, 4, 3, 3, 2, 2]), 1),
        ask_of_pair("ask-pair", texts::pair_of(8), 20),
        priced("plan-3-priced", texts::chain_of(&[16, 16, 4]), 5),
        air_first("plan-3-airfirst", texts::chain_of(&[16, 16, 4]), 5),
        priced("plan-6-priced", texts::chain_of(&[4, 4, 3, 3, 2, 2]), 1),
        air_first("plan-6-airfirst", texts::chain_of(&[4, 4, 3, 3, 2, 2]), 1),
        priced("long-priced", texts::chain_of(&[16, 16, 4]), 100),
        air_first("long-airfirst", texts::chain_of(&[16, 16, 4]), 100),
        book_of_chain("book-6", texts::chain_of(&[4, 4, 3, 3, 2, 2]), 1_000_000),
    ]
}

fn timed(work: &dyn Fn() -> u64) -> (Duration, u64) {
    let start = Instant::now();
    let digest = work();
    (start.elapsed(), digest)
}

// Both sides in turn until the span is over: the least time of each.
fn compare(comparison: &Comparison) {
    let (mut proved, mut hand) = (Duration::MAX, Duration::MAX);
    let mut turns = 0;
    let start = Instant::now();
    while start.elapsed() < SPAN || turns < 5 {
        let (time, digest) = timed(&comparison.proved);
        proved = proved.min(time);
        let (time, other) = timed(&comparison.hand);
        hand = hand.min(time);
        assert_eq!(digest, other, "{}: the two sides differ", comparison.name);
        turns += 1;
    }
    let (p, h) = (proved.as_secs_f64() * 1e3, hand.as_secs_f64() * 1e3);
    println!("{:<16} {p:>10.3} {h:>10.3} {:>6.2} {turns:>6}", comparison.name, p / h);
}

fn main() {
    let args: Vec<String> = std::env::args().collect();
    let all = comparisons();
    if let [_, name, side, times] = &args[..] {
        let one = all.iter().find(|c| c.name == name).expect("a name of a comparison");
        let work = if side == "proved" { &one.proved } else { &one.hand };
        for _ in 0..times.parse::<u32>().expect("a number") {
            println!("{}", work());
        }
        return;
    }
    println!("{:<16} {:>10} {:>10} {:>6} {:>6}", "", "proved ms", "hand ms", "ratio", "turns");
    all.iter().for_each(compare);
}
