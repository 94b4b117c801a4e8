//! Twenty full listings of each shape, each under every question. The lent buffer is cleared before every call, on both sides and
//! within the time taken.

use std::hint::black_box;
use std::time::{Duration, Instant};

use compare::{Service, Side};
use inputs::{Call, Random, Shape, NODES, QUESTIONS, SHAPES};

const SEED: u64 = 128;
const LISTINGS_A_SHAPE: usize = 20;
const SMALL: usize = 16;

/// Rounds go on for this long; a slow one is not repeated.
const PATIENCE: Duration = Duration::from_millis(300);

/// What is timed: a service, and how many of the nodes make room for places of the map.
const WORK: [(&str, Service, usize); 6] = [
    ("judge", Service::Judge, 0),
    ("judge_patch, empty map", Service::JudgePatch, 0),
    ("judge_patch, 1 place in 8 nodes", Service::JudgePatch, 8),
    ("propose", Service::Propose, 0),
    ("write, empty map", Service::Write, 0),
    ("write, 1 place in 8 nodes", Service::Write, 8),
];

pub fn print() {
    println!("Mean a call in microseconds. Both judges answer the same {} listings.\n", LISTINGS_A_SHAPE * SHAPES.len());
    println!("| service | shape | proved | straightforward | times faster | proved, 16 to 128 nodes | straightforward, 16 to 128 nodes |");
    println!("|---|---|---:|---:|---:|---:|---:|");
    for (name, service, one_place_in) in WORK {
        let mut total = [0.0; 4];
        for shape in SHAPES {
            let figures = Figures::of(service, shape, one_place_in);
            print_row(name, shape.0, figures.0);
            for (sum, figure) in total.iter_mut().zip(figures.0) {
                *sum += figure / SHAPES.len() as f64;
            }
        }
        print_row(name, "all", total);
    }
}

/// Microseconds a call: proved and straightforward at full size, then proved and straightforward at small size.
struct Figures([f64; 4]);

impl Figures {
    fn of(service: Service, shape: Shape, one_place_in: usize) -> Figures {
        let full = calls(shape, NODES, one_place_in);
        let small = calls(shape, SMALL, one_place_in);
        must_agree(service, &full);
        Figures([
            mean(service, Side::Proved, &full),
            mean(service, Side::Straightforward, &full),
            mean(service, Side::Proved, &small),
            mean(service, Side::Straightforward, &small),
        ])
    }
}

fn print_row(name: &str, shape: &str, [proved, plain, proved_small, plain_small]: [f64; 4]) {
    let growth = |large: f64, small: f64| format!("x {:.1}", large / small);
    let (proved_growth, plain_growth) = (growth(proved, proved_small), growth(plain, plain_small));
    println!("| {name} | {shape} | {proved:.2} | {plain:.2} | {:.1} | {proved_growth} | {plain_growth} |", plain / proved);
}

/// The listings of a shape under every question. With places, listing and fences together have `size` nodes.
fn calls(shape: Shape, size: usize, one_place_in: usize) -> Vec<Call> {
    let mut random = Random::seeded(SEED);
    let places = size.checked_div(one_place_in).unwrap_or(0);
    let nodes = size - places;
    let mut calls = Vec::new();
    for _ in 0..LISTINGS_A_SHAPE {
        let listing = (shape.1)(&mut random, nodes);
        let mut map = vec![0; nodes];
        for place in 0..places {
            map[place * nodes / places] = 1;
        }
        for question in 1..=QUESTIONS as u64 {
            calls.push(Call::of_listing(question, listing.clone(), map.clone()));
        }
    }
    calls
}

fn must_agree(service: Service, calls: &[Call]) {
    for call in calls {
        let room = service.room(call);
        let (mut one, mut other) = (vec![0; room], vec![0; room]);
        let proved = service.ask(Side::Proved, call, &mut one);
        let expected = service.ask(Side::Straightforward, call, &mut other);
        assert_eq!((proved, one), (expected, other), "{service:?} {call:?}");
    }
}

/// Microseconds a call: the mean of each call's fastest time, so that what else the machine does counts little.
fn mean(service: Service, side: Side, calls: &[Call]) -> f64 {
    let mut lent = vec![0; calls.iter().map(|call| service.room(call)).max().unwrap_or(0)];
    let mut fastest = vec![Duration::MAX; calls.len()];
    let (start, mut rounds) = (Instant::now(), 0);
    while rounds == 0 || start.elapsed() < PATIENCE {
        for (call, fastest) in calls.iter().zip(&mut fastest) {
            let lent = &mut lent[..service.room(call)];
            let begun = Instant::now();
            lent.fill(0);
            black_box(service.ask(side, black_box(call), lent));
            *fastest = begun.elapsed().min(*fastest);
        }
        rounds += 1;
    }
    fastest.iter().sum::<Duration>().as_secs_f64() * 1e6 / calls.len() as f64
}
