// A plain program that does what the library's program of measurement does, with the same algorithms on the same depot, so
// that their times can be laid side by side.
//
//     plain [SIDE [CARRYINGS [SITES [SEGMENTS [NEAREST]]]]]
//
// What was computed goes to standard output, and how long it took, in seconds, to standard error.
mod asking;
mod depot;
mod heap;
mod index;
mod laying;
mod numbers;
mod row;
mod sizes;

use asking::Asking;
use depot::{Depot, LAST};
use index::{guided, load};
use laying::{lay, lay_from_each};
use numbers::{Random, Sum};
use sizes::Sizes;
use std::env;
use std::time::Instant;

const START: u32 = 28_800;
const ASKED: usize = 5;

// An asking's totals: what is listed, in how many steps, and the sums of sites and readings.
#[derive(Default)]
struct Totals {
    listed: u64,
    steps: u64,
    sites: Sum,
    readings: Sum,
}

fn ask_from_all(depot: &Depot, estimate: impl Fn(usize, u32, u64) -> Option<u32>) -> Totals {
    let mut asking = Asking::new(depot.junctions());
    let mut totals = Totals::default();
    for from in 0..depot.junctions() {
        totals.steps += asking.ask(depot, &estimate, from, START, ASKED);
        for (site, reading) in &asking.answers {
            totals.listed += 1;
            totals.sites.add(*site);
            totals.readings.add(*reading);
        }
    }
    totals
}

fn timed<T>(name: &str, work: impl FnOnce() -> T) -> T {
    let begun = Instant::now();
    let made = work();
    eprintln!("{name} {:.6}", begun.elapsed().as_secs_f64());
    made
}

fn time_carrying(depot: &Depot, carryings: u32) {
    let mut random = Random::seeded(88_172_645_463_325_253);
    let enterings: Vec<(usize, u32)> =
        (0..carryings).map(|_| (random.below(depot.heads.len() as u32) as usize, random.below(LAST + 1))).collect();
    let sum: u64 =
        timed("carry", || enterings.iter().filter_map(|(arc, t)| depot.carry(*arc, *t)).map(|arrived| arrived as u64).sum());
    println!("carry {carryings} arrivals {sum}");
}

fn time_asking(name: &str, depot: &Depot, estimate: impl Fn(usize, u32, u64) -> Option<u32>) {
    let totals = timed(name, || ask_from_all(depot, estimate));
    let Totals { listed, steps, sites: Sum(sites), readings: Sum(readings) } = totals;
    println!("{name} listed {listed} steps {steps} sites {sites} readings {readings}");
}

fn measure(sizes: Sizes) {
    let depot = Depot::grid(sizes);
    let side = sizes.side;
    let (arcs, points) = (depot.heads.len(), depot.departures.len());
    let (Sum(heads), Sum(arrivals), Sum(sites)) = (Sum::of(&depot.heads), Sum::of(&depot.arrivals), Sum::of(&depot.sites));
    println!("grid {side} arcs {arcs} points {points} heads {heads} arrivals {arrivals} sites {sites}");
    time_carrying(&depot, sizes.carryings);
    time_asking("ask-bare", &depot, |_, t, _| Some(t));
    let index = timed("lay", || lay(&depot));
    assert!(timed("lay-each", || lay_from_each(&depot)) == index, "the two ways of laying differ");
    let (Sum(sites), Sum(times)) = (Sum::of(&index.sites), Sum::of(&index.times));
    println!("lay entries {} sites {sites} times {times}", index.sites.len());
    let accepted = timed("load", || load(&depot, &index));
    println!("load {}", if accepted { "accepted" } else { "refused" });
    time_asking("ask-guided", &depot, |v, t, wanted| guided(&depot, &index, v, t, wanted));
}

fn main() {
    let numbers: Vec<u32> = env::args().skip(1).map(|word| word.parse().expect("a number")).collect();
    measure(Sizes::of(&numbers));
}
