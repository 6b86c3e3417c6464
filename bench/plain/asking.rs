// Asking which free sites are reached soonest.
use crate::depot::Depot;
use crate::heap::Heap;
use crate::numbers::NONE;

const NO_WAY: u32 = 65_535;

pub struct Asking {
    pub readings: Vec<u32>,
    pub sited: Vec<bool>,
    pub ways: Vec<u32>,
    pub heap: Heap,
    pub answers: Vec<(u32, u32)>,
}

impl Asking {
    pub fn new(n: usize) -> Asking {
        Asking { readings: vec![NONE; n], sited: vec![false; n], ways: vec![NO_WAY; n], heap: Heap::new(n), answers: Vec::with_capacity(32) }
    }

    pub fn ask(&mut self, depot: &Depot, estimate: impl Fn(usize, u32, u64) -> Option<u32>, from: usize, start: u32, k: usize) -> u64 {
        let mut wanted = depot.free_sites();
        self.readings.fill(NONE);
        self.ways.fill(NO_WAY);
        self.sited.fill(false);
        for site in &depot.sites {
            self.sited[*site as usize] = true;
        }
        self.heap.clear();
        self.answers.clear();
        self.readings[from] = start;
        if let Some(key) = estimate(from, start, wanted) {
            self.heap.set(key as u64, from as u32);
        }
        let mut steps = 0;
        while let Some((_, v)) = self.heap.take_least() {
            steps += 1;
            let (v, reading) = (v as usize, self.readings[v as usize]);
            if self.sited[v] {
                for (site, place) in depot.sites.iter().enumerate() {
                    if *place as usize == v && wanted >> site & 1 == 1 {
                        self.answers.push((site as u32, reading));
                        wanted &= !(1 << site);
                        if self.answers.len() == k {
                            return steps;
                        }
                    }
                }
            }
            for arc in depot.arcs_of(v) {
                let Some(arrived) = depot.carry(arc, reading) else { continue };
                let head = depot.heads[arc] as usize;
                if arrived < self.readings[head] {
                    self.readings[head] = arrived;
                    self.ways[head] = arc as u32;
                    match estimate(head, arrived, wanted) {
                        Some(key) => self.heap.set(key as u64, head as u32),
                        None => self.heap.remove(head as u32),
                    }
                }
            }
        }
        steps
    }
}
