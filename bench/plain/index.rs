// The index of least times: loading it, and the estimates by it.
use crate::depot::{Depot, LAST};
use crate::row::{NO_ENTRY, Row};

const MISSING: u32 = 65_535;

#[derive(PartialEq)]
pub struct Index {
    pub sites: Vec<u32>,
    pub times: Vec<u32>,
}

impl Index {
    // Every entry is missing.
    pub fn empty(depot: &Depot) -> Index {
        let entries = depot.segments.len() * depot.junctions() * depot.nearest;
        Index { sites: vec![MISSING; entries], times: vec![0; entries] }
    }

    pub fn write(&mut self, at: usize, row: &[(u32, u32)]) {
        for (r, (time, site)) in row.iter().enumerate() {
            self.sites[at + r] = *site;
            self.times[at + r] = *time;
        }
    }
}

pub fn guided(depot: &Depot, index: &Index, v: usize, t: u32, wanted: u64) -> Option<u32> {
    if t > LAST {
        let here = depot.sites.iter().enumerate().any(|(s, p)| *p as usize == v && wanted >> s & 1 == 1);
        return here.then_some(t);
    }
    let i = depot.segment_of(t);
    let at = (i * depot.junctions() + v) * depot.nearest;
    let mut time = None;
    let mut full = true;
    for r in at..at + depot.nearest {
        let site = index.sites[r];
        if site == MISSING {
            full = false;
            break;
        }
        if wanted >> site & 1 == 1 {
            time = Some(index.times[r]);
            break;
        }
    }
    let time = match time {
        Some(time) => time,
        None if full => index.times[at + depot.nearest - 1],
        None => return None,
    };
    Some((t + time).min(depot.segment_end(i)))
}

// Whether each row is what its junction's sites and its arcs' heads offer.
pub fn load(depot: &Depot, index: &Index) -> bool {
    let (n, most, sited) = (depot.junctions(), depot.nearest, depot.sited());
    for i in 0..depot.segments.len() {
        for v in 0..n {
            let mut row = Row::EMPTY;
            if sited[v] {
                for site in depot.sites_at(v) {
                    row.offer(most, (0, site));
                }
            }
            for arc in depot.arcs_of(v) {
                let cost = depot.least_time(i, arc);
                let at = (i * n + depot.heads[arc] as usize) * most;
                for r in at..at + most {
                    if index.sites[r] == MISSING {
                        break;
                    }
                    row.offer(most, (index.times[r] + cost, index.sites[r]));
                }
            }
            let at = (i * n + v) * most;
            for r in 0..most {
                let (time, site) = if row.entries[r] == NO_ENTRY { (0, MISSING) } else { row.entries[r] };
                if (index.sites[at + r], index.times[at + r]) != (site, time) {
                    return false;
                }
            }
        }
    }
    true
}
