// Laying the index: by one search from all sites, and, to compare with it, by a search from each junction.
use crate::depot::Depot;
use crate::heap::Heap;
use crate::index::Index;
use crate::numbers::NONE;
use crate::row::{Entry, Row};

// The arcs by the junction that they lead into.
struct Incoming {
    // the last arc into each junction
    last: Vec<u32>,
    // for each arc the one before it into the same junction, and its tail
    arcs: Vec<(u32, u32)>,
}

impl Incoming {
    fn of(depot: &Depot) -> Incoming {
        let mut incoming = Incoming { last: vec![NONE; depot.junctions()], arcs: Vec::with_capacity(depot.heads.len()) };
        for tail in 0..depot.junctions() {
            for arc in depot.arcs_of(tail) {
                let last = &mut incoming.last[depot.heads[arc] as usize];
                incoming.arcs.push((*last, tail as u32));
                *last = arc as u32;
            }
        }
        incoming
    }
}

// The search from all sites at once.
struct Search {
    most: usize,
    incoming: Incoming,
    rows: Vec<Row>,
    // the junctions with an entry that is not settled, by the time of the first
    queue: Heap,
}

impl Search {
    fn of(depot: &Depot) -> Search {
        let n = depot.junctions();
        Search { most: depot.nearest, incoming: Incoming::of(depot), rows: vec![Row::EMPTY; n], queue: Heap::new(n) }
    }

    fn offer(&mut self, junction: u32, entry: Entry) {
        if self.rows[junction as usize].offer(self.most, entry) {
            self.queue.set(entry.0 as u64, junction);
        }
    }

    // Fills the rows of a segment with such costs. Each arc takes time, so that no entry comes before one that is settled.
    fn run(&mut self, depot: &Depot, costs: &[u32]) {
        self.rows.fill(Row::EMPTY);
        for (site, junction) in depot.sites.iter().enumerate() {
            self.offer(*junction, (0, site as u32));
        }
        while let Some((_, head)) = self.queue.take_least() {
            let row = &mut self.rows[head as usize];
            let (time, site) = row.entries[row.settled];
            row.settled += 1;
            if let Some((next, _)) = row.first_unsettled(self.most) {
                self.queue.set(next as u64, head);
            }
            let mut arc = self.incoming.last[head as usize];
            while arc != NONE {
                let (before, tail) = self.incoming.arcs[arc as usize];
                self.offer(tail, (time + costs[arc as usize], site));
                arc = before;
            }
        }
    }
}

// The nearest sites of every junction, in each segment by one search from all sites at once, against the arcs.
pub fn lay(depot: &Depot) -> Index {
    let mut index = Index::empty(depot);
    let mut search = Search::of(depot);
    for i in 0..depot.segments.len() {
        search.run(depot, &depot.least_times(i));
        for (v, row) in search.rows.iter().enumerate() {
            index.write((i * depot.junctions() + v) * depot.nearest, &row.entries[..row.settled]);
        }
    }
    index
}

// The same index by a search from every junction.
pub fn lay_from_each(depot: &Depot) -> Index {
    let (n, most, sited) = (depot.junctions(), depot.nearest, depot.sited());
    let mut index = Index::empty(depot);
    let mut times = vec![NONE; n];
    let mut heap = Heap::new(n);
    for i in 0..depot.segments.len() {
        let costs = depot.least_times(i);
        for from in 0..n {
            times.fill(NONE);
            heap.clear();
            let mut row = Row::EMPTY;
            times[from] = 0;
            heap.set(0, from as u32);
            while let Some((time, v)) = heap.take_least() {
                let (v, time) = (v as usize, time as u32);
                if time > row.entries[most - 1].0 {
                    break;
                }
                if sited[v] {
                    for site in depot.sites_at(v) {
                        row.offer(most, (time, site));
                    }
                }
                for arc in depot.arcs_of(v) {
                    let head = depot.heads[arc] as usize;
                    if time + costs[arc] < times[head] {
                        times[head] = time + costs[arc];
                        heap.set(times[head] as u64, head as u32);
                    }
                }
            }
            index.write((i * n + from) * most, row.listed());
        }
    }
    index
}
