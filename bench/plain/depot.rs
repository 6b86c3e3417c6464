// The depot that both programs make, and what its clock roads answer.
use crate::numbers::Random;
use crate::sizes::Sizes;

pub const LAST: u32 = 86_400;
pub const SEGMENTS: [u32; 8] = [0, 21_600, 32_400, 57_600, 68_400, 72_000, 75_600, 79_200];
pub const MOST_NEAREST: usize = 8;

#[derive(Default)]
pub struct Depot {
    pub starts: Vec<u32>,
    pub heads: Vec<u32>,
    pub points: Vec<u32>,
    pub departures: Vec<u32>,
    pub arrivals: Vec<u32>,
    pub sites: Vec<u32>,
    pub segments: Vec<u32>,
    pub nearest: usize,
    // each site's bays, and how many of them are out
    pub bays: Vec<(u32, u32)>,
}

impl Depot {
    // A square of junctions with a street to each neighbour, slow in the morning and less so in the evening, each by its own
    // pace; and sites at random.
    pub fn grid(sizes: Sizes) -> Depot {
        let Sizes { side, sites, segments, nearest, .. } = sizes;
        let mut random = Random::seeded(0x9E37_79B9_7F4A_7C15);
        let mut depot = Depot {
            starts: vec![0],
            points: vec![0],
            segments: SEGMENTS[..segments].to_vec(),
            nearest,
            bays: vec![(2, 0); sites],
            ..Depot::default()
        };
        let n = side * side;
        for here in 0..n {
            let neighbours = [
                (here >= side).then(|| here - side),
                (here % side > 0).then(|| here - 1),
                (here % side + 1 < side).then(|| here + 1),
                (here + side < n).then(|| here + side),
            ];
            for head in neighbours.into_iter().flatten() {
                depot.add_street(&mut random, head as u32);
            }
            depot.starts.push(depot.heads.len() as u32);
        }
        depot.sites.extend((0..sites).map(|_| random.below(n as u32)));
        depot
    }

    pub fn add_street(&mut self, random: &mut Random, head: u32) {
        self.heads.push(head);
        let pace = 40 + random.below(60);
        let rush = 25_200 + random.below(7_200);
        let morning = pace + random.below(120);
        let evening = pace + random.below(90);
        for (departure, time) in [(0, pace), (rush, morning), (rush + 10_800, evening), (LAST, pace)] {
            self.departures.push(departure);
            self.arrivals.push(departure + time);
        }
        self.points.push(self.departures.len() as u32);
    }

    // At which junctions a site stands.
    pub fn sited(&self) -> Vec<bool> {
        let mut sited = vec![false; self.junctions()];
        for site in &self.sites {
            sited[*site as usize] = true;
        }
        sited
    }

    pub fn sites_at(&self, v: usize) -> impl Iterator<Item = u32> {
        self.sites.iter().enumerate().filter(move |(_, place)| **place as usize == v).map(|(site, _)| site as u32)
    }

    pub fn free_sites(&self) -> u64 {
        let free = self.bays.iter().enumerate().filter(|(_, (bays, out))| out < bays);
        free.fold(0, |set, (site, _)| set | 1 << site)
    }

    pub fn junctions(&self) -> usize {
        self.starts.len() - 1
    }

    pub fn arcs_of(&self, v: usize) -> std::ops::Range<usize> {
        self.starts[v] as usize..self.starts[v + 1] as usize
    }

    pub fn carry(&self, arc: usize, t: u32) -> Option<u32> {
        if arc >= self.heads.len() || t > LAST {
            return None;
        }
        let (first, end) = (self.points[arc] as usize, self.points[arc + 1] as usize);
        let departures = &self.departures[first..end];
        let arrivals = &self.arrivals[first..end];
        let second = departures.partition_point(|d| *d < t).max(1);
        let (d, e) = (departures[second - 1], departures[second]);
        let (a, b) = (arrivals[second - 1], arrivals[second]);
        Some(a + ((t - d) as u64 * (b - a) as u64 / (e - d) as u64) as u32)
    }

    pub fn segment_of(&self, t: u32) -> usize {
        self.segments.partition_point(|first| *first <= t) - 1
    }

    pub fn segment_end(&self, i: usize) -> u32 {
        self.segments.get(i + 1).copied().unwrap_or(LAST + 1)
    }

    pub fn least_time(&self, segment: usize, arc: usize) -> u32 {
        let (first, last) = (self.segments[segment], self.segment_end(segment) - 1);
        let mut least = self.carry(arc, first).unwrap() - first;
        least = least.min(self.carry(arc, last).unwrap() - last);
        for p in self.points[arc] as usize..self.points[arc + 1] as usize {
            if self.departures[p] > first && self.departures[p] < last {
                least = least.min(self.arrivals[p] - self.departures[p]);
            }
        }
        least
    }

    pub fn least_times(&self, segment: usize) -> Vec<u32> {
        (0..self.heads.len()).map(|arc| self.least_time(segment, arc)).collect()
    }
}
