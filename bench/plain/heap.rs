// The priority queue.
use crate::numbers::NONE;

// An indexed binary heap of keys, each a height and a junction.
pub struct Heap {
    pub items: Vec<(u64, u32)>,
    pub places: Vec<u32>,
}

impl Heap {
    pub fn new(n: usize) -> Heap {
        Heap { items: Vec::with_capacity(n), places: vec![NONE; n] }
    }

    pub fn clear(&mut self) {
        self.items.clear();
        self.places.fill(NONE);
    }

    pub fn waiting(&self, v: u32) -> bool {
        self.places[v as usize] != NONE
    }

    pub fn put(&mut self, at: usize, item: (u64, u32)) {
        self.items[at] = item;
        self.places[item.1 as usize] = at as u32;
    }

    pub fn rise(&mut self, mut at: usize) -> usize {
        while at > 0 {
            let parent = (at - 1) / 2;
            if self.items[at] >= self.items[parent] {
                break;
            }
            let (low, high) = (self.items[at], self.items[parent]);
            self.put(parent, low);
            self.put(at, high);
            at = parent;
        }
        at
    }

    pub fn sink(&mut self, mut at: usize) {
        loop {
            let left = at * 2 + 1;
            if left >= self.items.len() {
                return;
            }
            let right = left + 1;
            let child = if right < self.items.len() && self.items[right] < self.items[left] { right } else { left };
            if self.items[child] >= self.items[at] {
                return;
            }
            let (high, low) = (self.items[at], self.items[child]);
            self.put(at, low);
            self.put(child, high);
            at = child;
        }
    }

    pub fn set(&mut self, height: u64, v: u32) {
        let mut at = self.places[v as usize] as usize;
        if at == NONE as usize {
            at = self.items.len();
            self.items.push((height, v));
            self.places[v as usize] = at as u32;
        } else {
            self.items[at].0 = height;
        }
        let at = self.rise(at);
        self.sink(at);
    }

    pub fn remove_at(&mut self, at: usize) -> (u64, u32) {
        let gone = self.items[at];
        let last = self.items.pop().unwrap();
        self.places[gone.1 as usize] = NONE;
        if at < self.items.len() {
            self.put(at, last);
            let at = self.rise(at);
            self.sink(at);
        }
        gone
    }

    pub fn remove(&mut self, v: u32) {
        if self.waiting(v) {
            self.remove_at(self.places[v as usize] as usize);
        }
    }

    pub fn take_least(&mut self) -> Option<(u64, u32)> {
        if self.items.is_empty() { None } else { Some(self.remove_at(0)) }
    }
}
