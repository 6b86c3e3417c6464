// The nearest sites of a junction, as they are offered.
use crate::depot::MOST_NEAREST;
use crate::numbers::NONE;

// A time and a site.
pub type Entry = (u32, u32);

// It comes after every entry.
pub const NO_ENTRY: Entry = (NONE, NONE);

// A junction's nearest sites so far, in order, each once, and how many of them are settled.
#[derive(Clone, Copy)]
pub struct Row {
    pub entries: [Entry; MOST_NEAREST],
    pub settled: usize,
}

impl Row {
    pub const EMPTY: Row = Row { entries: [NO_ENTRY; MOST_NEAREST], settled: 0 };

    pub fn listed(&self) -> &[Entry] {
        let count = self.entries.iter().take_while(|entry| **entry != NO_ENTRY).count();
        &self.entries[..count]
    }

    pub fn first_unsettled(&self, most: usize) -> Option<Entry> {
        let entry = *self.entries[..most].get(self.settled)?;
        (entry != NO_ENTRY).then_some(entry)
    }

    // Whether the entry is now the first that is not settled. It falls where its site is in the row no later, or where the
    // row is full of entries that come before it; else the later entry of its site falls, or the last of a full row.
    pub fn offer(&mut self, most: usize, entry: Entry) -> bool {
        let mut at = most - 1;
        if self.entries[at] <= entry {
            return false;
        }
        // All places are looked at: to stop where the site is found costs more.
        for place in (0..MOST_NEAREST).rev() {
            if self.entries[place].1 == entry.1 {
                at = place;
            }
        }
        if self.entries[at] <= entry {
            return false;
        }
        while at > 0 && self.entries[at - 1] > entry {
            self.entries[at] = self.entries[at - 1];
            at -= 1;
        }
        self.entries[at] = entry;
        at == self.settled
    }
}
