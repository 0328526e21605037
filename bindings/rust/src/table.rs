//! Numbers of things, found by marks.

/// The numbers of things, from 0 in the order in which they were added. Each stands at the place of its thing's mark, or
/// in the first free one behind it. Equal things have equal marks; the more others have marks of their own, the quicker
/// are numbers found.
#[derive(Clone, Default)]
pub(crate) struct Table {
    /// As many as a power of two, or none. Half of them stay free.
    places: Vec<Option<Entry>>,
    len: usize,
}

#[derive(Clone, Copy)]
struct Entry {
    mark: u64,
    number: usize,
}

impl Table {
    /// The number of a thing that has this mark, of which `is_it` tells whether a number is its own.
    pub(crate) fn find(&self, mark: u64, mut is_it: impl FnMut(usize) -> bool) -> Option<usize> {
        let mut place = mark as usize;
        while let Some(entry) = self.places.get(place & self.mask())? {
            if entry.mark == mark && is_it(entry.number) {
                return Some(entry.number);
            }
            place = place.wrapping_add(1);
        }
        None
    }

    /// Adds a thing that has this mark and no number yet. It has the next number.
    pub(crate) fn add(&mut self, mark: u64) {
        if self.places.len() <= 2 * self.len {
            let grown = vec![None; (4 * self.len).max(8).next_power_of_two()];
            let entries = std::mem::replace(&mut self.places, grown);
            entries.into_iter().flatten().for_each(|entry| self.put(entry));
        }
        self.put(Entry { mark, number: self.len });
        self.len += 1;
    }

    /// Puts an entry into the first free place from that of its mark on.
    fn put(&mut self, entry: Entry) {
        let (mask, mut place) = (self.mask(), entry.mark as usize);
        while self.places[place & mask].is_some() {
            place = place.wrapping_add(1);
        }
        self.places[place & mask] = Some(entry);
    }

    fn mask(&self) -> usize {
        self.places.len().wrapping_sub(1)
    }
}
