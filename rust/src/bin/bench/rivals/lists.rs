//! The zones of all squares in one array, and where each square's begin.

use std::ptr;

type Start = u32;

/// Entries that are moved at once.
type Wide = [u8; WIDE];
const WIDE: usize = 16;
/// From how many on a call of the C library moves them faster.
const LONG: usize = 256;
/// A zone that has one entry among so many, or more, is taken off by one pass over all.
const DENSE: usize = 5;

pub struct Lists {
    // by place, and one more
    starts: Vec<Start>,
    // room for all and a wide one, of which the first `used` are in use
    entries: Vec<u8>,
    used: usize,
}

impl Lists {
    pub fn new(places: u32, room: u32) -> Lists {
        Lists { starts: vec![0; places as usize + 1], entries: vec![0; room as usize + WIDE], used: 0 }
    }

    /// The zones on the list of a place.
    #[inline(always)]
    pub fn list(&self, place: u32) -> &[u8] {
        // SAFETY: places are below the count of squares, starts within the entries.
        unsafe {
            let from = *self.starts.get_unchecked(place as usize) as usize;
            let to = *self.starts.get_unchecked(place as usize + 1) as usize;
            self.entries.get_unchecked(from..to)
        }
    }

    /// Where the zone is, or belongs, on the list of a place.
    #[inline(always)]
    fn find(&self, place: u32, zone: u32) -> usize {
        let list = self.list(place);
        let at = list.iter().position(|&other| other as u32 >= zone).unwrap_or(list.len());
        self.starts[place as usize] as usize + at
    }

    /// Moves the entries from one to before another up. All above were moved up before, by one more.
    #[inline(always)]
    fn raise(&mut self, from: usize, end: usize, by: usize) {
        let entries = self.entries.as_mut_ptr();
        // SAFETY: the zones that stand fit into the entries. A wide one that begins below `from` writes above it.
        unsafe {
            if by < WIDE || from < WIDE || end - from >= LONG {
                ptr::copy(entries.add(from), entries.add(from + by), end - from);
                return;
            }
            let mut at = end;
            while at > from {
                at -= WIDE;
                let wide = entries.add(at).cast::<Wide>().read_unaligned();
                entries.add(at + by).cast::<Wide>().write_unaligned(wide);
            }
        }
    }

    /// Moves the entries from one to before another down. All below were moved down before, by one less.
    #[inline(always)]
    fn lower(&mut self, from: usize, end: usize, by: usize) {
        let entries = self.entries.as_mut_ptr();
        // SAFETY: there is room behind the entries. A wide one that ends above `end` writes below it.
        unsafe {
            if by < WIDE || end - from >= LONG {
                ptr::copy(entries.add(from), entries.add(from - by), end - from);
                return;
            }
            let mut at = from;
            while at < end {
                let wide = entries.add(at).cast::<Wide>().read_unaligned();
                entries.add(at - by).cast::<Wide>().write_unaligned(wide);
                at += WIDE;
            }
        }
    }

    /// Moves the starts behind a place of a cut, up to its next.
    #[inline(always)]
    fn shift(&mut self, places: &[u32], at: usize, by: Start) {
        let to = places.get(at + 1).map_or(self.starts.len(), |&next| next as usize + 1);
        for start in &mut self.starts[places[at] as usize + 1..to] {
            *start = start.wrapping_add(by);
        }
    }

    /// Puts a zone on the lists of a cut's places, from the last to the first.
    pub fn add(&mut self, zone: u32, places: &[u32]) {
        let mut end = self.used;
        self.used += places.len();
        for (at, &place) in places.iter().enumerate().rev() {
            let from = self.find(place, zone);
            self.raise(from, end, at + 1);
            self.entries[from + at] = zone as u8;
            self.shift(places, at, at as Start + 1);
            end = from;
        }
    }

    /// Takes a zone off the lists of its cut's places, from the first to the last.
    pub fn remove(&mut self, zone: u32, places: &[u32]) {
        if places.len() * DENSE >= self.used {
            self.sift(zone, self.find(places[0], zone));
            (0..places.len()).for_each(|at| self.shift(places, at, (at as Start + 1).wrapping_neg()));
            return;
        }
        let mut from = self.find(places[0], zone) + 1;
        for at in 0..places.len() {
            let to = places.get(at + 1).map_or(self.used, |&next| self.find(next, zone));
            self.lower(from, to, at + 1);
            self.shift(places, at, (at as Start + 1).wrapping_neg());
            from = to + 1;
        }
        self.used -= places.len();
    }

    /// Keeps, from one entry on, those of all other zones.
    fn sift(&mut self, zone: u32, from: usize) {
        let (entries, mut to) = (self.entries.as_mut_ptr(), from);
        for at in from..self.used {
            // SAFETY: both are below what is in use.
            unsafe {
                let other = *entries.add(at);
                *entries.add(to) = other;
                to += (other as u32 != zone) as usize;
            }
        }
        self.used = to;
    }

    pub fn clear(&mut self) {
        self.starts.fill(0);
        self.used = 0;
    }
}
