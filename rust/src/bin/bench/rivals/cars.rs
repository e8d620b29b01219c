//! Cells and rectangles as single numbers, and where the cars are.

use unwadegiro::{Position, Rectangle};

/// The cell of a position: the column in the low half, the row in the high half.
pub fn cell(at: Position) -> u32 {
    // SAFETY: the work's positions are from 0 to below 256. None is at a wall, so that a cell is the floor alone.
    let (x, y): (u32, u32) = unsafe { (at.x.to_int_unchecked(), at.y.to_int_unchecked()) };
    x | y << 16
}

/// The cell of a car that is off the map: no rectangle holds it.
pub const ABSENT: u32 = 0x7FFF_7FFF;

/// The top bit of each half. A difference of halves leaves it set where it is not negative.
const TOPS: u32 = 0x8000_8000;
const ALL_TOPS: u64 = 0x8000_8000_8000_8000;
const LAST: u32 = 0x00FF_00FF;

/// A rectangle's first cell and its last.
fn ends(r: Rectangle) -> (u32, u32) {
    (r.a | r.b << 16, (r.a + r.w - 1) | (r.b + r.h - 1) << 16)
}

/// A rectangle: its first cell, and how far its last one lies from cell (255, 255).
#[derive(Clone, Copy)]
pub struct Bounds(u64);

impl Bounds {
    pub const NONE: Bounds = Bounds(0);

    pub fn new(r: Rectangle) -> Bounds {
        let (first, last) = ends(r);
        Bounds(first as u64 | ((LAST - last) as u64) << 32)
    }

    /// Whether it holds a cell, given as `mirrored` makes it: four differences at once.
    #[inline(always)]
    pub fn holds(self, mirrored: u64) -> bool {
        mirrored.wrapping_sub(self.0) & ALL_TOPS == ALL_TOPS
    }
}

/// A cell that is not `ABSENT`, and how far it lies from cell (255, 255), with the top bits set.
#[inline(always)]
pub fn mirrored(cell: u32) -> u64 {
    (cell | TOPS) as u64 | ((LAST.wrapping_sub(cell) | TOPS) as u64) << 32
}

/// Which of 64 cells lie in a rectangle, a bit for each.
pub fn inside(r: Rectangle, cells: &[u32]) -> u64 {
    let (first, last) = ends(r);
    let last = last | TOPS;
    let mut has = [0u8; 64];
    for (has, &cell) in has.iter_mut().zip(cells) {
        let apart = (cell | TOPS).wrapping_sub(first) & last.wrapping_sub(cell);
        *has = (apart & TOPS == TOPS) as u8;
    }
    let mut bits = 0;
    for (at, eight) in has.chunks_exact(8).enumerate() {
        let eight = u64::from_le_bytes(eight.try_into().expect("eight bytes"));
        // puts bit 0 of byte i at bit 56 + i
        bits |= (eight.wrapping_mul(0x0102_0408_1020_4080) >> 56) << (8 * at);
    }
    bits
}

/// Where the cars are.
pub struct Cars {
    spots: Vec<Position>,
    /// Their cells, in whole rows of 64.
    pub cells: Vec<u32>,
}

impl Cars {
    pub fn new(many: u32) -> Cars {
        let many = many as usize;
        Cars { spots: vec![Position { x: 0.0, y: 0.0 }; many], cells: vec![ABSENT; (many + 63) / 64 * 64] }
    }

    /// Stores where a car is. Answers its old cell and its new.
    #[inline(always)]
    pub fn move_to(&mut self, car: u32, at: Position) -> (u32, u32) {
        let new = cell(at);
        // SAFETY: cars are below the capacity.
        unsafe {
            *self.spots.get_unchecked_mut(car as usize) = at;
            let kept = self.cells.get_unchecked_mut(car as usize);
            (std::mem::replace(kept, new), new)
        }
    }

    pub fn where_is(&self, car: u32) -> Position {
        self.spots[car as usize]
    }

    pub fn clear(&mut self) {
        self.cells.fill(ABSENT);
    }
}

/// A list in an answer: room for every zone, and how many are in it.
pub struct Zones {
    list: [u32; 256],
    many: usize,
}

impl Zones {
    pub const fn new() -> Zones {
        Zones { list: [0; 256], many: 0 }
    }

    #[inline(always)]
    pub fn clear(&mut self) {
        self.many = 0;
    }

    /// Puts a zone behind all others.
    #[inline(always)]
    pub fn push(&mut self, zone: u32) {
        // SAFETY: a zone is in an answer once, and there are at most 256.
        unsafe { *self.list.get_unchecked_mut(self.many) = zone };
        self.many += 1;
    }

    /// Puts a zone in its place.
    #[inline(always)]
    pub fn insert(&mut self, zone: u32) {
        let mut at = self.many;
        self.many += 1;
        // SAFETY: as above.
        unsafe {
            while at > 0 && *self.list.get_unchecked(at - 1) > zone {
                *self.list.get_unchecked_mut(at) = *self.list.get_unchecked(at - 1);
                at -= 1;
            }
            *self.list.get_unchecked_mut(at) = zone;
        }
    }

    #[inline(always)]
    pub fn all(&self) -> &[u32] {
        // SAFETY: as above.
        unsafe { self.list.get_unchecked(..self.many) }
    }
}
