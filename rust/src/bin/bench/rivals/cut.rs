//! A town's squares, and the cut of a rectangle into them.

use unwadegiro::{Rectangle, Shape};

/// A town's squares: how many lie on lower levels, and what a column and a row add to a cell's number.
pub struct Grid {
    pub shape: Shape,
    pub below: [u32; 7],
    east: [u32; 256],
    north: [u32; 256],
}

/// The bits of a number below 256, each followed by a 0.
fn spread(v: u32) -> u32 {
    let v = (v | v << 4) & 0x0F0F;
    let v = (v | v << 2) & 0x3333;
    (v | v << 1) & 0x5555
}

impl Grid {
    pub fn new(shape: Shape) -> Grid {
        let Shape { k, p, q } = shape;
        let (mut below, mut east, mut north) = ([0; 7], [0; 256], [0; 256]);
        for level in 0..6 {
            below[level + 1] = below[level] + ((p * q) << (2 * level));
        }
        for v in 0..256 {
            let low = spread(v & ((1 << k) - 1));
            east[v as usize] = ((v >> k) << (2 * k)) + low;
            north[v as usize] = (((v >> k) * p) << (2 * k)) + 2 * low;
        }
        Grid { shape, below, east, north }
    }

    #[inline(always)]
    pub fn number(&self, cell: u32) -> u32 {
        // SAFETY: columns and rows are below 256.
        unsafe { self.east.get_unchecked(cell as usize & 0xFFFF) + self.north.get_unchecked(cell as usize >> 16) }
    }
}

/// The places of a rectangle's cut, rising, and where the next one of each level goes.
pub struct Cut {
    places: Vec<u32>,
    many: usize,
    next: [usize; 6],
}

/// The columns or rows of a square that a rectangle has.
type Span = (u32, u32);

/// The spans of the two halves.
#[inline(always)]
fn halves((from, to): Span, half: u32) -> [Span; 2] {
    [(from, to.min(half)), (from.saturating_sub(half), to.saturating_sub(half))]
}

/// How many squares of a side lie in the cells from one to before another.
fn fit(from: u32, to: u32, k: u32) -> u32 {
    (to >> k).saturating_sub((from + (1 << k) - 1) >> k)
}

impl Cut {
    pub fn new(room: u32) -> Cut {
        Cut { places: vec![0; room as usize], many: 0, next: [0; 6] }
    }

    /// Counts the squares of each level, and so finds where its places go.
    fn count(&mut self, grid: &Grid, r: Rectangle) {
        let (mut many, mut above) = (0, 0);
        for level in 0..=grid.shape.k {
            let k = grid.shape.k - level;
            let all = fit(r.a, r.a + r.w, k) * fit(r.b, r.b + r.h, k);
            self.next[level as usize] = many as usize;
            many += all - 4 * above;
            above = all;
        }
        self.many = many as usize;
    }

    /// Writes the cut of a rectangle by one descent from each block.
    pub fn write(&mut self, grid: &Grid, r: Rectangle) -> &[u32] {
        self.count(grid, r);
        let Shape { k, p, .. } = grid.shape;
        let side = 1 << k;
        for y in r.b >> k..=(r.b + r.h - 1) >> k {
            let rows = (r.b.saturating_sub(y << k), (r.b + r.h - (y << k)).min(side));
            let mut x = r.a >> k;
            while x << k < r.a + r.w {
                let columns = (r.a.saturating_sub(x << k), (r.a + r.w - (x << k)).min(side));
                if rows == (0, side) && columns == (0, side) {
                    x = self.blocks(x + y * p, ((r.a + r.w) >> k) - x) - y * p;
                } else {
                    self.square(grid, 0, x + y * p, side, columns, rows);
                    x += 1;
                }
            }
        }
        &self.places[..self.many]
    }

    /// Writes whole blocks one after another. Answers the number behind the last.
    fn blocks(&mut self, number: u32, many: u32) -> u32 {
        let next = self.next[0];
        self.next[0] += many as usize;
        for (place, number) in self.places[next..self.next[0]].iter_mut().zip(number..) {
            *place = number;
        }
        number + many
    }

    #[inline(always)]
    fn square(&mut self, grid: &Grid, level: usize, number: u32, side: u32, columns: Span, rows: Span) {
        if columns == (0, side) && rows == (0, side) {
            // SAFETY: there is room for as many places as entries.
            unsafe {
                let next = self.next.get_unchecked_mut(level);
                *self.places.get_unchecked_mut(*next) = grid.below.get_unchecked(level) + number;
                *next += 1;
            }
        } else {
            self.split(grid, level + 1, 4 * number, side / 2, columns, rows);
        }
    }

    /// The four squares of one that the rectangle has a part of.
    fn split(&mut self, grid: &Grid, level: usize, number: u32, half: u32, columns: Span, rows: Span) {
        let (columns, rows) = (halves(columns, half), halves(rows, half));
        for (up, rows) in (0..).zip(rows) {
            for (right, columns) in (0..).zip(columns) {
                if columns.0 < columns.1 && rows.0 < rows.1 {
                    self.square(grid, level, number + right + 2 * up, half, columns, rows);
                }
            }
        }
    }
}
