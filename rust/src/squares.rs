//! What follows from a shape alone: numbers of squares, and cuts of rectangles.

use crate::raw;
use crate::Refusal;

/// A town's shape: blocks of side 2^k, `p` of them west to east and `q` south to north.
///
/// `k` is at most 5, `p` and `q` at least 1, and no side has more than 256 cells.
#[derive(Clone, Copy, Debug, PartialEq, Eq, Hash)]
pub struct Shape {
    pub k: u32,
    pub p: u32,
    pub q: u32,
}

/// The cells with a ≤ x < a + w and b ≤ y < b + h.
#[derive(Clone, Copy, Debug, PartialEq, Eq, Hash)]
pub struct Rectangle {
    pub a: u32,
    pub b: u32,
    pub w: u32,
    pub h: u32,
}

/// A square: its southwest corner and its side.
#[derive(Clone, Copy, Debug, PartialEq, Eq, Hash)]
pub struct Square {
    pub x: u32,
    pub y: u32,
    pub side: u32,
}

/// In a cut a square is `level * LEVEL + number`.
pub const LEVEL: u32 = 1_048_576;

/// The number of the square of a level with its southwest corner at (x, y).
///
/// ```
/// use unwadegiro::{number, Refusal, Shape};
/// let shape = Shape { k: 2, p: 4, q: 4 };
/// assert_eq!(number(shape, 2, 10, 11), Ok(174));
/// assert_eq!(number(shape, 1, 10, 10), Ok(43));
/// assert_eq!(number(shape, 1, 9, 10), Err(Refusal::NoSuchSquare));
/// ```
pub fn number(shape: Shape, level: u32, x: u32, y: u32) -> Result<u32, Refusal> {
    let mut values = [0; 1];
    // SAFETY: `values` is valid for its length.
    Refusal::check(unsafe {
        raw::unwadegiro_number(shape.k, shape.p, shape.q, level, x, y, values.as_mut_ptr(), values.len())
    })?;
    Ok(values[0])
}

/// The square of a level with a number.
///
/// ```
/// use unwadegiro::{square, Shape, Square};
/// let shape = Shape { k: 2, p: 4, q: 4 };
/// assert_eq!(square(shape, 1, 43), Ok(Square { x: 10, y: 10, side: 2 }));
/// ```
pub fn square(shape: Shape, level: u32, number: u32) -> Result<Square, Refusal> {
    let mut values = [0; 3];
    // SAFETY: `values` is valid for its length.
    Refusal::check(unsafe {
        raw::unwadegiro_square(shape.k, shape.p, shape.q, level, number, values.as_mut_ptr(), values.len())
    })?;
    let [x, y, side] = values;
    Ok(Square { x, y, side })
}

/// The cut of a rectangle, written into the front of `squares`: every square wholly inside whose parent is not, level 0
/// first and by rising number within a level, each as `level * LEVEL + number`. 65,536 is always room enough.
///
/// ```
/// use unwadegiro::{cut, Rectangle, Shape, LEVEL};
/// let shape = Shape { k: 2, p: 4, q: 4 };
/// let mut room = [0; 64];
/// let squares = cut(shape, Rectangle { a: 5, b: 2, w: 8, h: 12 }, &mut room)?;
/// assert_eq!(squares.len(), 36);
/// assert_eq!(squares.iter().filter(|&&code| code / LEVEL == 0).count(), 2);
/// # Ok::<(), unwadegiro::Refusal>(())
/// ```
pub fn cut(shape: Shape, r: Rectangle, squares: &mut [u32]) -> Result<&[u32], Refusal> {
    let mut values = [0; 1];
    // SAFETY: `squares` and `values` are valid for their lengths and do not overlap.
    Refusal::check(unsafe {
        raw::unwadegiro_cut(
            shape.k,
            shape.p,
            shape.q,
            r.a,
            r.b,
            r.w,
            r.h,
            squares.as_mut_ptr(),
            squares.len(),
            values.as_mut_ptr(),
            values.len(),
        )
    })?;
    Ok(&squares[..values[0] as usize])
}
