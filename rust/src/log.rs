//! A log, answered piece by piece.

use crate::raw;

/// How many answers' bytes a call has room for: 768 are the least that the library takes.
const ROOM: usize = 4096;

/// A log of records: the town that it opened, and the bytes of a line that has not ended. `docs/LOG.md` has the format.
///
/// However the log is cut into pieces, the answers, one after another, are those of the whole.
///
/// ```
/// use unwadegiro::Log;
///
/// let (mut log, mut answers) = (Log::new(), Vec::new());
/// log.answer(b"M\t2\t4\t4\nA\t1\t5\t2", &mut answers);
/// assert_eq!(answers, b"M\t0\n");
/// log.answer(b"\t8\t12\nR\t1", &mut answers);
/// log.end(&mut answers);
/// assert_eq!(answers, b"M\t0\nA\t0\t36\t0\nR\t0\t0\t-\n");
/// ```
#[derive(Clone, Debug)]
pub struct Log {
    head: Vec<u32>,
    zones: Vec<u32>,
    cars: Vec<u32>,
    spots: Vec<f32>,
    starts: Vec<u32>,
    entries: Vec<u32>,
    rosters: Vec<u8>,
    tallies: Vec<u32>,
    held: Vec<u8>,
    out: Vec<u8>,
}

/// Calls a C function with a log's tables, then the other arguments, then what is held, the buffer and two values, which it
/// gives back.
///
/// SAFETY of every use: each table, `held` and `out` is a whole vector of its own, `values` a local array, and a piece is
/// borrowed from outside; so each pointer is valid for its length and no two overlap.
macro_rules! call {
    ($call:ident, $log:ident $(, $rest:expr)*) => {{
        let mut values = [0usize; 2];
        let returned = unsafe {
            raw::$call(
                $log.head.as_mut_ptr(), $log.head.len(),
                $log.zones.as_mut_ptr(), $log.zones.len(),
                $log.cars.as_mut_ptr(), $log.cars.len(),
                $log.spots.as_mut_ptr(), $log.spots.len(),
                $log.starts.as_mut_ptr(), $log.starts.len(),
                $log.entries.as_mut_ptr(), $log.entries.len(),
                $log.rosters.as_mut_ptr(), $log.rosters.len(),
                $log.tallies.as_mut_ptr(), $log.tallies.len(),
                $($rest,)*
                $log.held.as_mut_ptr(), $log.held.len(),
                $log.out.as_mut_ptr(), $log.out.len(),
                values.as_mut_ptr(), values.len(),
            )
        };
        assert_eq!(returned, 0, "a log's own tables have their lengths");
        values
    }};
}

impl Default for Log {
    fn default() -> Log {
        Log::new()
    }
}

impl Log {
    /// A log of which nothing was read. No town is open.
    pub fn new() -> Log {
        Log {
            head: vec![0; 6],
            zones: vec![0; 64],
            cars: vec![0; 64],
            spots: vec![0.0; 128],
            starts: vec![0; 5462],
            entries: vec![0; 2048],
            rosters: vec![0; 1024],
            tallies: vec![0; 160],
            held: vec![0; 82],
            out: vec![0; ROOM],
        }
    }

    /// Answers the lines that end in a piece, and holds the rest of it. The answers go to the end of `answers`.
    pub fn answer(&mut self, piece: &[u8], answers: &mut Vec<u8>) {
        let mut rest = piece;
        while !rest.is_empty() {
            let [read, wrote] = call!(unwadegiro_log, self, rest.as_ptr(), rest.len());
            answers.extend_from_slice(&self.out[..wrote]);
            rest = &rest[read..];
        }
    }

    /// Answers the last line, where it lacks its feed.
    ///
    /// Call it only where the log was read to its end: half of a line may be another line.
    pub fn end(&mut self, answers: &mut Vec<u8>) {
        let [_, wrote] = call!(unwadegiro_log_end, self);
        answers.extend_from_slice(&self.out[..wrote]);
    }
}
