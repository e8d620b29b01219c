//! Lent memory: what is lent with guards around it, and what it should hold after the call.

use crate::calls::Call;
use crate::random::Random;
use std::ops::Range;
use std::ptr;
use unwadegiro::raw;

const GUARD: usize = 24;
/// How much longer than its length a slice can be lent.
pub const SLACK: usize = 8;
/// The tables, in the order in which they are lent.
pub const TABLES: [&str; 8] = ["head", "zones", "cars", "spots", "starts", "entries", "rosters", "tallies"];
pub const CARS: usize = 2;
pub const SPOTS: usize = 3;
pub const STARTS: usize = 4;
pub const ENTRIES: usize = 5;
pub const TALLIES: usize = 7;

pub trait Word: Copy + PartialEq {
    fn random(random: &mut Random) -> Self;
    /// The element with these low bits.
    fn from_bits(bits: u32) -> Self;
    fn to_bits(self) -> u32;
}

/// Says how a type of elements is made of bits.
macro_rules! word {
    ($type:ty) => {
        impl Word for $type {
            fn random(random: &mut Random) -> $type {
                random.word() as $type
            }

            fn from_bits(bits: u32) -> $type {
                bits as $type
            }

            fn to_bits(self) -> u32 {
                self as u32
            }
        }
    };
}

word!(u8);
word!(u32);
word!(usize);

pub struct Lent<T> {
    memory: Vec<T>,
    image: Vec<T>,
    own: usize,
    lent: usize,
    null: bool,
}

impl<T: Word> Lent<T> {
    /// Memory for `own` elements, with noise in it and around it.
    pub fn noise(own: usize, random: &mut Random) -> Lent<T> {
        let memory: Vec<T> = (0..GUARD + own + SLACK + GUARD).map(|_| T::random(random)).collect();
        Lent { image: memory.clone(), memory, own, lent: own, null: false }
    }

    pub fn mutable(&mut self) -> *mut T {
        if self.null {
            return ptr::null_mut();
        }
        self.memory[GUARD..].as_mut_ptr()
    }

    pub fn shared(&self) -> *const T {
        if self.null {
            return ptr::null();
        }
        self.memory[GUARD..].as_ptr()
    }

    /// What stands there now, as far as it is lent.
    pub fn now(&self) -> &[T] {
        &self.memory[GUARD..GUARD + self.lent]
    }

    /// What should stand there after the call.
    pub fn image(&mut self) -> &mut [T] {
        &mut self.image[GUARD..GUARD + self.own]
    }
}

/// What is lent, whatever its elements are.
pub trait Slice {
    /// The length for the next call.
    fn lend(&mut self, length: usize, null: bool);

    /// The length lent last is its own from now on.
    fn keep(&mut self);

    fn own(&self) -> usize;

    fn len(&self) -> usize;

    /// The bits of an element.
    fn get(&self, at: usize) -> u32;

    /// Writes both what stands there and what should.
    fn put(&mut self, at: usize, bits: u32);

    /// Whether every byte, with those around, is as it should be.
    fn right(&self) -> bool;

    /// Takes what stands in a part of it as right.
    fn accept_part(&mut self, part: Range<usize>);

    /// Takes what stands there as right. Answers whether the bytes around it are.
    fn accept(&mut self) -> bool {
        self.accept_part(0..self.own());
        self.right()
    }
}

impl<T: Word> Slice for Lent<T> {
    fn lend(&mut self, length: usize, null: bool) {
        self.lent = length.min(self.memory.len() - 2 * GUARD);
        self.null = null && length == 0;
    }

    fn keep(&mut self) {
        self.own = self.lent;
    }

    fn own(&self) -> usize {
        self.own
    }

    fn len(&self) -> usize {
        self.lent
    }

    fn get(&self, at: usize) -> u32 {
        self.memory[GUARD + at].to_bits()
    }

    fn put(&mut self, at: usize, bits: u32) {
        self.memory[GUARD + at] = T::from_bits(bits);
        self.image[GUARD + at] = T::from_bits(bits);
    }

    fn right(&self) -> bool {
        self.memory == self.image
    }

    fn accept_part(&mut self, part: Range<usize>) {
        let part = GUARD + part.start..GUARD + part.end;
        self.image[part.clone()].copy_from_slice(&self.memory[part]);
    }
}

/// The tables of a town, with the floats as their bits.
pub struct Tables {
    pub head: Lent<u32>,
    pub zones: Lent<u32>,
    pub cars: Lent<u32>,
    pub spots: Lent<u32>,
    pub starts: Lent<u32>,
    pub entries: Lent<u32>,
    pub rosters: Lent<u8>,
    pub tallies: Lent<u32>,
}

impl Tables {
    pub fn noise(lengths: [usize; 8], random: &mut Random) -> Tables {
        Tables {
            head: Lent::noise(lengths[0], random),
            zones: Lent::noise(lengths[1], random),
            cars: Lent::noise(lengths[2], random),
            spots: Lent::noise(lengths[3], random),
            starts: Lent::noise(lengths[4], random),
            entries: Lent::noise(lengths[5], random),
            rosters: Lent::noise(lengths[6], random),
            tallies: Lent::noise(lengths[7], random),
        }
    }

    pub fn all(&self) -> [&dyn Slice; 8] {
        let Tables { head, zones, cars, spots, starts, entries, rosters, tallies } = self;
        [head, zones, cars, spots, starts, entries, rosters, tallies]
    }

    pub fn each(&mut self) -> [&mut dyn Slice; 8] {
        let Tables { head, zones, cars, spots, starts, entries, rosters, tallies } = self;
        [head, zones, cars, spots, starts, entries, rosters, tallies]
    }

    pub fn own(&self) -> [usize; 8] {
        self.all().map(|table| table.own())
    }

    pub fn lent(&self) -> [usize; 8] {
        self.all().map(|table| table.len())
    }

    /// Sets one table's length for the next call, the others being their own.
    pub fn lend(&mut self, wrong: Option<(usize, usize, bool)>) {
        for table in self.each() {
            table.lend(table.own(), false);
        }
        if let Some((at, length, null)) = wrong {
            self.each()[at].lend(length, null);
        }
    }

    /// The lengths lent last are the tables' own from now on.
    pub fn keep(&mut self) {
        self.each().into_iter().for_each(|table| table.keep());
    }

    /// The names of the tables that are not as they should be.
    pub fn wrong(&self) -> Vec<&'static str> {
        let named = TABLES.into_iter().zip(self.all());
        named.filter(|(_, table)| !table.right()).map(|(name, _)| name).collect()
    }

    /// Takes as right what stands in the tables.
    pub fn accept_all(&mut self) {
        for table in self.each() {
            table.accept();
        }
    }

    /// Takes as right what stands in the tables that a call may change, but of the spots only its own car's.
    pub fn accept(&mut self, call: &Call) {
        let changed = call.changes();
        for (at, table) in self.each().into_iter().enumerate() {
            match *call {
                Call::Report { car, .. } if at == SPOTS => {
                    let first = 2 * car as usize;
                    table.accept_part(first..first + 2);
                }
                _ if changed[at] => {
                    table.accept();
                }
                _ => {}
            }
        }
    }
}

/// Calls a C function with the tables, each lent as said, and then the other arguments.
macro_rules! lend {
    (
        $call:ident, $t:ident, [$h:ident $z:ident $c:ident $p:ident $s:ident $e:ident $r:ident $n:ident] $(, $rest:expr)*
    ) => {
        raw::$call(
            $t.head.$h(), $t.head.lent, $t.zones.$z(), $t.zones.lent, $t.cars.$c(), $t.cars.lent,
            $t.spots.$p().cast(), $t.spots.lent, $t.starts.$s(), $t.starts.lent,
            $t.entries.$e(), $t.entries.lent, $t.rosters.$r(), $t.rosters.lent,
            $t.tallies.$n(), $t.tallies.lent $(, $rest)*
        )
    };
}

/// The same for a call that changes no table.
macro_rules! read {
    ($call:ident, $t:ident $(, $rest:expr)*) => {
        lend!($call, $t, [shared shared shared shared shared shared shared shared] $(, $rest)*)
    };
}

impl Tables {
    /// Answers a piece of a log, or without one its end.
    pub fn log(
        &mut self,
        piece: Option<&[u8]>,
        held: &mut Lent<u8>,
        out: &mut Lent<u8>,
        values: &mut Lent<usize>,
    ) -> u32 {
        let (bytes, bytes_len) = (held.mutable(), held.lent);
        let (text, text_len) = (out.mutable(), out.lent);
        let (told, told_len) = (values.mutable(), values.lent);
        // SAFETY: each pointer is of memory of its own and valid for the length lent.
        unsafe {
            match piece {
                Some(piece) => lend!(
                    unwadegiro_log, self, [mutable mutable mutable mutable mutable mutable mutable mutable],
                    piece.as_ptr(), piece.len(), bytes, bytes_len, text, text_len, told, told_len
                ),
                None => lend!(
                    unwadegiro_log_end, self, [mutable mutable mutable mutable mutable mutable mutable mutable],
                    bytes, bytes_len, text, text_len, told, told_len
                ),
            }
        }
    }
}

/// Makes a call with what is lent, and answers what it returned.
pub fn drive(call: &Call, t: &mut Tables, buffers: &mut [Lent<u32>], values: &mut Lent<u32>) -> u32 {
    let (told, told_len) = (values.mutable(), values.lent);
    let float = f32::from_bits;
    let mut buffer = |at: usize| match buffers.get_mut(at) {
        Some(buffer) => (buffer.mutable(), buffer.lent),
        None => (ptr::null_mut(), 0),
    };
    let ((out, out_len), (left, left_len)) = (buffer(0), buffer(1));
    // SAFETY: each pointer is of memory of its own and valid for the length lent, or is null with length 0.
    unsafe {
        match *call {
            Call::Open { shape: s, room } => lend!(
                unwadegiro_open, t, [mutable mutable mutable mutable mutable mutable mutable mutable],
                s.k, s.p, s.q, room.zones, room.cars, room.entries
            ),
            Call::Add { zone, r } => lend!(
                unwadegiro_add, t, [shared mutable shared shared mutable mutable mutable mutable],
                zone, r.a, r.b, r.w, r.h, told, told_len
            ),
            Call::Remove { zone } => {
                lend!(unwadegiro_remove, t, [shared mutable shared shared mutable mutable mutable mutable], zone)
            }
            Call::Ride { zone, by } => lend!(
                unwadegiro_ride, t, [shared mutable shared shared mutable mutable mutable mutable],
                zone, by[0], by[1], out, out_len, left, left_len, told, told_len
            ),
            Call::Report { car, team, at } => lend!(
                unwadegiro_report, t, [shared shared mutable mutable shared shared mutable mutable],
                car, team, float(at[0]), float(at[1]), out, out_len, left, left_len, told, told_len
            ),
            Call::Leave { car } => lend!(
                unwadegiro_leave, t, [shared shared mutable shared shared shared mutable mutable],
                car, out, out_len, told, told_len
            ),
            Call::Search { at } => {
                read!(unwadegiro_search, t, float(at[0]), float(at[1]), out, out_len, told, told_len)
            }
            Call::Scoring { at } => read!(unwadegiro_scoring, t, float(at[0]), float(at[1]), told, told_len),
            Call::Roster { zone } => read!(unwadegiro_roster, t, zone, out, out_len, told, told_len),
            Call::Count { zone } => read!(unwadegiro_count, t, zone, told, told_len),
            Call::Holder { zone } => read!(unwadegiro_holder, t, zone, told, told_len),
            Call::Where { car } => read!(unwadegiro_where, t, car, told.cast(), told_len),
            Call::Sound => read!(unwadegiro_sound, t, told, told_len),
            _ => drive_shape(call, (out, out_len), (told, told_len)),
        }
    }
}

/// A call that is lent no tables.
///
/// # Safety
///
/// The two slices are valid and do not overlap.
unsafe fn drive_shape(call: &Call, (out, out_len): (*mut u32, usize), (told, told_len): (*mut u32, usize)) -> u32 {
    match *call {
        Call::Lengths { shape: s, room } => {
            raw::unwadegiro_lengths(s.k, s.p, s.q, room.zones, room.cars, room.entries, told, told_len)
        }
        Call::Number { shape: s, level, x, y } => raw::unwadegiro_number(s.k, s.p, s.q, level, x, y, told, told_len),
        Call::Square { shape: s, level, number } => {
            raw::unwadegiro_square(s.k, s.p, s.q, level, number, told, told_len)
        }
        Call::Cut { shape: s, r } => {
            raw::unwadegiro_cut(s.k, s.p, s.q, r.a, r.b, r.w, r.h, out, out_len, told, told_len)
        }
        _ => unreachable!("a call that is lent tables"),
    }
}
