//! The C functions as they are, documented in `include/unwadegiro.h`.
//!
//! A slice is a pointer and a length. Each pointer must be valid for its length, and no two slices of one call may
//! overlap.

/// Declares the functions that take the tables: `const` or `mut` says how each table is lent.
macro_rules! table_calls {
    ($($(#[$doc:meta])* $name:ident(
        $h:tt, $z:tt, $c:tt, $p:tt, $s:tt, $e:tt, $r:tt, $n:tt; $($arg:ident: $type:ty),*
    );)*) => {
        extern "C" {
            $($(#[$doc])* pub fn $name(
                head: *$h u32, head_len: usize,
                zones: *$z u32, zones_len: usize,
                cars: *$c u32, cars_len: usize,
                spots: *$p f32, spots_len: usize,
                starts: *$s u32, starts_len: usize,
                entries: *$e u32, entries_len: usize,
                rosters: *$r u8, rosters_len: usize,
                tallies: *$n u32, tallies_len: usize,
                $($arg: $type),*
            ) -> u32;)*
        }
    };
}

table_calls! {
    /// Writes an empty town.
    unwadegiro_open(mut, mut, mut, mut, mut, mut, mut, mut;
        k: u32, p: u32, q: u32, zone_capacity: u32, car_capacity: u32, entry_capacity: u32);
    /// Adds a zone. Two values: squares, cars.
    unwadegiro_add(const, mut, const, const, mut, mut, mut, mut;
        zone: u32, a: u32, b: u32, w: u32, h: u32, values: *mut u32, values_len: usize);
    /// Removes a zone.
    unwadegiro_remove(const, mut, const, const, mut, mut, mut, mut; zone: u32);
    /// Moves a zone. Four values: squares dropped, squares taken up, cars entered, cars left.
    unwadegiro_ride(const, mut, const, const, mut, mut, mut, mut;
        zone: u32, columns: i32, rows: i32, entered: *mut u32, entered_len: usize, left: *mut u32, left_len: usize,
        values: *mut u32, values_len: usize);
    /// Places or moves a car. Three values: squares, entered, left.
    unwadegiro_report(const, const, mut, mut, const, const, mut, mut;
        car: u32, team: u32, x: f32, y: f32, entered: *mut u32, entered_len: usize, left: *mut u32, left_len: usize,
        values: *mut u32, values_len: usize);
    /// Takes a car off the map. Two values: squares, left.
    unwadegiro_leave(const, const, mut, const, const, const, mut, mut;
        car: u32, left: *mut u32, left_len: usize, values: *mut u32, values_len: usize);
    /// The zones that hold a position. Two values: squares, zones.
    unwadegiro_search(const, const, const, const, const, const, const, const;
        x: f32, y: f32, found: *mut u32, found_len: usize, values: *mut u32, values_len: usize);
    /// Whether any zone holds a position. Two values: 1 or 0, levels looked at.
    unwadegiro_scoring(const, const, const, const, const, const, const, const;
        x: f32, y: f32, values: *mut u32, values_len: usize);
    /// The cars in a zone. One value: how many.
    unwadegiro_roster(const, const, const, const, const, const, const, const;
        zone: u32, inside: *mut u32, inside_len: usize, values: *mut u32, values_len: usize);
    /// How many cars are in a zone. One value.
    unwadegiro_count(const, const, const, const, const, const, const, const;
        zone: u32, values: *mut u32, values_len: usize);
    /// How many cars of each team are in a zone, and who holds it. Nine values: teams 0 to 7, holder.
    unwadegiro_holder(const, const, const, const, const, const, const, const;
        zone: u32, values: *mut u32, values_len: usize);
    /// Where a car is: x and y.
    unwadegiro_where(const, const, const, const, const, const, const, const;
        car: u32, position: *mut f32, position_len: usize);
    /// Whether the tables are sound. One value: 1 or 0.
    unwadegiro_sound(const, const, const, const, const, const, const, const; values: *mut u32, values_len: usize);
    /// Answers a piece of a log. Two values: bytes read, bytes written.
    unwadegiro_log(mut, mut, mut, mut, mut, mut, mut, mut;
        piece: *const u8, piece_len: usize, held: *mut u8, held_len: usize, out: *mut u8, out_len: usize,
        values: *mut usize, values_len: usize);
    /// Answers what is held where a log ends. Two values: 0, bytes written.
    unwadegiro_log_end(mut, mut, mut, mut, mut, mut, mut, mut;
        held: *mut u8, held_len: usize, out: *mut u8, out_len: usize, values: *mut usize, values_len: usize);
}

extern "C" {
    /// The lengths of the eight tables.
    pub fn unwadegiro_lengths(
        k: u32,
        p: u32,
        q: u32,
        zones: u32,
        cars: u32,
        entries: u32,
        values: *mut u32,
        values_len: usize,
    ) -> u32;
    /// The number of a square.
    pub fn unwadegiro_number(
        k: u32,
        p: u32,
        q: u32,
        level: u32,
        x: u32,
        y: u32,
        values: *mut u32,
        values_len: usize,
    ) -> u32;
    /// The square of a number. Three values: x, y, side.
    pub fn unwadegiro_square(
        k: u32,
        p: u32,
        q: u32,
        level: u32,
        number: u32,
        values: *mut u32,
        values_len: usize,
    ) -> u32;
    /// The cut of a rectangle. One value: how many squares.
    pub fn unwadegiro_cut(
        k: u32,
        p: u32,
        q: u32,
        a: u32,
        b: u32,
        w: u32,
        h: u32,
        squares: *mut u32,
        squares_len: usize,
        values: *mut u32,
        values_len: usize,
    ) -> u32;
}
