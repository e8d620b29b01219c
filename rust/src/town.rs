//! A town that owns its tables.

use crate::raw;
use crate::{Rectangle, Refusal, Shape};

/// A car's position: two 32-bit floats, kept as they came. On a town of W columns and H rows it is on the map where
/// `0 <= x <= W` and `0 <= y <= H`, minus zero too. Its cell is column floor(x) and row floor(y), and at the outer walls, where
/// x is W or y is H, the last one.
#[derive(Clone, Copy, Debug, PartialEq)]
pub struct Position {
    pub x: f32,
    pub y: f32,
}

/// A car's team: 1 to 7, or 0 for a spectator. Spectators are on rosters and counted, and hold no zone.
///
/// ```
/// use unwadegiro::Team;
/// assert_eq!(Team::new(3).map(Team::number), Some(3));
/// assert_eq!(Team::new(0), Some(Team::SPECTATOR));
/// assert_eq!(Team::new(8), None);
/// ```
#[derive(Clone, Copy, Debug, PartialEq, Eq, PartialOrd, Ord, Hash)]
pub struct Team(u8);

impl Team {
    /// Team 0.
    pub const SPECTATOR: Team = Team(0);

    /// The team with a number; none above 7.
    pub const fn new(number: u32) -> Option<Team> {
        if number <= 7 {
            Some(Team(number as u8))
        } else {
            None
        }
    }

    /// Its number, 0 to 7.
    pub const fn number(self) -> u32 {
        self.0 as u32
    }
}

/// How much a town has room for: 1 to 256 zones, 1 to 1,024 cars, 1 to 16,384 entries. An entry is one zone on one
/// square's list.
#[derive(Clone, Copy, Debug, PartialEq, Eq, Hash)]
pub struct Capacities {
    pub zones: u32,
    pub cars: u32,
    pub entries: u32,
}

/// A zone was added.
#[derive(Clone, Copy, Debug, PartialEq, Eq)]
pub struct Added {
    /// How many squares its cut has.
    pub squares: u32,
    /// How many cars are inside.
    pub cars: u32,
}

/// A zone was moved. The cars stand lowest first.
#[derive(Clone, Copy, Debug, PartialEq, Eq)]
pub struct Ridden<'a> {
    /// Squares of the old cut that are not in the new.
    pub dropped: u32,
    /// Squares of the new cut that are not in the old.
    pub taken: u32,
    /// Cars inside after the ride and not before.
    pub entered: &'a [u32],
    /// Cars inside before the ride and not after.
    pub left: &'a [u32],
}

/// A car was placed or moved. The zones stand lowest first.
#[derive(Clone, Copy, Debug, PartialEq, Eq)]
pub struct Reported<'a> {
    /// Squares looked into.
    pub squares: u32,
    /// Zones that hold the new cell and not the old.
    pub entered: &'a [u32],
    /// Zones that hold the old cell and not the new.
    pub left: &'a [u32],
}

/// A car left the map. The zones stand lowest first.
#[derive(Clone, Copy, Debug, PartialEq, Eq)]
pub struct Left<'a> {
    /// Squares looked into.
    pub squares: u32,
    /// Zones that it was in.
    pub left: &'a [u32],
}

/// What a search found. The zones stand lowest first.
#[derive(Clone, Copy, Debug, PartialEq, Eq)]
pub struct Found<'a> {
    /// Squares looked into.
    pub squares: u32,
    /// Zones that hold the position.
    pub zones: &'a [u32],
}

/// Whether a position scores.
#[derive(Clone, Copy, Debug, PartialEq, Eq)]
pub struct Scoring {
    /// Whether any zone holds it.
    pub scores: bool,
    /// How many levels were looked at, from the unit cell up: to the first whose square is in a zone's cut, or all k + 1.
    pub levels: u32,
}

/// How the teams stand in a zone.
#[derive(Clone, Copy, Debug, PartialEq, Eq)]
pub struct Standing {
    /// How many cars of each team are inside, by the team's number: the spectators first.
    pub cars: [u32; 8],
    /// The team from 1 to 7 that has strictly more cars inside than each other of them; none where there is a tie, or no
    /// car of theirs inside.
    pub holder: Option<Team>,
}

/// A town: its zones, its cars, and which car is in which zone.
///
/// It owns its tables and the buffers that lists are written into, all made by [`Town::open`]; no other call allocates.
/// A list that a call gives lies in such a buffer until the next call.
///
/// ```
/// use unwadegiro::{Capacities, Position, Rectangle, Shape, Team, Town};
///
/// let shape = Shape { k: 2, p: 4, q: 4 };
/// let mut town = Town::open(shape, Capacities { zones: 16, cars: 64, entries: 2048 })?;
/// assert_eq!(town.add(1, Rectangle { a: 5, b: 2, w: 8, h: 12 })?.squares, 36);
///
/// let red = Team::new(3).unwrap();
/// let came = town.report(7, red, Position { x: 5.5, y: 3.0 })?;
/// assert_eq!((came.squares, came.entered, came.left), (3, &[1][..], &[][..]));
/// assert_eq!(town.roster(1)?, [7]);
/// assert_eq!(town.count(1)?, 1);
/// assert_eq!(town.holder(1)?.holder, Some(red));
///
/// let gone = town.leave(7)?;
/// assert_eq!(gone.left, [1]);
/// assert!(town.is_sound());
/// # Ok::<(), unwadegiro::Refusal>(())
/// ```
#[derive(Clone, Debug)]
pub struct Town {
    head: Vec<u32>,
    zones: Vec<u32>,
    cars: Vec<u32>,
    spots: Vec<f32>,
    starts: Vec<u32>,
    entries: Vec<u32>,
    rosters: Vec<u8>,
    tallies: Vec<u32>,
    // room for the lists that a call answers
    came: Vec<u32>,
    went: Vec<u32>,
    inside: Vec<u32>,
    outside: Vec<u32>,
}

/// Calls a C function with a town's tables, each lent by the method named with it, and then the other arguments.
///
/// SAFETY of every use: each table and each buffer is a whole vector of its own or a local array, so each pointer is
/// valid for its length and no two overlap; the C functions stay within what they are lent and keep nothing.
macro_rules! call {
    ($call:ident, $town:ident, [$($table:ident.$lend:ident),*] $(, $rest:expr)*) => {
        Refusal::check(unsafe { raw::$call($($town.$table.$lend(), $town.$table.len(),)* $($rest),*) })
    };
}

/// The same for a call that changes no table.
macro_rules! read {
    ($call:ident, $town:ident $(, $rest:expr)*) => {
        call!(
            $call,
            $town,
            [
                head.as_ptr,
                zones.as_ptr,
                cars.as_ptr,
                spots.as_ptr,
                starts.as_ptr,
                entries.as_ptr,
                rosters.as_ptr,
                tallies.as_ptr
            ]
            $(, $rest)*
        )
    };
}

impl Town {
    /// A town with no zone and no car. Refusals: [`Refusal::Shape`], [`Refusal::Capacity`].
    ///
    /// ```
    /// use unwadegiro::{Capacities, Refusal, Shape, Town};
    /// let room = Capacities { zones: 1, cars: 1, entries: 1 };
    /// assert_eq!(Town::open(Shape { k: 5, p: 9, q: 1 }, room).err(), Some(Refusal::Shape));
    /// ```
    pub fn open(shape: Shape, capacities: Capacities) -> Result<Town, Refusal> {
        let Shape { k, p, q } = shape;
        let Capacities { zones, cars, entries } = capacities;
        let mut lengths = [0; 8];
        // SAFETY: `lengths` is valid for its length.
        Refusal::check(unsafe {
            raw::unwadegiro_lengths(k, p, q, zones, cars, entries, lengths.as_mut_ptr(), lengths.len())
        })?;
        let long = lengths.map(|length| length as usize);
        let mut town = Town {
            head: vec![0; long[0]],
            zones: vec![0; long[1]],
            cars: vec![0; long[2]],
            spots: vec![0.0; long[3]],
            starts: vec![0; long[4]],
            entries: vec![0; long[5]],
            rosters: vec![0; long[6]],
            tallies: vec![0; long[7]],
            came: vec![0; zones as usize],
            went: vec![0; zones as usize],
            inside: vec![0; cars as usize],
            outside: vec![0; cars as usize],
        };
        town.reopen(shape, capacities)?;
        Ok(town)
    }

    /// Writes an empty town into the tables that stand. [`Refusal::Tables`] where they have other lengths.
    fn reopen(&mut self, shape: Shape, capacities: Capacities) -> Result<(), Refusal> {
        call!(
            unwadegiro_open,
            self,
            [
                head.as_mut_ptr,
                zones.as_mut_ptr,
                cars.as_mut_ptr,
                spots.as_mut_ptr,
                starts.as_mut_ptr,
                entries.as_mut_ptr,
                rosters.as_mut_ptr,
                tallies.as_mut_ptr
            ],
            shape.k,
            shape.p,
            shape.q,
            capacities.zones,
            capacities.cars,
            capacities.entries
        )
    }

    /// Takes every zone and every car away.
    pub fn clear(&mut self) {
        let (shape, capacities) = (self.shape(), self.capacities());
        self.reopen(shape, capacities).expect("a town's own shape and capacities open it again");
    }

    /// The town's shape.
    pub fn shape(&self) -> Shape {
        Shape { k: self.head[0], p: self.head[1], q: self.head[2] }
    }

    /// The town's capacities.
    pub fn capacities(&self) -> Capacities {
        Capacities { zones: self.head[3], cars: self.head[4], entries: self.head[5] }
    }

    /// Adds a zone. Cars that stand in it are on its roster, and counted for their teams, at once. Refusals:
    /// [`Refusal::NoSuchZone`], [`Refusal::ZoneStands`], [`Refusal::Rectangle`], [`Refusal::NoRoom`].
    pub fn add(&mut self, zone: u32, r: Rectangle) -> Result<Added, Refusal> {
        let mut values = [0; 2];
        call!(
            unwadegiro_add,
            self,
            [
                head.as_ptr,
                zones.as_mut_ptr,
                cars.as_ptr,
                spots.as_ptr,
                starts.as_mut_ptr,
                entries.as_mut_ptr,
                rosters.as_mut_ptr,
                tallies.as_mut_ptr
            ],
            zone,
            r.a,
            r.b,
            r.w,
            r.h,
            values.as_mut_ptr(),
            values.len()
        )?;
        let [squares, cars] = values;
        Ok(Added { squares, cars })
    }

    /// Removes a zone. Its entries and its number are free for later zones. Refusals: [`Refusal::NoSuchZone`],
    /// [`Refusal::ZoneStandsNot`].
    pub fn remove(&mut self, zone: u32) -> Result<(), Refusal> {
        call!(
            unwadegiro_remove,
            self,
            [
                head.as_ptr,
                zones.as_mut_ptr,
                cars.as_ptr,
                spots.as_ptr,
                starts.as_mut_ptr,
                entries.as_mut_ptr,
                rosters.as_mut_ptr,
                tallies.as_mut_ptr
            ],
            zone
        )
    }

    /// Moves a zone by so many columns to the east and rows to the north; below 0, to the west and to the south. Squares that
    /// its old and its new cut have keep their entry, so a ride may have room where the same zone added beside the old one
    /// has none. Afterwards everything is as if the zone had been removed and added at its new place. Refusals:
    /// [`Refusal::NoSuchZone`], [`Refusal::ZoneStandsNot`], [`Refusal::Rectangle`], [`Refusal::NoRoom`].
    ///
    /// ```
    /// # use unwadegiro::{Capacities, Position, Rectangle, Refusal, Shape, Team, Town};
    /// # let room = Capacities { zones: 2, cars: 2, entries: 64 };
    /// let mut town = Town::open(Shape { k: 2, p: 4, q: 4 }, room)?;
    /// town.add(1, Rectangle { a: 5, b: 2, w: 8, h: 12 })?;
    /// town.report(0, Team::SPECTATOR, Position { x: 5.5, y: 3.0 })?;
    /// town.report(1, Team::SPECTATOR, Position { x: 13.5, y: 3.0 })?;
    /// let ridden = town.ride(1, 1, 0)?;
    /// assert_eq!((ridden.dropped, ridden.taken), (24, 6));
    /// assert_eq!((ridden.entered, ridden.left), (&[1][..], &[0][..]));
    /// assert_eq!(town.ride(1, -7, 0), Err(Refusal::Rectangle));
    /// # Ok::<(), Refusal>(())
    /// ```
    pub fn ride(&mut self, zone: u32, columns: i32, rows: i32) -> Result<Ridden<'_>, Refusal> {
        let mut values = [0; 4];
        call!(
            unwadegiro_ride,
            self,
            [
                head.as_ptr,
                zones.as_mut_ptr,
                cars.as_ptr,
                spots.as_ptr,
                starts.as_mut_ptr,
                entries.as_mut_ptr,
                rosters.as_mut_ptr,
                tallies.as_mut_ptr
            ],
            zone,
            columns,
            rows,
            self.inside.as_mut_ptr(),
            self.inside.len(),
            self.outside.as_mut_ptr(),
            self.outside.len(),
            values.as_mut_ptr(),
            values.len()
        )?;
        let [dropped, taken, came, went] = values;
        Ok(Ridden { dropped, taken, entered: &self.inside[..came as usize], left: &self.outside[..went as usize] })
    }

    /// Places or moves a car. On the map its team stays the same; a car that left may come back with another. Refusals:
    /// [`Refusal::NoSuchCar`], [`Refusal::WrongTeam`], [`Refusal::PositionOffMap`].
    ///
    /// ```
    /// # use unwadegiro::{Capacities, Position, Rectangle, Refusal, Shape, Team, Town};
    /// # let room = Capacities { zones: 2, cars: 2, entries: 64 };
    /// let (red, blue) = (Team::new(1).unwrap(), Team::new(2).unwrap());
    /// let mut town = Town::open(Shape { k: 2, p: 4, q: 4 }, room)?;
    /// town.add(0, Rectangle { a: 8, b: 8, w: 1, h: 1 })?;
    /// assert_eq!(town.report(1, red, Position { x: 8.0, y: 8.0 })?.entered, [0]);
    /// assert_eq!(town.report(1, red, Position { x: 9.0, y: 8.0 })?.left, [0]);
    /// assert_eq!(town.report(1, blue, Position { x: 8.0, y: 8.0 }), Err(Refusal::WrongTeam));
    /// assert_eq!(town.report(1, red, Position { x: 16.5, y: 8.0 }), Err(Refusal::PositionOffMap));
    /// # Ok::<(), Refusal>(())
    /// ```
    #[inline]
    pub fn report(&mut self, car: u32, team: Team, at: Position) -> Result<Reported<'_>, Refusal> {
        let mut values = [0; 3];
        call!(
            unwadegiro_report,
            self,
            [
                head.as_ptr,
                zones.as_ptr,
                cars.as_mut_ptr,
                spots.as_mut_ptr,
                starts.as_ptr,
                entries.as_ptr,
                rosters.as_mut_ptr,
                tallies.as_mut_ptr
            ],
            car,
            team.number(),
            at.x,
            at.y,
            self.came.as_mut_ptr(),
            self.came.len(),
            self.went.as_mut_ptr(),
            self.went.len(),
            values.as_mut_ptr(),
            values.len()
        )?;
        let [squares, came, went] = values;
        Ok(Reported { squares, entered: &self.came[..came as usize], left: &self.went[..went as usize] })
    }

    /// Takes a car off the map. Refusals: [`Refusal::NoSuchCar`], [`Refusal::CarOffMap`].
    #[inline]
    pub fn leave(&mut self, car: u32) -> Result<Left<'_>, Refusal> {
        let mut values = [0; 2];
        call!(
            unwadegiro_leave,
            self,
            [
                head.as_ptr,
                zones.as_ptr,
                cars.as_mut_ptr,
                spots.as_ptr,
                starts.as_ptr,
                entries.as_ptr,
                rosters.as_mut_ptr,
                tallies.as_mut_ptr
            ],
            car,
            self.went.as_mut_ptr(),
            self.went.len(),
            values.as_mut_ptr(),
            values.len()
        )?;
        let [squares, went] = values;
        Ok(Left { squares, left: &self.went[..went as usize] })
    }

    /// The zones that hold a position. Refusal: [`Refusal::PositionOffMap`].
    #[inline]
    pub fn search(&mut self, at: Position) -> Result<Found<'_>, Refusal> {
        let mut values = [0; 2];
        read!(
            unwadegiro_search,
            self,
            at.x,
            at.y,
            self.came.as_mut_ptr(),
            self.came.len(),
            values.as_mut_ptr(),
            values.len()
        )?;
        let [squares, zones] = values;
        Ok(Found { squares, zones: &self.came[..zones as usize] })
    }

    /// Whether any zone holds a position: just where [`Town::search`] finds one. It ends at the first square that has a
    /// zone, and makes no list. Refusal: [`Refusal::PositionOffMap`].
    ///
    /// ```
    /// # use unwadegiro::{Capacities, Position, Rectangle, Refusal, Scoring, Shape, Town};
    /// # let room = Capacities { zones: 2, cars: 8, entries: 64 };
    /// let mut town = Town::open(Shape { k: 2, p: 4, q: 4 }, room)?;
    /// town.add(0, Rectangle { a: 8, b: 8, w: 5, h: 4 })?;
    /// // the cell (9, 9) lies in a block that the zone holds whole, the cell (12, 9) in a column of single cells
    /// assert_eq!(town.scoring(Position { x: 9.5, y: 9.5 })?, Scoring { scores: true, levels: 3 });
    /// assert_eq!(town.scoring(Position { x: 12.5, y: 9.5 })?, Scoring { scores: true, levels: 1 });
    /// assert!(!town.scoring(Position { x: 13.5, y: 9.5 })?.scores);
    /// assert_eq!(town.scoring(Position { x: 16.5, y: 9.5 }), Err(Refusal::PositionOffMap));
    /// # Ok::<(), Refusal>(())
    /// ```
    #[inline]
    pub fn scoring(&self, at: Position) -> Result<Scoring, Refusal> {
        let mut values = [0; 2];
        read!(unwadegiro_scoring, self, at.x, at.y, values.as_mut_ptr(), values.len())?;
        let [yes, levels] = values;
        Ok(Scoring { scores: yes == 1, levels })
    }

    /// The cars in a zone, lowest first. Refusals: [`Refusal::NoSuchZone`], [`Refusal::ZoneStandsNot`].
    #[inline]
    pub fn roster(&mut self, zone: u32) -> Result<&[u32], Refusal> {
        let mut values = [0; 1];
        read!(
            unwadegiro_roster,
            self,
            zone,
            self.inside.as_mut_ptr(),
            self.inside.len(),
            values.as_mut_ptr(),
            values.len()
        )?;
        Ok(&self.inside[..values[0] as usize])
    }

    /// How many cars are in a zone, of all teams: as many as [`Town::roster`] lists. The number is stored, so the call costs
    /// the same however many cars there are. Refusals: [`Refusal::NoSuchZone`], [`Refusal::ZoneStandsNot`].
    ///
    /// ```
    /// # use unwadegiro::{Capacities, Position, Rectangle, Refusal, Shape, Team, Town};
    /// # let room = Capacities { zones: 2, cars: 8, entries: 64 };
    /// let mut town = Town::open(Shape { k: 2, p: 4, q: 4 }, room)?;
    /// town.report(3, Team::SPECTATOR, Position { x: 8.5, y: 8.5 })?;
    /// town.add(0, Rectangle { a: 8, b: 8, w: 2, h: 2 })?;
    /// assert_eq!(town.count(0), Ok(1));
    /// town.report(4, Team::SPECTATOR, Position { x: 9.5, y: 9.5 })?;
    /// assert_eq!(town.count(0), Ok(2));
    /// town.leave(3)?;
    /// assert_eq!(town.count(0), Ok(1));
    /// assert_eq!(town.count(1), Err(Refusal::ZoneStandsNot));
    /// # Ok::<(), Refusal>(())
    /// ```
    #[inline]
    pub fn count(&self, zone: u32) -> Result<u32, Refusal> {
        let mut values = [0; 1];
        read!(unwadegiro_count, self, zone, values.as_mut_ptr(), values.len())?;
        Ok(values[0])
    }

    /// How many cars of each team are in a zone, and which team holds it. The numbers are stored, as the count is. Refusals:
    /// [`Refusal::NoSuchZone`], [`Refusal::ZoneStandsNot`].
    ///
    /// ```
    /// # use unwadegiro::{Capacities, Position, Rectangle, Refusal, Shape, Team, Town};
    /// # let room = Capacities { zones: 2, cars: 8, entries: 64 };
    /// let (red, blue) = (Team::new(1).unwrap(), Team::new(2).unwrap());
    /// let mut town = Town::open(Shape { k: 2, p: 4, q: 4 }, room)?;
    /// town.add(0, Rectangle { a: 8, b: 8, w: 2, h: 2 })?;
    /// for (car, team) in [(3, Team::SPECTATOR), (4, red), (5, red), (6, blue)] {
    ///     town.report(car, team, Position { x: 8.5, y: 8.5 })?;
    /// }
    /// let standing = town.holder(0)?;
    /// assert_eq!(standing.cars, [1, 2, 1, 0, 0, 0, 0, 0]);
    /// assert_eq!(standing.holder, Some(red));
    /// town.leave(4)?;
    /// assert_eq!(town.holder(0)?.holder, None);
    /// # Ok::<(), Refusal>(())
    /// ```
    #[inline]
    pub fn holder(&self, zone: u32) -> Result<Standing, Refusal> {
        let mut values = [0; 9];
        read!(unwadegiro_holder, self, zone, values.as_mut_ptr(), values.len())?;
        let [cars @ .., holder] = values;
        Ok(Standing { cars, holder: Team::new(holder).filter(|&team| team != Team::SPECTATOR) })
    }

    /// Where a car is: the position of its last accepted report. Refusals: [`Refusal::NoSuchCar`],
    /// [`Refusal::CarOffMap`].
    #[inline]
    pub fn where_is(&self, car: u32) -> Result<Position, Refusal> {
        let mut position = [0.0; 2];
        read!(unwadegiro_where, self, car, position.as_mut_ptr(), position.len())?;
        let [x, y] = position;
        Ok(Position { x, y })
    }

    /// Whether the tables are sound. They always are: every call on sound tables leaves them sound.
    pub fn is_sound(&self) -> bool {
        let mut values = [0; 1];
        let checked = read!(unwadegiro_sound, self, values.as_mut_ptr(), values.len());
        checked.is_ok() && values[0] == 1
    }
}
