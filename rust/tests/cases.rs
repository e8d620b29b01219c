// The documents' cases, through the safe calls.
use unwadegiro::{cut, number, raw, square};
use unwadegiro::{Capacities, Log, Position, Rectangle, Refusal, Shape, Square, Standing, Team, Town, LEVEL};

const TOWN: Shape = Shape { k: 2, p: 4, q: 4 };
const ROOM: Capacities = Capacities { zones: 16, cars: 64, entries: 2048 };
/// The team of a car where the case asks for none.
const ANY: Team = Team::SPECTATOR;

fn at(x: f32, y: f32) -> Position {
    Position { x, y }
}

fn rectangle(a: u32, b: u32, w: u32, h: u32) -> Rectangle {
    Rectangle { a, b, w, h }
}

fn team(number: u32) -> Team {
    Team::new(number).unwrap()
}

/// How many cars of each team are in a zone, and the holder's number, 0 for nobody.
fn standing(town: &Town, zone: u32) -> ([u32; 8], u32) {
    let Standing { cars, holder } = town.holder(zone).unwrap();
    assert_eq!(town.count(zone), Ok(cars.iter().sum()));
    (cars, holder.map_or(0, Team::number))
}

#[test]
fn squares_of_a_cell() {
    assert_eq!(number(TOWN, 2, 10, 11), Ok(174));
    assert_eq!(number(TOWN, 1, 10, 10), Ok(43));
    assert_eq!(number(TOWN, 0, 8, 8), Ok(10));
    assert_eq!(number(TOWN, 1, 9, 10), Err(Refusal::NoSuchSquare));
    assert_eq!(square(TOWN, 2, 174), Ok(Square { x: 10, y: 11, side: 1 }));
    assert_eq!(number(Shape { k: 5, p: 9, q: 1 }, 0, 0, 0), Err(Refusal::Shape));
}

#[test]
fn cuts() {
    let mut room = [0; 64];
    let squares = cut(TOWN, rectangle(5, 2, 8, 12), &mut room).unwrap();
    let on_level = [0, 1, 2].map(|level| squares.iter().filter(|&&code| code / LEVEL == level).count());
    assert_eq!(on_level, [2, 10, 24]);
    assert_eq!(cut(TOWN, rectangle(0, 0, 16, 16), &mut room).unwrap().len(), 16);
    assert_eq!(cut(TOWN, rectangle(0, 0, 1, 1), &mut room).unwrap(), [2 * LEVEL]);
    assert_eq!(cut(Shape { k: 0, p: 3, q: 2 }, rectangle(1, 0, 2, 2), &mut room).unwrap(), [1, 2, 4, 5]);
    assert_eq!(cut(TOWN, rectangle(8, 0, 8, 1), &mut room).unwrap().len(), 8);
    assert_eq!(cut(TOWN, rectangle(8, 0, 9, 1), &mut room), Err(Refusal::Rectangle));
    assert_eq!(cut(TOWN, rectangle(u32::MAX, 0, 1, 1), &mut room), Err(Refusal::Rectangle));
    assert_eq!(cut(TOWN, rectangle(5, 2, 8, 12), &mut room[..35]), Err(Refusal::BufferTooShort));
}

#[test]
fn whole_case() {
    let mut town = Town::open(TOWN, ROOM).unwrap();
    let added = town.add(1, rectangle(5, 2, 8, 12)).unwrap();
    assert_eq!((added.squares, added.cars), (36, 0));
    let came = town.report(7, team(3), at(5.5, 3.0)).unwrap();
    assert_eq!((came.squares, came.entered, came.left), (3, &[1][..], &[][..]));
    let moved = town.report(7, team(3), at(10.0, 11.0)).unwrap();
    assert_eq!((moved.squares, moved.entered, moved.left), (6, &[][..], &[][..]));
    assert_eq!(town.where_is(7), Ok(at(10.0, 11.0)));
    assert_eq!(town.search(at(10.0, 11.0)).unwrap().zones, [1]);
    assert_eq!(town.roster(1).unwrap(), [7]);
    assert_eq!(town.count(1), Ok(1));
    assert_eq!(standing(&town, 1), ([0, 0, 0, 1, 0, 0, 0, 0], 3));
    assert_eq!(town.add(1, rectangle(0, 0, 1, 1)), Err(Refusal::ZoneStands));
    let gone = town.leave(7).unwrap();
    assert_eq!((gone.squares, gone.left), (3, &[1][..]));
    assert_eq!(town.roster(1).unwrap(), []);
    assert_eq!(town.count(1), Ok(0));
    assert!(town.is_sound());
}

#[test]
fn head_counts() {
    let mut town = Town::open(TOWN, ROOM).unwrap();
    assert_eq!(town.count(0), Err(Refusal::ZoneStandsNot));
    assert_eq!(town.count(16), Err(Refusal::NoSuchZone));
    assert_eq!(town.count(u32::MAX), Err(Refusal::NoSuchZone));
    for car in 0..5 {
        town.report(car, ANY, at(car as f32, 0.5)).unwrap();
    }
    // cars that stand in a new zone are counted
    assert_eq!(town.add(0, rectangle(0, 0, 4, 1)).unwrap().cars, 4);
    town.add(1, rectangle(3, 0, 2, 2)).unwrap();
    assert_eq!([0, 1].map(|zone| town.count(zone)), [Ok(4), Ok(2)]);
    // within zone 0, from zone 0 to zone 1, out of both; a refused report
    town.report(0, ANY, at(1.5, 0.0)).unwrap();
    assert_eq!([0, 1].map(|zone| town.count(zone)), [Ok(4), Ok(2)]);
    town.report(0, ANY, at(4.0, 1.0)).unwrap();
    assert_eq!([0, 1].map(|zone| town.count(zone)), [Ok(3), Ok(3)]);
    town.report(3, ANY, at(9.0, 9.0)).unwrap();
    assert_eq!([0, 1].map(|zone| town.count(zone)), [Ok(2), Ok(2)]);
    assert_eq!(town.report(4, ANY, at(16.5, 0.0)), Err(Refusal::PositionOffMap));
    assert_eq!([0, 1].map(|zone| town.count(zone)), [Ok(2), Ok(2)]);
    town.leave(4).unwrap();
    assert_eq!([0, 1].map(|zone| town.count(zone)), [Ok(2), Ok(1)]);
    // a removed zone has no count, and begins anew
    town.remove(0).unwrap();
    assert_eq!(town.count(0), Err(Refusal::ZoneStandsNot));
    town.add(0, rectangle(9, 9, 1, 1)).unwrap();
    assert_eq!([0, 1].map(|zone| town.count(zone)), [Ok(1), Ok(1)]);
    assert!(town.is_sound());
    town.clear();
    town.add(0, rectangle(0, 0, 16, 16)).unwrap();
    assert_eq!(town.count(0), Ok(0));
}

#[test]
fn ties_and_a_crowd() {
    let mut town = Town::open(TOWN, ROOM).unwrap();
    assert_eq!(town.holder(0), Err(Refusal::ZoneStandsNot));
    assert_eq!(town.holder(16), Err(Refusal::NoSuchZone));
    assert_eq!(town.holder(u32::MAX), Err(Refusal::NoSuchZone));
    town.add(0, rectangle(0, 0, 4, 4)).unwrap();
    assert_eq!(standing(&town, 0), ([0; 8], 0));
    // spectators hold nothing, and one car holds against a crowd of them
    for car in 0..5 {
        town.report(car, team(0), at(0.5, 0.5)).unwrap();
    }
    assert_eq!(standing(&town, 0), ([5, 0, 0, 0, 0, 0, 0, 0], 0));
    town.report(10, team(7), at(3.5, 3.5)).unwrap();
    assert_eq!(standing(&town, 0), ([5, 0, 0, 0, 0, 0, 0, 1], 7));
    // two teams with the most are nobody, whatever a third has
    town.report(11, team(1), at(1.0, 1.0)).unwrap();
    assert_eq!(standing(&town, 0), ([5, 1, 0, 0, 0, 0, 0, 1], 0));
    town.report(12, team(1), at(1.0, 1.0)).unwrap();
    assert_eq!(standing(&town, 0), ([5, 2, 0, 0, 0, 0, 0, 1], 1));
    town.report(13, team(7), at(1.0, 1.0)).unwrap();
    town.report(14, team(4), at(1.0, 1.0)).unwrap();
    assert_eq!(standing(&town, 0), ([5, 2, 0, 0, 1, 0, 0, 2], 0));
    // a tie behind the first team is none
    town.report(15, team(4), at(1.0, 1.0)).unwrap();
    town.report(16, team(7), at(1.0, 1.0)).unwrap();
    assert_eq!(standing(&town, 0), ([5, 2, 0, 0, 2, 0, 0, 3], 7));
    assert!(town.is_sound());
}

#[test]
fn a_lead_lost_by_one() {
    let mut town = Town::open(TOWN, ROOM).unwrap();
    town.add(0, rectangle(0, 0, 4, 4)).unwrap();
    town.add(1, rectangle(3, 0, 4, 4)).unwrap();
    for (car, number, x) in [(0, 2, 0.0), (1, 2, 3.0), (2, 5, 3.0), (3, 5, 6.0)] {
        town.report(car, team(number), at(x, 0.0)).unwrap();
    }
    assert_eq!([0, 1].map(|zone| standing(&town, zone).1), [2, 5]);
    // from one to two: the first loses its holder by a tie, the second as well
    town.report(0, team(2), at(4.0, 0.0)).unwrap();
    assert_eq!(standing(&town, 0), ([0, 0, 1, 0, 0, 1, 0, 0], 0));
    assert_eq!(standing(&town, 1), ([0, 0, 2, 0, 0, 2, 0, 0], 0));
    // one leave breaks the tie, another makes it again
    town.leave(2).unwrap();
    assert_eq!([0, 1].map(|zone| standing(&town, zone).1), [2, 2]);
    town.leave(1).unwrap();
    assert_eq!(standing(&town, 0), ([0; 8], 0));
    assert_eq!(standing(&town, 1), ([0, 0, 1, 0, 0, 1, 0, 0], 0));
    assert!(town.is_sound());
}

#[test]
fn a_zone_over_cars_of_several_teams() {
    let mut town = Town::open(TOWN, ROOM).unwrap();
    for car in 0..16 {
        town.report(car, team(car % 8), at(car as f32, 0.5)).unwrap();
    }
    assert_eq!(town.add(0, rectangle(0, 0, 9, 1)).unwrap().cars, 9);
    assert_eq!(standing(&town, 0), ([2, 1, 1, 1, 1, 1, 1, 1], 0));
    assert_eq!(town.add(1, rectangle(1, 0, 9, 2)).unwrap().cars, 9);
    assert_eq!(standing(&town, 1), ([1, 2, 1, 1, 1, 1, 1, 1], 1));
    assert_eq!(town.add(2, rectangle(0, 1, 16, 15)).unwrap().cars, 0);
    assert_eq!(standing(&town, 2), ([0; 8], 0));
    // a removed zone has no holder, and begins anew
    town.remove(1).unwrap();
    assert_eq!(town.holder(1), Err(Refusal::ZoneStandsNot));
    town.add(1, rectangle(5, 0, 1, 1)).unwrap();
    assert_eq!(standing(&town, 1), ([0, 0, 0, 0, 0, 1, 0, 0], 5));
    assert!(town.is_sound());
    town.clear();
    town.add(1, rectangle(0, 0, 16, 16)).unwrap();
    assert_eq!(standing(&town, 1), ([0; 8], 0));
}

#[test]
fn a_team_stays_on_the_map() {
    let mut town = Town::open(TOWN, ROOM).unwrap();
    town.add(0, rectangle(0, 0, 4, 4)).unwrap();
    town.report(7, team(3), at(1.0, 1.0)).unwrap();
    for number in (0..8).filter(|&number| number != 3) {
        assert_eq!(town.report(7, team(number), at(9.0, 9.0)), Err(Refusal::WrongTeam));
    }
    // it is asked after the car and before the position
    assert_eq!(town.report(64, team(1), at(16.5, 9.0)), Err(Refusal::NoSuchCar));
    assert_eq!(town.report(7, team(1), at(16.5, 9.0)), Err(Refusal::WrongTeam));
    assert_eq!(town.report(7, team(3), at(16.5, 9.0)), Err(Refusal::PositionOffMap));
    assert_eq!(town.where_is(7), Ok(at(1.0, 1.0)));
    assert_eq!(standing(&town, 0), ([0, 0, 0, 1, 0, 0, 0, 0], 3));
    // off the map a car has no team
    town.leave(7).unwrap();
    assert_eq!(town.report(7, team(6), at(2.0, 2.0)).unwrap().entered, [0]);
    assert_eq!(standing(&town, 0), ([0, 0, 0, 0, 0, 0, 1, 0], 6));
    assert_eq!(town.report(7, team(3), at(2.0, 2.0)), Err(Refusal::WrongTeam));
    assert!(town.is_sound());
}

#[test]
fn teams_above_seven() {
    // one cell with a zone and a car
    let (mut head, mut zones, mut cars, mut spots) = ([0; 6], [0; 4], [0; 1], [0.0; 2]);
    let (mut starts, mut entries, mut rosters, mut tallies) = ([0; 2], [0; 1], [0; 1], [0; 10]);
    /// Makes a call with all tables.
    macro_rules! call {
        ($call:ident $(, $rest:expr)*) => {
            // SAFETY: each pointer is of an array of its own and comes with its length.
            unsafe {
                raw::$call(
                    head.as_mut_ptr(), 6, zones.as_mut_ptr(), 4, cars.as_mut_ptr(), 1, spots.as_mut_ptr(), 2,
                    starts.as_mut_ptr(), 2, entries.as_mut_ptr(), 1, rosters.as_mut_ptr(), 1,
                    tallies.as_mut_ptr(), 10 $(, $rest)*
                )
            }
        };
    }
    let (mut came, mut went, mut values) = ([0; 1], [0; 1], [0; 3]);
    /// Reports the car in its cell with any team.
    macro_rules! report {
        ($team:expr) => {{
            let [came, went, values] = [came.as_mut_ptr(), went.as_mut_ptr(), values.as_mut_ptr()];
            call!(unwadegiro_report, 0, $team, 0.5, 0.5, came, 1, went, 1, values, 3)
        }};
    }
    /// Whether the tables are sound.
    macro_rules! sound {
        () => {
            call!(unwadegiro_sound, values.as_mut_ptr(), 1) == 0 && values[0] == 1
        };
    }
    assert_eq!(call!(unwadegiro_open, 0, 1, 1, 1, 1, 1), 0);
    assert_eq!(call!(unwadegiro_add, 0, 0, 0, 1, 1, values.as_mut_ptr(), 2), 0);
    for number in [8, 9, 256, 263, u32::MAX] {
        values.fill(9);
        assert_eq!(report!(number), Refusal::WrongTeam.number());
        assert_eq!((values, cars, tallies), ([0; 3], [0], [0; 10]));
    }
    assert_eq!(report!(7), 0);
    assert_eq!((cars, tallies), ([8], [1, 0, 0, 0, 0, 0, 0, 0, 1, 7]));
    assert_eq!(report!(8), Refusal::WrongTeam.number());
    assert!(sound!());
    // a stored team above 7 is not sound, and is refused whatever a report names
    cars[0] = 9;
    assert!(!sound!());
    for number in [0, 7, 8, 9] {
        assert_eq!(report!(number), Refusal::WrongTeam.number());
    }
    assert_eq!(cars, [9]);
}

#[test]
fn squares_looked_into() {
    let mut town = Town::open(TOWN, ROOM).unwrap();
    town.report(0, ANY, at(8.0, 8.0)).unwrap();
    assert_eq!(town.report(0, ANY, at(9.0, 8.0)).unwrap().squares, 2);
    assert_eq!(town.report(0, ANY, at(9.5, 8.5)).unwrap().squares, 0);
    town.report(1, ANY, at(1.0, 1.0)).unwrap();
    assert_eq!(town.report(1, ANY, at(5.0, 1.0)).unwrap().squares, 6);
}

#[test]
fn scoring_ends_at_the_first_list() {
    let mut town = Town::open(TOWN, ROOM).unwrap();
    let told = |town: &Town, x, y| town.scoring(at(x, y)).map(|told| (told.scores, told.levels));
    assert_eq!(told(&town, 10.0, 11.0), Ok((false, 3)));
    town.add(1, rectangle(5, 2, 8, 12)).unwrap();
    // its unit cell, its square on level 1, its block
    assert_eq!([(5.5, 3.0), (6.0, 2.0), (10.0, 11.0)].map(|(x, y)| told(&town, x, y).unwrap().1), [1, 2, 3]);
    for (x, y) in [(4.5, 3.0), (13.0, 3.0), (5.5, 1.5), (5.5, 14.0)] {
        assert_eq!(told(&town, x, y), Ok((false, 3)));
    }
    // every cell, beside the search
    town.add(0, rectangle(10, 11, 1, 1)).unwrap();
    assert_eq!(told(&town, 10.0, 11.0), Ok((true, 1)));
    for (x, y) in (0..16).flat_map(|x| (0..16).map(move |y| (x as f32, y as f32))) {
        let found = !town.search(at(x, y)).unwrap().zones.is_empty();
        let (scores, levels) = told(&town, x, y).unwrap();
        assert_eq!(scores, found);
        assert!(if scores { (1..=3).contains(&levels) } else { levels == 3 });
    }
    town.remove(1).unwrap();
    assert_eq!(told(&town, 5.5, 3.0), Ok((false, 3)));
    assert_eq!(told(&town, 10.0, 11.0), Ok((true, 1)));
    // at the walls, and past them
    town.add(2, rectangle(15, 15, 1, 1)).unwrap();
    assert_eq!(told(&town, 16.0, 16.0), Ok((true, 1)));
    for off in [f32::from_bits(0x4180_0001), -1.0, f32::NAN, f32::INFINITY] {
        assert_eq!(told(&town, off, 3.0), Err(Refusal::PositionOffMap));
        assert_eq!(told(&town, 3.0, off), Err(Refusal::PositionOffMap));
    }
    // with k = 0 there is one level
    let mut flat = Town::open(Shape { k: 0, p: 3, q: 2 }, ROOM).unwrap();
    flat.add(0, rectangle(1, 0, 2, 2)).unwrap();
    assert_eq!([0.0, 1.0].map(|x| told(&flat, x, 0.0)), [Ok((false, 1)), Ok((true, 1))]);
}

#[test]
fn a_zone_rides() {
    let mut town = Town::open(TOWN, ROOM).unwrap();
    assert_eq!(town.ride(1, 1, 0), Err(Refusal::ZoneStandsNot));
    town.add(1, rectangle(5, 2, 8, 12)).unwrap();
    for (car, x, y) in [(7, 5.5, 3.0), (8, 10.0, 11.0), (9, 13.5, 3.0)] {
        town.report(car, ANY, at(x, y)).unwrap();
    }
    // one column to the east and back again
    let ridden = town.ride(1, 1, 0).unwrap();
    assert_eq!((ridden.dropped, ridden.taken, ridden.entered, ridden.left), (24, 6, &[9][..], &[7][..]));
    assert_eq!(town.roster(1).unwrap(), [8, 9]);
    assert_eq!(town.search(at(13.5, 3.0)).unwrap().zones, [1]);
    let ridden = town.ride(1, -1, 0).unwrap();
    assert_eq!((ridden.dropped, ridden.taken, ridden.entered, ridden.left), (6, 24, &[7][..], &[9][..]));
    // by nothing, and to the corner
    let ridden = town.ride(1, 0, 0).unwrap();
    assert_eq!((ridden.dropped, ridden.taken, ridden.entered, ridden.left), (0, 0, &[][..], &[][..]));
    let ridden = town.ride(1, -5, -2).unwrap();
    assert_eq!((ridden.dropped, ridden.taken, ridden.entered, ridden.left), (36, 6, &[][..], &[8][..]));
    assert!(town.is_sound());
    // past each wall
    for (columns, rows) in [(9, 0), (-1, 0), (0, 5), (0, -1), (i32::MIN, 0), (0, i32::MAX)] {
        assert_eq!(town.ride(1, columns, rows), Err(Refusal::Rectangle));
    }
    assert_eq!(town.ride(16, 1, 0), Err(Refusal::NoSuchZone));
    assert_eq!(town.roster(1).unwrap(), [7]);
    // with no entry left a ride has room where the same zone beside the old one has none
    let mut full = Town::open(TOWN, Capacities { entries: 36, ..ROOM }).unwrap();
    full.add(1, rectangle(5, 2, 8, 12)).unwrap();
    assert_eq!(full.add(2, rectangle(7, 2, 8, 12)), Err(Refusal::NoRoom));
    assert_eq!(full.ride(1, 0, 1), Err(Refusal::NoRoom));
    let ridden = full.ride(1, 2, 0).unwrap();
    assert_eq!((ridden.dropped, ridden.taken), (30, 30));
    assert!(full.is_sound());
}

#[test]
fn positions_at_the_edge() {
    let wide = Shape { k: 5, p: 8, q: 8 };
    let mut town = Town::open(wide, ROOM).unwrap();
    town.add(0, rectangle(0, 0, 1, 1)).unwrap();
    town.add(255 % 16, rectangle(255, 0, 1, 1)).unwrap();
    let zones =
        |town: &mut Town, bits: u32| town.search(at(f32::from_bits(bits), 0.0)).map(|found| found.zones.to_vec());
    assert_eq!(zones(&mut town, 0x3F7FFFFF), Ok(vec![0]));
    assert_eq!(zones(&mut town, 0x00000001), Ok(vec![0]));
    assert_eq!(zones(&mut town, 0x3F800000), Ok(vec![]));
    assert_eq!(zones(&mut town, 0x437FFFFF), Ok(vec![15]));
    assert_eq!(zones(&mut town, 0x43800000), Ok(vec![15]));
    assert_eq!(zones(&mut town, 0x43800001), Err(Refusal::PositionOffMap));
}

#[test]
fn refusals_have_their_numbers() {
    for (number, refusal) in (1..=13).chain([15]).zip(Refusal::ALL) {
        assert_eq!(refusal.number(), number);
        assert_eq!(Refusal::from_number(number), Some(refusal));
    }
    for number in [0, 14, 16, u32::MAX] {
        assert_eq!(Refusal::from_number(number), None);
    }
}

#[test]
fn log_cut_anywhere() {
    let whole = include_bytes!("../../tests/whole.log");
    let should = include_bytes!("../../tests/whole.answers");
    for first in 0..=whole.len() {
        let (mut log, mut answers) = (Log::new(), Vec::new());
        log.answer(&whole[..first], &mut answers);
        log.answer(&whole[first..], &mut answers);
        log.end(&mut answers);
        assert_eq!(answers, should, "cut after {first} bytes");
    }
}

#[test]
fn log_without_its_last_feed() {
    let (mut log, mut answers) = (Log::new(), Vec::new());
    log.answer(b"M\t0\t1\t1", &mut answers);
    assert_eq!(answers, b"");
    log.end(&mut answers);
    log.end(&mut answers);
    assert_eq!(answers, b"M\t0\n");
}

#[test]
fn west_wall() {
    let mut town = Town::open(TOWN, ROOM).unwrap();
    town.add(0, rectangle(0, 0, 1, 16)).unwrap();
    assert_eq!(town.report(4, ANY, at(-0.0, 3.0)).unwrap().entered, [0]);
    assert_eq!(town.where_is(4).unwrap().x.to_bits(), 0x8000_0000);
    assert_eq!(town.search(at(3.0, -0.0)).unwrap().zones, []);
    assert_eq!(town.report(4, ANY, at(0.0, 3.0)).unwrap().squares, 0);
    assert_eq!(town.where_is(4).unwrap().x.to_bits(), 0);
    for below in [f32::from_bits(0x8000_0001), -1.0, f32::NEG_INFINITY, f32::NAN, -f32::NAN] {
        assert_eq!(town.report(4, ANY, at(below, 3.0)), Err(Refusal::PositionOffMap));
        assert_eq!(town.search(at(3.0, below)), Err(Refusal::PositionOffMap));
    }
    town.report(4, ANY, at(-0.0, -0.0)).unwrap();
    town.add(1, rectangle(0, 0, 2, 2)).unwrap();
    assert_eq!(town.roster(1).unwrap(), [4]);
    assert!(town.is_sound());
    assert_eq!(town.leave(4).unwrap().left, [0, 1]);
}

#[test]
fn east_wall() {
    // 12 columns, no power of two, and 8 rows
    let mut town = Town::open(Shape { k: 2, p: 3, q: 2 }, ROOM).unwrap();
    let next = |wall: f32| f32::from_bits(wall.to_bits() + 1);
    town.add(0, rectangle(11, 0, 1, 8)).unwrap();
    town.add(1, rectangle(0, 0, 11, 8)).unwrap();
    town.report(4, ANY, at(10.0, 3.0)).unwrap();
    let reported = town.report(4, ANY, at(12.0, 3.0)).unwrap();
    assert_eq!((reported.squares, reported.entered, reported.left), (2, &[0][..], &[1][..]));
    assert_eq!(town.where_is(4).unwrap().x.to_bits(), 0x4140_0000);
    assert_eq!(town.report(4, ANY, at(11.5, 3.0)).unwrap().squares, 0);
    assert_eq!(town.report(4, ANY, at(12.0, 3.0)).unwrap().squares, 0);
    // W for y is past H, and the other way round it is within
    for (x, y) in [(next(12.0), 3.0), (3.0, next(8.0)), (3.0, 12.0), (16.0, 3.0), (f32::INFINITY, 3.0)] {
        assert_eq!(town.report(4, ANY, at(x, y)), Err(Refusal::PositionOffMap));
        assert_eq!(town.search(at(x, y)), Err(Refusal::PositionOffMap));
    }
    assert_eq!(town.search(at(8.0, 8.0)).unwrap().zones, [1]);
    assert_eq!(town.search(at(12.0, 8.0)).unwrap().zones, [0]);
    // a zone that ends at the walls has the car in their corner, one that ends a cell before them has not
    town.report(4, ANY, at(12.0, 8.0)).unwrap();
    assert_eq!(town.add(2, rectangle(8, 4, 4, 4)).unwrap().cars, 1);
    assert_eq!(town.add(3, rectangle(8, 4, 3, 4)).unwrap().cars, 0);
    assert_eq!(town.add(5, rectangle(8, 4, 4, 3)).unwrap().cars, 0);
    assert_eq!(town.roster(2).unwrap(), [4]);
    assert_eq!(town.count(0).unwrap(), 1);
    assert!(town.is_sound());
    assert_eq!(town.leave(4).unwrap().left, [0, 2]);
}
