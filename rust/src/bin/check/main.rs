//! Drives the C functions and a brute-force town through the same random calls and compares every byte.
//!
//! `cargo run --release --bin check -- [calls] [seed]`

mod brute;
mod calls;
mod layout;
mod lent;
mod logs;
mod random;

use brute::{Answer, Brute, Car, LAST_TEAM, TALLY};
use calls::{Call, Size, KINDS};
use lent::{Lent, Slice, Tables, CARS, ENTRIES, SLACK, SPOTS, TABLES, TALLIES};
use random::Random;
use std::{env, process};
use unwadegiro::{Capacities, Shape};

/// Whether what stands in the tables is known to be sound.
#[derive(Clone, Copy, PartialEq)]
enum State {
    Sound,
    Any,
}

struct Check {
    random: Random,
    tables: Tables,
    town: Brute,
    state: State,
    made: u64,
    // how often each kind of call got each number
    seen: [[u64; 16]; KINDS.len()],
    sound_said: [u64; 2],
    // how often one number changed in each table made the tables unsound
    unsound: [u64; TABLES.len()],
    // how many NaNs `where` gave back: signalling and quiet with the sign bit clear, then the same with it set
    nans: [u64; 4],
    // positions at the end of x and of y that were accepted, and those one float past it that got 10
    walls: [u64; 4],
    // reports that got 15: of a team above 7, of another than the car's, and of a car with a team above 7
    teams: [u64; 3],
    // zones of sound tables that a team holds, that nobody holds by a tie, and with no car of a team from 1 on
    held: [u64; 3],
    // rides of sound tables that were accepted: by nothing; with squares in both cuts; with none; with more entries afterwards, and
    // with fewer; and those that brought cars in, and left some behind
    rides: [u64; 7],
    // positions of sound tables that score, by the levels looked at, and those that do not
    scored: [u64; 7],
}

/// Says what was wrong, and ends.
fn fail(call: &Call, what: &str, check: &Check) -> ! {
    println!("call {}: {:?}", check.made, call);
    println!("in a town {:?} with room for {:?}", check.town.shape, check.town.room);
    println!("{what}");
    process::exit(1)
}

impl Check {
    /// A town whose tables hold noise.
    fn new(seed: u64) -> Check {
        let mut random = Random::new(seed);
        let town = Brute::new(Shape { k: 0, p: 1, q: 1 }, Capacities { zones: 1, cars: 1, entries: 1 });
        let tables = Tables::noise(layout::lengths(town.shape, town.room), &mut random);
        Check {
            random,
            tables,
            town,
            state: State::Any,
            made: 0,
            seen: [[0; 16]; KINDS.len()],
            sound_said: [0; 2],
            unsound: [0; TABLES.len()],
            nans: [0; 4],
            walls: [0; 4],
            teams: [0; 3],
            held: [0; 3],
            rides: [0; 7],
            scored: [0; 7],
        }
    }

    /// Lends one table with a wrong length, now and then.
    fn choose_lengths(&mut self) {
        let random = &mut self.random;
        if !random.once_in(40) {
            self.tables.lend(None);
            return;
        }
        let at = random.below(TABLES.len() as u32) as usize;
        let own = self.tables.own()[at];
        let length = match random.below(6) {
            0 => 0,
            1 => own - 1,
            2 => own + 1,
            3 => own + SLACK,
            _ => random.below(own as u32 + SLACK as u32 + 1) as usize,
        };
        let null = random.once_in(2);
        self.tables.lend(Some((at, length, null)));
    }

    /// Buffers of the length that a call asks for, or a little longer; now and then one too short.
    fn choose_buffers(&mut self, call: &Call) -> Vec<Lent<u32>> {
        let random = &mut self.random;
        let asked = match *call {
            Call::Roster { .. } | Call::Ride { .. } => self.town.room.cars as usize,
            Call::Cut { shape, r } if brute::allowed(shape) && brute::fits(shape, r) => brute::cut(shape, r).len(),
            Call::Cut { .. } => 4,
            _ => self.town.room.zones as usize,
        };
        let mut buffers = Vec::new();
        for _ in 0..call.kind().buffers {
            let length = match random.below(60) {
                0 => 0,
                1 => asked - 1,
                2 => random.below(asked as u32 + 1) as usize,
                3..=12 => asked + random.below(9) as usize,
                _ => asked,
            };
            let mut buffer = Lent::noise(length, random);
            buffer.lend(length, random.once_in(2));
            buffers.push(buffer);
        }
        buffers
    }

    fn choose_values(&mut self, call: &Call) -> Lent<u32> {
        let random = &mut self.random;
        let fields = call.kind().fields;
        let length = if random.once_in(8) { random.below(fields as u32 + 3) as usize } else { fields };
        let mut values = Lent::noise(length, random);
        values.lend(length, random.once_in(2));
        values
    }

    /// What the call should answer. On tables that may be unsound the records are read from the tables, and the numbers of
    /// a zone are the stored ones.
    fn expect(&mut self, call: &Call, buffers: &[usize]) -> Answer {
        if !call.asks_town() {
            return brute::answer_shape(call, self.tables.lent(), buffers);
        }
        let passes = match self.state {
            State::Sound => self.tables.lent() == layout::lengths(self.town.shape, self.town.room),
            State::Any => match layout::read(&self.tables) {
                Some(town) => {
                    self.town = town;
                    true
                }
                None => false,
            },
        };
        if !passes {
            return Answer { refusal: 3, ..Answer::default() };
        }
        let mut answer = self.town.answer(call, buffers);
        match *call {
            Call::Sound if self.state == State::Any => {
                answer.values = vec![layout::sound(&mut self.town, &self.tables) as u32];
            }
            Call::Count { zone } if self.state == State::Any && answer.refusal == 0 => {
                answer.values = self.stored(zone)[..1].to_vec();
            }
            Call::Holder { zone } if self.state == State::Any && answer.refusal == 0 => {
                answer.values = self.stored(zone)[1..].to_vec();
            }
            _ => {}
        }
        answer
    }

    /// What stands in the tallies of a zone.
    fn stored(&self, zone: u32) -> &[u32] {
        &self.tables.tallies.now()[TALLY * zone as usize..][..TALLY]
    }

    /// Makes a call and compares what it returned, every value, every buffer, every table and the bytes around them.
    fn make(&mut self, call: Call) {
        self.choose_lengths();
        let mut buffers = self.choose_buffers(&call);
        let mut values = self.choose_values(&call);
        let lengths: Vec<usize> = buffers.iter().map(Lent::len).collect();
        let answer = self.expect(&call, &lengths);
        let returned = lent::drive(&call, &mut self.tables, &mut buffers, &mut values);
        self.made += 1;
        let set = matches!(call, Call::Sound | Call::Where { .. } | Call::Count { .. } | Call::Holder { .. });
        let gap = self.state == State::Any && call.asks_town() && !set;
        let either = gap && matches!(call, Call::Add { .. } | Call::Ride { .. }) && [0, 12].contains(&answer.refusal);
        if returned != answer.refusal && !(either && [0, 12].contains(&returned)) {
            fail(&call, &format!("it returned {returned}, and should have returned {}", answer.refusal), self);
        }
        self.seen[call.index()][returned as usize] += 1;
        if returned == 0 && gap {
            self.compare_gap(&call, &mut buffers, &mut values);
            return;
        }
        if returned == 0 {
            self.count_ride(&call, &answer.values);
            self.apply(&call);
        }
        self.compare(&call, returned, &answer, &mut buffers, &mut values);
        if matches!(call, Call::Where { .. }) && returned == 0 {
            self.count_nans(values.now());
        }
        if let Call::Report { at, .. } | Call::Search { at } | Call::Scoring { at } = call {
            self.count_walls(at, returned);
        }
        match call {
            Call::Report { car, team, .. } if returned == 15 => self.count_team(car, team),
            Call::Holder { .. } if returned == 0 && self.state == State::Sound => self.count_held(&answer.values),
            Call::Scoring { .. } if returned == 0 => {
                let [yes, levels] = answer.values[..] else { unreachable!("two values") };
                self.scored[if yes == 1 { levels as usize - 1 } else { 6 }] += 1;
            }
            _ => {}
        }
    }

    /// Counts an accepted ride by what it was.
    fn count_ride(&mut self, call: &Call, values: &[u32]) {
        let Call::Ride { zone, by } = *call else { return };
        let [dropped, taken, entered, left] = values[..] else { unreachable!("four values") };
        let was = self.town.zones[zone as usize].map_or(0, |r| self.town.cut(r).len() as u32);
        let kinds = [
            by == [0, 0],
            by != [0, 0] && dropped < was,
            dropped == was,
            dropped < taken,
            taken < dropped,
            entered > 0,
            left > 0,
        ];
        for (times, yes) in self.rides.iter_mut().zip(kinds) {
            *times += yes as u64;
        }
    }

    /// Counts a report's refused team.
    fn count_team(&mut self, car: u32, team: u32) {
        match self.town.cars[car as usize] {
            Some(car) if car.team > LAST_TEAM => self.teams[2] += 1,
            _ if team > LAST_TEAM => self.teams[0] += 1,
            _ => self.teams[1] += 1,
        }
    }

    /// Counts a zone by who holds it.
    fn count_held(&mut self, standing: &[u32]) {
        let (holder, cars) = standing.split_last().expect("a holder behind the cars of each team");
        let kind = match holder {
            0 if cars[1..].iter().all(|&many| many == 0) => 2,
            0 => 1,
            _ => 0,
        };
        self.held[kind] += 1;
    }

    /// Counts a position at the outer walls, and one just past them, by what it got.
    fn count_walls(&mut self, at: [u32; 2], returned: u32) {
        let sides = [brute::columns(self.town.shape), brute::rows(self.town.shape)];
        for (axis, (bits, side)) in at.into_iter().zip(sides).enumerate() {
            let end = (side as f32).to_bits();
            if bits == end && returned == 0 {
                self.walls[axis] += 1;
            }
            if bits == end + 1 && returned == 10 {
                self.walls[2 + axis] += 1;
            }
        }
    }

    /// Counts the NaNs of a position by their kind.
    fn count_nans(&mut self, values: &[u32]) {
        for &bits in values.iter().take(2).filter(|&&bits| calls::is_nan(bits)) {
            let (sign, quiet) = (bits >> 31, bits >> 22 & 1);
            self.nans[(2 * sign + quiet) as usize] += 1;
        }
    }

    /// Where an accepted call on unsound tables may write anything: it stayed within what it was lent, and every spot but
    /// that of a report's own car has the bits that it had.
    fn compare_gap(&mut self, call: &Call, buffers: &mut [Lent<u32>], values: &mut Lent<u32>) {
        self.tables.accept(call);
        let wrong = self.tables.wrong();
        if !wrong.is_empty() {
            fail(call, &format!("it wrote where it may not, in or around {wrong:?}"), self);
        }
        if !buffers.iter_mut().all(Lent::accept) || !values.accept() {
            fail(call, "it wrote beside a buffer or the values", self);
        }
    }

    fn compare(&self, call: &Call, returned: u32, answer: &Answer, buffers: &mut [Lent<u32>], values: &mut Lent<u32>) {
        let wrong = self.tables.wrong();
        if !wrong.is_empty() {
            fail(call, &format!("it returned {returned}, and {wrong:?} are not as they should be"), self);
        }
        let done = returned == 0;
        for (at, buffer) in buffers.iter_mut().enumerate() {
            if done {
                buffer.image()[..answer.lists[at].len()].copy_from_slice(&answer.lists[at]);
            }
            if !buffer.right() {
                let should: &[u32] = if done { &answer.lists[at] } else { &[] };
                fail(call, &format!("buffer {at} should have {should:?} and then what it held"), self);
            }
        }
        for at in 0..call.kind().fields.min(values.own()) {
            values.image()[at] = if done { answer.values[at] } else { 0 };
        }
        if !values.right() {
            fail(call, &format!("the values should be {:?}, and are {:?}", answer.values, values.now()), self);
        }
    }

    /// Does what an accepted call does: to the brute-force town, and to what the tables should hold.
    fn apply(&mut self, call: &Call) {
        if let Call::Open { shape, room } = *call {
            self.town = Brute::new(shape, room);
            self.state = State::Sound;
            self.tables.keep();
            let Capacities { zones, cars, entries } = room;
            self.tables.head.image().copy_from_slice(&[shape.k, shape.p, shape.q, zones, cars, entries]);
            for table in [&mut self.tables.zones, &mut self.tables.cars, &mut self.tables.spots] {
                table.image().fill(0);
            }
            self.tables.starts.image().fill(0);
            self.tables.entries.image().fill(layout::FREE);
            self.tables.rosters.image().fill(0);
            self.tables.tallies.image().fill(0);
            return;
        }
        self.town.apply(call);
        let (town, tables) = (&mut self.town, &mut self.tables);
        match *call {
            Call::Add { zone, r } => {
                tables.zones.image()[4 * zone as usize..][..4].copy_from_slice(&[r.a, r.b, r.w, r.h]);
                derive_zone(town, tables, zone);
            }
            Call::Remove { zone } => {
                tables.zones.image()[4 * zone as usize + 2] = 0;
                derive_zone(town, tables, zone);
            }
            Call::Ride { zone, .. } => {
                let r = town.zones[zone as usize].expect("a zone that rode stands");
                tables.zones.image()[4 * zone as usize..][..4].copy_from_slice(&[r.a, r.b, r.w, r.h]);
                derive_zone(town, tables, zone);
            }
            Call::Report { car, team, at } => {
                tables.cars.image()[car as usize] = 1 + team;
                tables.spots.image()[2 * car as usize..][..2].copy_from_slice(&at);
                derive_car(town, tables, car);
            }
            Call::Leave { car } => {
                tables.cars.image()[car as usize] = 0;
                derive_car(town, tables, car);
            }
            _ => {}
        }
    }

    /// Compares the derived tables of a sound town with their content worked out afresh.
    fn compare_afresh(&mut self) {
        let (starts, entries) = layout::lists(&mut self.town).expect("the keys fit");
        self.tables.lend(None);
        let tables = &self.tables;
        let same = tables.starts.now() == starts
            && tables.entries.now() == entries
            && tables.rosters.now() == layout::rosters(&self.town)
            && tables.tallies.now() == layout::tallies(&self.town);
        if !same {
            fail(&Call::Sound, "the derived tables are not what the records give afresh", self);
        }
    }

    /// Asks a sound town for the count and the holder of every zone number, and compares them with the cars that are found
    /// inside.
    fn compare_counts(&mut self) {
        self.tables.lend(None);
        for call in (0..self.town.room.zones).flat_map(|zone| [Call::Count { zone }, Call::Holder { zone }]) {
            let mut values = Lent::noise(call.kind().fields, &mut self.random);
            let returned = lent::drive(&call, &mut self.tables, &mut [], &mut values);
            let should = self.town.answer(&call, &[]);
            if returned != should.refusal || returned == 0 && values.now() != should.values {
                let got = format!("it returned {returned} with {:?}", values.now());
                fail(&call, &format!("{got}, and should give {should:?}"), self);
            }
        }
        if !self.tables.wrong().is_empty() {
            fail(&Call::Count { zone: 0 }, "asking for counts and holders changed a table", self);
        }
    }

    /// Changes one number of the tables and asks whether they are sound, then puts it back. A zone's changed number is told
    /// as it stands, and a car's changed team is its team.
    fn probe(&mut self) {
        let random = &mut self.random;
        let table = random.pick(&[1usize, CARS, CARS, 3, 4, 4, 5, 5, 6, 6, TALLIES, TALLIES]);
        let at = random.below(self.tables.own()[table] as u32) as usize;
        let change = random.below(6);
        let other = random.bits();
        let changed = move |old: u32| match change {
            0 => old.wrapping_add(1),
            1 => old.wrapping_sub(1),
            2 => old ^ 1 << (other % 32),
            3 => 0,
            4 => old.wrapping_add(256),
            _ => other,
        };
        self.tables.lend(None);
        self.state = State::Any;
        let old = self.tables.all()[table].get(at);
        self.tables.each()[table].put(at, changed(old));
        if !self.ask_sound() {
            self.unsound[table] += 1;
        }
        match table {
            TALLIES => {
                let zone = (at / TALLY) as u32;
                self.make(Call::Count { zone });
                self.make(Call::Holder { zone });
            }
            CARS => self.probe_team(at, old),
            _ => {}
        }
        self.tables.each()[table].put(at, old);
        self.tables.lend(None);
        self.state = State::Sound;
        self.town = layout::read(&self.tables).expect("sound tables pass check 3");
    }

    /// Reports a car whose team was changed, with its old team and with the changed one above 7. All are refused, so they
    /// change nothing.
    fn probe_team(&mut self, car: usize, old: u32) {
        let new = self.tables.cars.get(car);
        if old == 0 || new == 0 || new == old {
            return;
        }
        let at = [0, 1].map(|side| self.tables.spots.get(2 * car + side));
        self.make(Call::Report { car: car as u32, team: old - 1, at });
        if new - 1 > LAST_TEAM {
            self.make(Call::Report { car: car as u32, team: new - 1, at });
        }
    }

    /// Changes a number that means nothing, or the team of a car that no zone holds: the tables stay sound.
    fn stir(&mut self) {
        let random = &mut self.random;
        let (zone, car) = (random.below(self.town.room.zones) as usize, random.below(self.town.room.cars) as usize);
        if self.town.zones[zone].is_none() {
            self.tables.zones.put(4 * zone + random.pick(&[0, 1, 3]), random.bits());
        }
        match self.town.cars[car] {
            None => {
                let bits = if random.once_in(2) { calls::nan(random) } else { random.bits() };
                self.tables.spots.put(2 * car + random.below(2) as usize, bits);
            }
            Some(placed) => {
                let inside = (0..self.town.room.zones).any(|zone| self.town.in_zone(zone, car as u32));
                if !inside {
                    let team = random.below(LAST_TEAM + 1);
                    self.tables.cars.put(car, 1 + team);
                    self.town.cars[car] = Some(Car { team, ..placed });
                }
            }
        }
    }

    /// Asks whether the tables are sound, and counts how often they are and are not. Answers whether they are.
    fn ask_sound(&mut self) -> bool {
        self.tables.lend(None);
        let sound = layout::read(&self.tables).map(|mut town| layout::sound(&mut town, &self.tables));
        if let Some(sound) = sound {
            self.sound_said[sound as usize] += 1;
        }
        self.make(Call::Sound);
        sound == Some(true)
    }

    /// Writes noise into the tables: a few numbers, or whole tables; head mostly stays.
    fn spoil(&mut self) {
        self.state = State::Any;
        let random = &mut self.random;
        let whole = random.once_in(3);
        let own = self.tables.own();
        for table in 0..TABLES.len() {
            if table == 0 && !random.once_in(20) || table != 0 && random.once_in(2) {
                continue;
            }
            let times = if whole && table != 0 { own[table] } else { 1 + random.below(3) as usize };
            for turn in 0..times {
                let at = if times == own[table] { turn } else { random.below(own[table] as u32) as usize };
                let word = match random.below(4) {
                    0 if table == SPOTS && random.once_in(2) => calls::nan(random),
                    0 => random.bits(),
                    // mostly a team that a car may have
                    1..=2 if table == CARS => random.below(10),
                    1 => random.below(4),
                    2 => random.below(300),
                    _ => random.below(own[ENTRIES] as u32 + 2),
                };
                self.tables.each()[table].put(at, word);
            }
        }
    }

    /// Places cars on NaNs, in x or y or both, and asks where they are.
    fn place_on_nans(&mut self) {
        for _ in 0..8 {
            let random = &mut self.random;
            let car = random.below(self.tables.cars.own() as u32);
            let most = if random.once_in(3) { u32::MAX } else { 8 };
            self.tables.cars.put(car as usize, random.between(1, most));
            let first = 2 * car as usize;
            let which = random.between(1, 3);
            for side in 0..2 {
                if which >> side & 1 == 1 {
                    self.tables.spots.put(first + side, calls::nan(random));
                }
            }
            self.make(Call::Where { car });
        }
    }

    /// One town: calls on noise, an open, calls on sound tables, and at times calls on spoilt ones.
    fn live(&mut self, size: Size, last: u64) {
        let (shape, room) = (calls::shape(&mut self.random, size), calls::capacities(&mut self.random, size));
        self.tables = Tables::noise(layout::lengths(shape, room), &mut self.random);
        self.town = Brute::new(shape, room);
        self.state = State::Any;
        for _ in 0..3 {
            let call = calls::call(&mut self.random, &self.town);
            self.make(call);
        }
        // one of these may have opened it
        while self.state != State::Sound {
            self.make(Call::Open { shape, room });
        }
        self.live_sound(size, (self.made + 2000).min(last));
        if self.random.once_in(2) {
            self.live_spoilt((self.made + 500).min(last));
        }
    }

    fn live_sound(&mut self, size: Size, end: u64) {
        while self.made < end {
            let call = calls::call(&mut self.random, &self.town);
            self.make(call);
            if self.random.once_in(if size == Size::Large { 200 } else { 50 }) {
                self.probe();
            }
            if self.random.once_in(30) {
                self.stir();
            }
            if self.random.once_in(300) {
                self.compare_afresh();
                self.compare_counts();
            }
        }
        self.compare_afresh();
        self.compare_counts();
    }

    fn live_spoilt(&mut self, end: u64) {
        while self.made < end {
            if self.random.once_in(20) || self.state == State::Sound {
                self.spoil();
                self.ask_sound();
                if self.random.once_in(2) {
                    self.place_on_nans();
                }
            }
            let call = calls::call(&mut self.random, &self.town);
            self.make(call);
        }
    }

    fn run(&mut self, last: u64) {
        while self.made < last {
            let size = match self.random.below(10) {
                0 => Size::Large,
                1..=3 => Size::Middle,
                _ => Size::Small,
            };
            self.live(size, last);
        }
    }

    /// Prints how often each call got each number. Answers whether each that can be given was given.
    fn tell(&self) -> bool {
        let mut all = true;
        for (kind, seen) in KINDS.iter().zip(&self.seen) {
            print!("{:8} done {:8}", kind.name, seen[0]);
            for &refusal in kind.refusals {
                print!("   {refusal}: {}", seen[refusal as usize]);
                all &= seen[refusal as usize] > 0;
            }
            println!();
            all &= seen[0] > 0;
        }
        println!("of changed tables {} were sound and {} were not", self.sound_said[1], self.sound_said[0]);
        print!("unsound by one number changed in");
        for (name, times) in TABLES.iter().zip(self.unsound).skip(1) {
            print!("   {name}: {times}");
            all &= times > 0;
        }
        println!();
        let [plus, plus_quiet, minus, minus_quiet] = self.nans;
        println!("NaNs given back by where: +signalling {plus}, +quiet {plus_quiet}, -signalling {minus}, -quiet {minus_quiet}");
        let [east, north, past_east, past_north] = self.walls;
        println!(
            "at the walls: x = W {east}, y = H {north}; one float past them, refused: x {past_east}, y {past_north}"
        );
        let [above, other, stored] = self.teams;
        println!("teams refused: above 7 {above}, not the car's {other}, of a car with one above 7 {stored}");
        let [team, tie, none] = self.held;
        println!("zones held by a team {team}; by nobody: a tie {tie}, no car of a team {none}");
        let [still, part, whole, more, fewer, came, went] = self.rides;
        println!(
            "rides by nothing {still}; with squares in both cuts {part}, with none {whole}; to more entries {more}, to fewer {fewer}; \
             with cars that entered {came}, that left {went}"
        );
        let [some @ .., none] = self.scored;
        println!("positions that score, by the levels looked at, from 1 on: {some:?}; that do not: {none}");
        let counts =
            [&self.sound_said[..], &self.nans, &self.walls, &self.teams, &self.held, &self.rides, &self.scored];
        all && counts.into_iter().flatten().all(|&times| times > 0)
    }
}

/// What an added, removed or moved zone changes: its roster and its numbers, and all lists.
fn derive_zone(town: &mut Brute, tables: &mut Tables, zone: u32) {
    let (starts, entries) = layout::lists(town).expect("an accepted add or ride has room");
    tables.starts.image().copy_from_slice(&starts);
    tables.entries.image().copy_from_slice(&entries);
    for car in 0..town.room.cars {
        tables.rosters.image()[(zone * town.room.cars + car) as usize] = town.in_zone(zone, car) as u8;
    }
    derive_tally(town, tables, zone);
}

/// The numbers of a zone.
fn derive_tally(town: &Brute, tables: &mut Tables, zone: u32) {
    tables.tallies.image()[TALLY * zone as usize..][..TALLY].copy_from_slice(&town.tally(zone));
}

/// What a report or a leave changes: its car on all rosters, and the numbers of the zones whose roster changes.
fn derive_car(town: &Brute, tables: &mut Tables, car: u32) {
    for zone in 0..town.room.zones {
        let byte = &mut tables.rosters.image()[(zone * town.room.cars + car) as usize];
        let inside = town.in_zone(zone, car) as u8;
        if *byte != inside {
            *byte = inside;
            derive_tally(town, tables, zone);
        }
    }
}

fn main() {
    let mut words = env::args().skip(1);
    let mut word = |otherwise: u64| match words.next() {
        Some(word) => word.parse().unwrap_or_else(|_| {
            eprintln!("usage: check [calls] [seed]");
            process::exit(2)
        }),
        None => otherwise,
    };
    let (calls, seed) = (word(2_000_000), word(1));
    let mut check = Check::new(seed);
    check.run(calls);
    let all = check.tell();
    logs::run(&mut check.random, (calls / 50_000).max(1) as u32);
    println!(
        "{} calls with seed {seed}: all answers, values, buffers, tables and guards as they should be",
        check.made
    );
    if !all && calls >= 1_000_000 {
        println!("but something that is counted above never occurred");
        process::exit(1);
    }
}
