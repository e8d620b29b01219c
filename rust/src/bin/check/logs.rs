//! The log: cut anywhere and answered into buffers of any size, and on tables with noise in them.

use crate::calls::Call;
use crate::layout;
use crate::lent::{drive, Lent, Slice, Tables, STARTS};
use crate::random::Random;
use std::process;
use unwadegiro::Shape;

const LOG: &[u8] = include_bytes!("../../../../tests/long.log");
const ANSWERS: &[u8] = include_bytes!("../../../../tests/long.answers");
const LENGTHS: [usize; 8] = [6, 64, 64, 128, 5462, 2048, 1024, 160];
const HELD: usize = 82;
const LEAST: usize = 768;

/// Says what was wrong, and ends.
fn fail(what: &str) -> ! {
    println!("the log: {what}");
    process::exit(1)
}

struct Logs<'a> {
    random: &'a mut Random,
    tables: Tables,
    held: Lent<u8>,
    calls: u64,
    refused: [u64; 2],
    looked: u64,
}

/// What a call answered: the number returned, the values, and the buffer.
struct Turn {
    returned: u32,
    values: [usize; 2],
    out: Lent<u8>,
}

impl Logs<'_> {
    /// Tables, held bytes and a log of which nothing was read.
    fn begin(random: &mut Random) -> Logs<'_> {
        let mut tables = Tables::noise(LENGTHS, random);
        for table in tables.each() {
            (0..table.own()).for_each(|at| table.put(at, 0));
        }
        let mut held = Lent::noise(HELD, random);
        (0..HELD).for_each(|at| held.put(at, 0));
        Logs { random, tables, held, calls: 0, refused: [0; 2], looked: 0 }
    }

    /// Makes a call: with a piece of the log, or at its end without one.
    fn call(&mut self, piece: Option<&[u8]>, room: usize) -> Turn {
        let mut out = Lent::noise(room, self.random);
        out.lend(room, false);
        let mut values: Lent<usize> = Lent::noise(2, self.random);
        let returned = self.tables.log(piece, &mut self.held, &mut out, &mut values);
        self.calls += 1;
        let told = [values.now()[0], values.now()[1]];
        if !values.accept() {
            fail("it wrote beside the values");
        }
        Turn { returned, values: told, out }
    }

    /// Takes what a call wrote. The rest of the buffer, and all around what was lent, is as it was.
    fn take(&mut self, turn: &mut Turn, answers: &mut Vec<u8>) {
        let wrote = turn.values[1];
        let written =
            turn.out.now().get(..wrote).unwrap_or_else(|| fail("it wrote more than there is room for")).to_vec();
        turn.out.image()[..wrote].copy_from_slice(&written);
        if !turn.out.right() {
            fail("it wrote past its answers");
        }
        answers.extend(written);
        self.tables.accept_all();
        if !self.tables.wrong().is_empty() || !self.held.accept() {
            fail("it wrote beside the tables or the held bytes");
        }
    }

    fn room(&mut self) -> usize {
        match self.random.below(4) {
            0 => LEAST,
            1 => LEAST + self.random.below(800) as usize,
            2 => 4096,
            _ => LEAST + self.random.below(20000) as usize,
        }
    }

    /// A call that is refused: with a length that is wrong, or too many bytes said to be held, or a short buffer.
    fn refuse(&mut self) {
        let mut room = self.room();
        let (which, piece) = (self.random.below(10), b"D\t1\n");
        let count = self.held.get(HELD - 1);
        match which {
            0..=7 => {
                let own = LENGTHS[which as usize];
                let length = self.random.pick(&[0, own - 1, own + 1, own + 8]);
                self.tables.lend(Some((which as usize, length, false)));
            }
            8 => self.held.put(HELD - 1, self.random.between(82, 255)),
            _ => room = self.random.below(LEAST as u32) as usize,
        }
        if self.random.once_in(9) {
            self.held.lend(self.random.pick(&[0, 81, 83]), false);
        }
        let lent = self.held.len();
        let end = self.random.once_in(4);
        let turn = self.call(if end { None } else { Some(piece) }, room);
        let should = if which == 9 && lent == HELD { 11 } else { 3 };
        if turn.returned != should || turn.values != [0, 0] {
            fail(&format!(
                "it returned {} with {:?}, and should have refused with {should}",
                turn.returned, turn.values
            ));
        }
        if !self.tables.wrong().is_empty() || !self.held.right() || !turn.out.right() {
            fail("a refused call changed a byte");
        }
        self.refused[(should == 11) as usize] += 1;
        self.tables.lend(None);
        self.held.lend(HELD, false);
        self.held.put(HELD - 1, count);
    }

    /// Looks at the open town, if there is one: its tables are sound, every car has team 0, and each zone's count and the
    /// cars of each team are those that are found inside.
    fn look(&mut self) {
        let &[k, p, q, ..] = self.tables.head.now() else { unreachable!("head has six numbers") };
        if p == 0 {
            return;
        }
        self.tables.lend(Some((STARTS, layout::squares(Shape { k, p, q }) as usize + 1, false)));
        let mut town = layout::read(&self.tables).unwrap_or_else(|| fail("the open town does not pass check 3"));
        if !layout::sound(&mut town, &self.tables) {
            fail("the open town is not sound");
        }
        if town.cars.iter().flatten().any(|car| car.team != 0) {
            fail("a car has another team than 0");
        }
        for call in (0..town.room.zones).flat_map(|zone| [Call::Count { zone }, Call::Holder { zone }]) {
            let mut values = Lent::noise(call.kind().fields, self.random);
            let returned = drive(&call, &mut self.tables, &mut [], &mut values);
            let should = town.answer(&call, &[]);
            if returned != should.refusal || returned == 0 && values.now() != should.values {
                fail(&format!("{call:?} returned {returned} with {:?}, and should give {should:?}", values.now()));
            }
        }
        if !self.tables.wrong().is_empty() {
            fail("asking for the counts changed a table");
        }
        self.tables.lend(None);
        self.looked += 1;
    }

    /// The whole log, cut anywhere.
    fn whole(&mut self) {
        let mut answers = Vec::new();
        let mut rest = LOG;
        let most = self.random.pick(&[1, 3, 40, 300, 5000, 70000]);
        while !rest.is_empty() {
            let long = (self.random.below(most + 1) as usize).min(rest.len());
            let room = self.room();
            let mut turn = self.call(Some(&rest[..long]), room);
            if turn.returned != 0 || turn.values[0] > long || (long > 0 && turn.values[0] == 0) {
                fail(&format!("of {long} bytes it read {}", turn.values[0]));
            }
            self.take(&mut turn, &mut answers);
            rest = &rest[turn.values[0]..];
            let said = self.held.now()[HELD - 1] as usize;
            if said >= HELD || self.held.now()[said..HELD - 1].iter().any(|&byte| byte != 0) {
                fail("what is held is not followed by zeros");
            }
            if self.random.once_in(50) {
                self.refuse();
            }
            if self.random.once_in(100) {
                self.look();
            }
        }
        let room = self.room();
        let mut turn = self.call(None, room);
        self.take(&mut turn, &mut answers);
        self.look();
        if answers != ANSWERS {
            fail("the answers are not those that stand beside the log");
        }
        if self.held.now().iter().any(|&byte| byte != 0) {
            fail("something is held at the end");
        }
    }

    /// Calls on tables with noise in them: they end, and stay within what they are lent.
    fn noise(&mut self, times: u32) {
        for _ in 0..times {
            for (at, table) in self.tables.each().into_iter().enumerate() {
                for _ in 0..self.random.below(4) {
                    let place = self.random.below(LENGTHS[at] as u32) as usize;
                    let word = match self.random.below(3) {
                        0 => self.random.bits(),
                        1 => self.random.below(6),
                        _ => self.random.below(5000),
                    };
                    if at != 0 || self.random.once_in(20) {
                        table.put(place, word);
                    }
                }
            }
            let from = self.random.below(LOG.len() as u32) as usize;
            let long = (self.random.below(600) as usize).min(LOG.len() - from);
            let room = self.room();
            let mut turn = self.call(Some(&LOG[from..from + long]), room);
            if turn.returned != 0 || turn.values[0] > long {
                fail(&format!("on noise it returned {} and read {} of {long}", turn.returned, turn.values[0]));
            }
            self.take(&mut turn, &mut Vec::new());
        }
    }
}

/// Answers the long log cut in many ways, and calls on noise.
pub fn run(random: &mut Random, times: u32) {
    let mut made = [0; 4];
    for _ in 0..times {
        let mut logs = Logs::begin(random);
        logs.whole();
        logs.noise(200);
        let one = [logs.calls, logs.refused[0], logs.refused[1], logs.looked];
        made.iter_mut().zip(one).for_each(|(sum, one)| *sum += one);
    }
    let [calls, wrong, short, looked] = made;
    println!("log      done {:8}   3: {wrong}   11: {short}   looked into {looked} times", calls - wrong - short);
}
