//! Boost.Geometry's R-tree: a shared library that rtree/build makes, found when the benchmark runs.

use super::Engine;
use std::ffi::{c_char, c_int, c_void, CString};
use std::mem::transmute_copy;
use std::slice;
use unwadegiro::{Capacities, Position, Rectangle, Standing, Team};

const LIBRARY: &str = concat!(env!("CARGO_MANIFEST_DIR"), "/target/rtree/librtree.so");

/// What to do where there is no shared library.
pub const MISSING: &str = "The R-tree is left out: it needs a C++ compiler and Boost's headers (on Debian g++ and \
libboost-dev), and then `rtree/build`, run in `rust/`.";

extern "C" {
    fn dlopen(name: *const c_char, flags: c_int) -> *mut c_void;
    fn dlsym(library: *mut c_void, name: *const c_char) -> *mut c_void;
}

/// Every symbol is looked up at once.
const NOW: c_int = 2;

type Town = *mut c_void;

/// The functions of rtree.cpp. Lists lie in the town's own buffers, which stay where they are.
#[derive(Clone, Copy)]
struct Calls {
    free: unsafe extern "C" fn(Town),
    lists: unsafe extern "C" fn(Town, u32) -> *const u32,
    add: unsafe extern "C" fn(Town, u32, u32, u32, u32, u32),
    remove: unsafe extern "C" fn(Town, u32),
    // how many zones were entered, and in the high half how many left
    report: unsafe extern "C" fn(Town, u32, f32, f32) -> u64,
    search: unsafe extern "C" fn(Town, f32, f32) -> u32,
    scores: unsafe extern "C" fn(Town, f32, f32) -> u32,
    roster: unsafe extern "C" fn(Town, u32) -> u32,
    count: unsafe extern "C" fn(Town, u32) -> u32,
    holder: unsafe extern "C" fn(Town, u32, *mut u32) -> u32,
    place: unsafe extern "C" fn(Town, u32, *mut f32),
    clear: unsafe extern "C" fn(Town),
}

pub struct RTree {
    town: Town,
    calls: Calls,
    entered: *const u32,
    left: *const u32,
    listed: *const u32,
}

/// A function of the shared library.
///
/// SAFETY: the function has to have the type.
unsafe fn symbol<F>(library: *mut c_void, name: &str) -> F {
    let word = CString::new(name).expect("no zero in a name");
    let found = dlsym(library, word.as_ptr());
    assert!(!found.is_null(), "{LIBRARY} has no {name}: run rtree/build again");
    transmute_copy(&found)
}

impl RTree {
    /// None where the shared library is not there.
    pub fn new(room: Capacities) -> Option<RTree> {
        let name = CString::new(LIBRARY).expect("no zero in a path");
        // SAFETY: rtree.cpp gives its functions these types; it is loaded for good.
        unsafe {
            let library = dlopen(name.as_ptr(), NOW);
            if library.is_null() {
                return None;
            }
            let open: unsafe extern "C" fn(u32, u32) -> Town = symbol(library, "rtree_new");
            let town = open(room.zones, room.cars);
            let calls = Calls {
                free: symbol(library, "rtree_free"),
                lists: symbol(library, "rtree_list"),
                add: symbol(library, "rtree_add"),
                remove: symbol(library, "rtree_remove"),
                report: symbol(library, "rtree_report"),
                search: symbol(library, "rtree_search"),
                scores: symbol(library, "rtree_scores"),
                roster: symbol(library, "rtree_roster"),
                count: symbol(library, "rtree_count"),
                holder: symbol(library, "rtree_holder"),
                place: symbol(library, "rtree_where"),
                clear: symbol(library, "rtree_clear"),
            };
            let [entered, left, listed] = [0, 1, 2].map(|which| (calls.lists)(town, which));
            Some(RTree { town, calls, entered, left, listed })
        }
    }
}

impl Drop for RTree {
    fn drop(&mut self) {
        // SAFETY: the town is this engine's own.
        unsafe { (self.calls.free)(self.town) }
    }
}

/// Calls a function on the town.
///
/// SAFETY of every use: the town is this engine's own, zones and cars are below its capacities.
macro_rules! call {
    ($tree:ident.$call:ident($($rest:expr),*)) => {
        unsafe { ($tree.calls.$call)($tree.town $(, $rest)*) }
    };
}

impl RTree {
    fn given(&self, list: *const u32, many: u32) -> &[u32] {
        // SAFETY: the town's lists have room for what it says it wrote.
        unsafe { slice::from_raw_parts(list, many as usize) }
    }
}

impl Engine for RTree {
    fn name(&self) -> &'static str {
        "R-tree"
    }

    fn add(&mut self, zone: u32, r: Rectangle) {
        call!(self.add(zone, r.a, r.b, r.w, r.h))
    }

    fn remove(&mut self, zone: u32) {
        call!(self.remove(zone))
    }

    #[inline(always)]
    fn report(&mut self, car: u32, at: Position) -> (&[u32], &[u32]) {
        let many = call!(self.report(car, at.x, at.y));
        (self.given(self.entered, many as u32), self.given(self.left, (many >> 32) as u32))
    }

    fn search(&mut self, at: Position) -> &[u32] {
        let many = call!(self.search(at.x, at.y));
        self.given(self.entered, many)
    }

    fn scores(&self, at: Position) -> bool {
        call!(self.scores(at.x, at.y)) != 0
    }

    fn roster(&mut self, zone: u32) -> &[u32] {
        let many = call!(self.roster(zone));
        self.given(self.listed, many)
    }

    fn count(&self, zone: u32) -> u32 {
        call!(self.count(zone))
    }

    fn holder(&self, zone: u32) -> Standing {
        let mut cars = [0; 8];
        let holder = call!(self.holder(zone, cars.as_mut_ptr()));
        Standing { cars, holder: Team::new(holder).filter(|&team| team != Team::SPECTATOR) }
    }

    fn where_is(&self, car: u32) -> Position {
        let mut at = [0.0; 2];
        call!(self.place(car, at.as_mut_ptr()));
        Position { x: at[0], y: at[1] }
    }

    fn clear(&mut self) {
        call!(self.clear())
    }
}
