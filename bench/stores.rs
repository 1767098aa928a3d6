//! The loads of the program `churn` over the standard library's hash map, printed in the same words.
//!
//! stores LOAD ROOM LIVE PAIRS [time]; the map is made with room for so many orders.

use std::collections::HashMap;
use std::hint::black_box;
use std::time::Instant;

/// A million calls.
const PART: u64 = 500_000;

#[derive(Clone, Copy)]
enum Side {
    Buy,
    Sell,
}

#[derive(Clone, Copy)]
enum Display {
    Quoted,
    Unquoted,
}

#[derive(Clone, Copy)]
struct Order {
    id: u64,
    symbol: u64,
    side: Side,
    price: u64,
    shares: u64,
    display: Display,
}

impl Order {
    fn of(id: u64) -> Order {
        Order {
            id,
            symbol: id & 0x1fff,
            side: if id & 1 == 0 { Side::Buy } else { Side::Sell },
            price: id & 0xf_ffff,
            shares: id & 0x3ff,
            display: if id & 2 == 0 { Display::Quoted } else { Display::Unquoted },
        }
    }

    fn mixed(&self, sum: u64) -> u64 {
        let side = match self.side {
            Side::Buy => 1,
            Side::Sell => 2,
        };
        let display = match self.display {
            Display::Quoted => 4,
            Display::Unquoted => 8,
        };
        sum.wrapping_mul(31)
            .wrapping_add(self.id)
            .wrapping_add(self.symbol)
            .wrapping_add(self.price)
            .wrapping_add(self.shares)
            .wrapping_add(side)
            .wrapping_add(display)
    }
}

struct Random {
    state: u64,
}

impl Random {
    fn new() -> Random {
        Random { state: 0x9E37_79B9_7F4A_7C15 }
    }

    fn next(&mut self) -> u64 {
        let mut x = self.state;
        x ^= x >> 12;
        x ^= x << 25;
        x ^= x >> 27;
        self.state = x;
        x.wrapping_mul(0x2545_F491_4F6C_DD1D)
    }
}

#[derive(Clone, Copy, PartialEq)]
enum Load {
    Gaps,
    Queue,
    Rising,
    Scattered,
}

const LOADS: [Load; 4] = [Load::Gaps, Load::Queue, Load::Rising, Load::Scattered];

impl Load {
    fn name(self) -> &'static str {
        match self {
            Load::Gaps => "gaps",
            Load::Queue => "queue",
            Load::Rising => "rising",
            Load::Scattered => "scattered",
        }
    }
}

struct Feed {
    load: Load,
    random: Random,
    last: u64,
    turn: u64,
}

impl Feed {
    fn new(load: Load) -> Feed {
        Feed { load, random: Random::new(), last: 0, turn: 0 }
    }

    fn next_id(&mut self) -> u64 {
        self.last = match self.load {
            Load::Gaps => self.last.wrapping_add(self.random.next() % 40).wrapping_add(1),
            Load::Queue | Load::Rising => self.last.wrapping_add(1),
            Load::Scattered => self.random.next(),
        };
        self.last
    }

    fn exchange(&mut self, live: &mut [u64], id: u64) -> u64 {
        if live.is_empty() {
            return id;
        }
        let place = (self.next_death() % live.len() as u64) as usize;
        std::mem::replace(&mut live[place], id)
    }

    fn next_death(&mut self) -> u64 {
        if self.load == Load::Queue {
            self.turn += 1;
            return self.turn - 1;
        }
        self.random.next()
    }
}

#[derive(Default)]
struct Counts {
    added: u64,
    refused: u64,
    removed: u64,
    missed: u64,
    sum: u64,
}

impl Counts {
    fn fill(&mut self, map: &mut HashMap<u64, Order>, feed: &mut Feed, live: &mut [u64]) {
        for place in live {
            let id = feed.next_id();
            self.add(map, id);
            *place = id;
        }
    }

    fn churn(&mut self, map: &mut HashMap<u64, Order>, feed: &mut Feed, live: &mut [u64], pairs: u64) {
        for _ in 0..pairs {
            let id = feed.next_id();
            let old = feed.exchange(live, id);
            self.remove(map, old);
            self.add(map, id);
        }
    }

    fn add(&mut self, map: &mut HashMap<u64, Order>, id: u64) {
        match map.insert(id, Order::of(id)) {
            None => self.added += 1,
            Some(_) => self.refused += 1,
        }
    }

    fn remove(&mut self, map: &mut HashMap<u64, Order>, id: u64) {
        match map.remove(&id) {
            Some(order) => {
                self.removed += 1;
                self.sum = order.mixed(self.sum);
            }
            None => self.missed += 1,
        }
    }
}

struct Watch {
    asked: bool,
    start: Instant,
}

impl Watch {
    fn lap(&mut self, part: &str, calls: u64) {
        if self.asked {
            println!("(took {part} (calls {calls}) (ns {}))", self.start.elapsed().as_nanos());
            self.start = Instant::now();
        }
    }
}

/// How many records going through the map meets.
fn walk(map: &HashMap<u64, Order>) -> u64 {
    let mut met: u64 = 0;
    for order in map.values() {
        black_box(order);
        met = met.saturating_add(1);
    }
    met
}

fn run_load(load: Load, room: usize, live: &mut [u64], pairs: u64, asked: bool) {
    let mut feed = Feed::new(load);
    let mut counts = Counts::default();
    let mut map = HashMap::with_capacity(room);
    let mut watch = Watch { asked, start: Instant::now() };
    counts.fill(&mut map, &mut feed, live);
    watch.lap("fill", live.len() as u64);
    for first in (0..pairs).step_by(PART as usize) {
        let part = PART.min(pairs - first);
        counts.churn(&mut map, &mut feed, live, part);
        watch.lap("churn", part * 2);
    }
    let met = walk(&map);
    watch.lap("walk", met);
    map.retain(|id, _| id % 2 != 0);
    let swept = met - map.len() as u64;
    watch.lap("sweep", met);
    let kept = walk(&map);
    watch.lap("walk-kept", kept);
    map.clear();
    watch.lap("empty", 1);
    let left = walk(&map);
    watch.lap("walk-emptied", left);
    let Counts { added, refused, removed, missed, sum } = counts;
    println!(
        "({} (added {added}) (refused {refused}) (removed {removed}) (missed {missed}) (sum {sum}) (met {met}) (swept {swept}) (kept {kept}) (left {left}))",
        load.name()
    );
}

fn main() {
    let words: Vec<String> = std::env::args().collect();
    let size = |at: usize| words[at].parse::<u64>().expect("a size");
    let mut live = vec![0; size(3) as usize];
    for load in LOADS {
        if words[1] == "all" || words[1] == load.name() {
            run_load(load, size(2) as usize, &mut live, size(4), words.len() > 5);
        }
    }
}
