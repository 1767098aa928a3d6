//! Makes a trading day: lines laid out as docs/FORMAT.md says, each ended by 0x0A, and the same ones in every run.
//!
//! make-day LINES [SEED [SYMBOLS]]
//!
//! The day opens with clears. Then the book grows to its full size and stays there: orders come with rising IDs and die at random. Ten lines in a
//! hundred thousand are damaged, or ask for what the day does not have.

use std::collections::HashSet;
use std::env;
use std::error::Error;
use std::io::{self, BufWriter, Write};

const SYMBOLS: usize = 8_000;
const MOST_CLEARS: u64 = 10_000;
const MOST_LIVE: u64 = 100_000;

const OPENING: u64 = 28_800_000;
const CLOSING: u64 = 57_600_000;

/// Both kinds of ID go on from a prefix of their own, so that no Order ID is an Execution ID.
const ORDERS_BEFORE: &[u8; 12] = b"2M1QXA000000";
const EXECUTIONS_BEFORE: &[u8; 12] = b"2M1QZ0000000";
/// The step from an ID to the next one.
const MOST_STEP: u64 = 40;

/// No order has the most shares that a line gives, so that these are always too many.
const TOO_MANY: u64 = 999_999;

const DIGITS: &[u8; 36] = b"0123456789ABCDEFGHIJKLMNOPQRSTUVWXYZ";

/// A small generator (xorshift).
struct Random(u64);

impl Random {
    fn new(seed: u64) -> Random {
        // zero would stay zero
        Random((seed ^ 0x9E37_79B9_7F4A_7C15).max(1))
    }

    fn next(&mut self) -> u64 {
        self.0 ^= self.0 >> 12;
        self.0 ^= self.0 << 25;
        self.0 ^= self.0 >> 27;
        self.0.wrapping_mul(0x2545_F491_4F6C_DD1D) >> 32
    }

    /// A number below an end of at most 2^32.
    fn below(&mut self, end: u64) -> u64 {
        (self.next() * end) >> 32
    }

    fn among(&mut self, least: u64, most: u64) -> u64 {
        least + self.below(most - least + 1)
    }

    /// Whether something happens that does so many times in a hundred.
    fn happens(&mut self, percent: u64) -> bool {
        self.below(100) < percent
    }

    fn place<T>(&mut self, items: &[T]) -> usize {
        self.below(items.len() as u64) as usize
    }

    fn pick<T: Copy>(&mut self, items: &[T]) -> T {
        items[self.place(items)]
    }
}

/// A line that is written field by field.
struct Line {
    bytes: [u8; 64],
    length: usize,
}

impl Line {
    fn new(time: u64, letter: u8) -> Line {
        let mut line = Line { bytes: [0; 64], length: 0 };
        line.number(10, 8, time);
        line.byte(letter);
        line
    }

    fn byte(&mut self, byte: u8) {
        self.bytes[self.length] = byte;
        self.length += 1;
    }

    fn number(&mut self, base: u64, width: usize, mut value: u64) {
        for place in self.bytes[self.length..][..width].iter_mut().rev() {
            *place = DIGITS[(value % base) as usize];
            value /= base;
        }
        self.length += width;
    }

    fn id(&mut self, id: u64) {
        self.number(36, 12, id);
    }

    fn shares(&mut self, shares: u64) {
        self.number(10, 6, shares);
    }

    fn price(&mut self, price: u64) {
        self.number(10, 10, price);
    }

    fn padded(&mut self, name: &[u8], width: usize) {
        let field = &mut self.bytes[self.length..][..width];
        field.fill(b' ');
        field[..name.len()].copy_from_slice(name);
        self.length += width;
    }

    fn end(&mut self) -> &[u8] {
        self.byte(b'\n');
        &self.bytes[..self.length]
    }
}

struct Symbol {
    name: Vec<u8>,
    /// in cents
    price: u64,
}

impl Symbol {
    fn new(random: &mut Random, name: Vec<u8>) -> Symbol {
        let most = random.pick(&[1_000, 5_000, 20_000, 50_000]);
        Symbol { name, price: random.among(100, most) }
    }

    /// Whether the name needs the long field.
    fn is_long(&self) -> bool {
        self.name.len() > 6
    }

    /// Goes a cent up or down, or stays.
    fn walk(&mut self, random: &mut Random) -> u64 {
        self.price = near(self.price - 1 + random.below(3));
        self.price
    }
}

/// The nearest price in cents that a symbol may have.
fn near(price: u64) -> u64 {
    price.clamp(100, 50_000)
}

fn letters(random: &mut Random, count: usize) -> Vec<u8> {
    (0..count).map(|_| b'A' + random.below(26) as u8).collect()
}

/// One in sixty is too long for the short field.
fn name(random: &mut Random) -> Vec<u8> {
    let (count, suffix) = match random.below(1_000) {
        0..6 => (4, ".WS"),
        6..12 => (4, ".WSA"),
        12..17 => (4, "-PRD"),
        17..30 => (3, ".A"),
        30..40 => (3, ".B"),
        40..50 => (3, "-PD"),
        50..53 => (1, ""),
        53..90 => (2, ""),
        90..500 => (3, ""),
        500..910 => (4, ""),
        910..960 => (5, ""),
        _ => (6, ""),
    };
    let mut name = letters(random, count);
    name.extend_from_slice(suffix.as_bytes());
    name
}

fn symbols(random: &mut Random, count: usize) -> Vec<Symbol> {
    let mut taken = HashSet::new();
    let mut symbols = Vec::new();
    while symbols.len() < count {
        let name = name(random);
        if taken.insert(name.clone()) {
            symbols.push(Symbol::new(random, name));
        }
    }
    symbols
}

/// An order's ID and the shares left of it.
#[derive(Clone, Copy)]
struct Order {
    id: u64,
    left: u64,
}

#[derive(Clone, Copy)]
enum Kind {
    Add,
    Execution,
    Cancel,
    Trade,
    Break,
    BreakAgain,
    Fault,
}

/// What is wrong with a line.
#[derive(Clone, Copy)]
enum Fault {
    Cut,
    Letter,
    Length,
    Byte,
    NoShares,
    Resting,
    Absent,
    Excess,
    Repeated,
    Unmatched,
}

const EACH_FAULT: [Fault; 10] = [
    Fault::Cut,
    Fault::Letter,
    Fault::Length,
    Fault::Byte,
    Fault::NoShares,
    Fault::Resting,
    Fault::Absent,
    Fault::Excess,
    Fault::Repeated,
    Fault::Unmatched,
];

/// What is behind the lines given so far.
struct Day {
    random: Random,
    symbols: Vec<Symbol>,
    most_live: usize,
    grown: bool,
    live: Vec<Order>,
    /// the Execution IDs that can be broken, and those that are
    traded: Vec<u64>,
    broken: Vec<u64>,
    last_order: u64,
    last_dead: u64,
    last_execution: u64,
}

impl Day {
    fn new(mut random: Random, symbol_count: usize, most_live: usize) -> Day {
        let symbols = symbols(&mut random, symbol_count);
        let before_orders = id_of(ORDERS_BEFORE);
        Day {
            random,
            symbols,
            most_live,
            grown: false,
            live: Vec::new(),
            traded: Vec::new(),
            broken: Vec::new(),
            last_order: before_orders,
            last_dead: before_orders,
            last_execution: id_of(EXECUTIONS_BEFORE),
        }
    }

    fn next_line(&mut self, time: u64) -> Line {
        match self.kind() {
            Kind::Add => self.add(time),
            Kind::Execution => self.execution(time),
            Kind::Cancel => self.cancel(time),
            Kind::Trade => self.trade(time),
            Kind::Break => self.trade_break(time),
            Kind::BreakAgain => break_of(time, self.random.pick(&self.broken)),
            Kind::Fault => {
                let fault = self.random.pick(&EACH_FAULT);
                self.faulty(time, fault)
            }
        }
    }

    /// The next line's kind: an add where the day has nothing for another.
    fn kind(&mut self) -> Kind {
        self.grown |= self.live.len() >= self.most_live;
        let (adds_end, executions_end) = if self.grown { (40_000, 58_000) } else { (80_000, 89_000) };
        let kind = match self.random.below(100_000) {
            95_968..99_968 => Kind::Trade,
            99_968..99_988 => Kind::Break,
            99_988..99_990 => Kind::BreakAgain,
            99_990.. => Kind::Fault,
            place if place < adds_end => Kind::Add,
            place if place < executions_end => Kind::Execution,
            _ => Kind::Cancel,
        };
        let possible = match kind {
            Kind::Add | Kind::Trade => true,
            Kind::Execution | Kind::Cancel => !self.live.is_empty(),
            Kind::Break => !self.traded.is_empty(),
            Kind::BreakAgain => !self.broken.is_empty(),
            Kind::Fault => !self.live.is_empty() && !self.traded.is_empty(),
        };
        if possible { kind } else { Kind::Add }
    }

    /// By a uniform number's cube, so that a few symbols have most of the lines.
    fn symbol(&mut self) -> usize {
        let uniform = self.random.next();
        let cube = (uniform * uniform >> 32) * uniform >> 32;
        (cube * self.symbols.len() as u64 >> 32) as usize
    }

    fn next_order(&mut self) -> u64 {
        self.last_order += self.random.among(1, MOST_STEP);
        self.last_order
    }

    fn next_execution(&mut self) -> u64 {
        self.last_execution += self.random.among(1, MOST_STEP);
        self.traded.push(self.last_execution);
        self.last_execution
    }

    fn shares(&mut self) -> u64 {
        match self.random.below(1_000) {
            0..750 => 100 * self.random.among(1, 10),
            750..940 => self.random.among(1, 99),
            940..999 => 100 * self.random.among(11, 200),
            _ => self.random.among(1, TOO_MANY - 1),
        }
    }

    fn add(&mut self, time: u64) -> Line {
        let id = self.next_order();
        let left = self.shares();
        self.live.push(Order { id, left });
        self.add_of(time, id, left)
    }

    fn add_of(&mut self, time: u64, id: u64, shares: u64) -> Line {
        let at = self.symbol();
        let random = &mut self.random;
        let symbol = &mut self.symbols[at];
        let middle = symbol.walk(random);
        let away = random.below(20);
        let (side, price) = if random.happens(50) { (b'B', near(middle - away)) } else { (b'S', near(middle + 1 + away)) };
        let display = if random.happens(95) { b'Y' } else { b'N' };
        let is_long = symbol.is_long() || random.below(8) == 0;
        let mut line = Line::new(time, if is_long { b'd' } else { b'A' });
        line.id(id);
        line.byte(side);
        line.shares(shares);
        line.padded(&symbol.name, if is_long { 8 } else { 6 });
        line.price(price * 100);
        line.byte(display);
        if is_long {
            line.padded(random.pick(&[b"".as_slice(), b"ABCD", b"MMKR", b"XYZ"]), 4);
            line.byte(random.pick(b"R "));
        }
        line
    }

    fn execution(&mut self, time: u64) -> Line {
        let at = self.random.place(&self.live);
        let Order { id, left } = self.live[at];
        let shares = if self.random.happens(38) { left } else { self.part(left) };
        self.take(at, shares);
        let execution = self.next_execution();
        execution_of(time, id, shares, execution)
    }

    /// A full book loses an order by nearly each cancel, and by none while there is room in it.
    fn cancel(&mut self, time: u64) -> Line {
        let at = self.random.place(&self.live);
        let Order { id, left } = self.live[at];
        let is_full = self.live.len() >= self.most_live && self.random.happens(95);
        let shares = if is_full { left } else { self.part(left) };
        self.take(at, shares);
        cancel_of(time, id, shares)
    }

    /// Fewer shares than are left, in lots of a hundred where there are more; of one share that one.
    fn part(&mut self, left: u64) -> u64 {
        match left {
            1 => 1,
            2..=100 => self.random.among(1, left - 1),
            _ => 100 * self.random.among(1, (left - 1) / 100),
        }
    }

    fn take(&mut self, at: usize, shares: u64) {
        let order = &mut self.live[at];
        order.left -= shares;
        if order.left == 0 {
            self.last_dead = self.live.swap_remove(at).id;
        }
    }

    /// Of an order that was never shown.
    fn trade(&mut self, time: u64) -> Line {
        let order = self.next_order();
        let execution = self.next_execution();
        self.trade_of(time, order, execution)
    }

    fn trade_of(&mut self, time: u64, order: u64, execution: u64) -> Line {
        let at = self.symbol();
        let shares = self.shares();
        let random = &mut self.random;
        let symbol = &self.symbols[at];
        let is_long = symbol.is_long() || random.below(10) == 0;
        // one in four at half a cent
        let price = symbol.price * 100 + if random.happens(25) { 50 } else { 0 };
        let mut line = Line::new(time, if is_long { b'r' } else { b'P' });
        line.id(order);
        line.byte(b'B');
        line.shares(shares);
        line.padded(&symbol.name, if is_long { 8 } else { 6 });
        line.price(price);
        line.id(execution);
        line
    }

    fn trade_break(&mut self, time: u64) -> Line {
        let at = self.random.place(&self.traded);
        let execution = self.traded.swap_remove(at);
        self.broken.push(execution);
        break_of(time, execution)
    }

    /// A line that is refused, and so leaves the day as it was.
    fn faulty(&mut self, time: u64, fault: Fault) -> Line {
        let Order { id, .. } = self.random.pick(&self.live);
        let execution = self.random.pick(&self.traded);
        match fault {
            Fault::Cut => {
                let mut line = self.add_of(time, id, 100);
                line.length = self.random.among(1, 8) as usize;
                line
            }
            Fault::Letter => {
                let mut line = cancel_of(time, id, 100);
                line.bytes[8] = self.random.pick(b"HIVZa");
                line
            }
            Fault::Length => {
                let mut line = execution_of(time, id, 100, execution);
                if self.random.happens(50) {
                    line.byte(b'0');
                } else {
                    line.length -= 1;
                }
                line
            }
            Fault::Byte => {
                let mut line = self.add_of(time, id, 100);
                // in the time, the Order ID, the side, the shares and the price
                let at = self.random.pick(&[7, 9, 20, 21, 24, 37]);
                line.bytes[at] = b'o';
                line
            }
            Fault::NoShares => cancel_of(time, id, 0),
            Fault::Resting => self.add_of(time, id, 100),
            Fault::Absent => execution_of(time, self.last_dead, 100, self.last_execution + 1),
            Fault::Excess => cancel_of(time, id, TOO_MANY),
            Fault::Repeated if self.random.happens(50) => self.trade_of(time, id, execution),
            Fault::Repeated => execution_of(time, id, 1, execution),
            Fault::Unmatched => break_of(time, id),
        }
    }
}

fn id_of(digits: &[u8; 12]) -> u64 {
    let worth = |digit: &u8| DIGITS.iter().position(|d| d == digit).expect("a digit") as u64;
    digits.iter().fold(0, |id, digit| id * 36 + worth(digit))
}

fn clear_of(time: u64, symbol: &Symbol) -> Line {
    let mut line = Line::new(time, b's');
    line.padded(&symbol.name, 8);
    line
}

fn execution_of(time: u64, order: u64, shares: u64, execution: u64) -> Line {
    let mut line = Line::new(time, b'E');
    line.id(order);
    line.shares(shares);
    line.id(execution);
    line
}

fn cancel_of(time: u64, order: u64, shares: u64) -> Line {
    let mut line = Line::new(time, b'X');
    line.id(order);
    line.shares(shares);
    line
}

fn break_of(time: u64, execution: u64) -> Line {
    let mut line = Line::new(time, b'B');
    line.id(execution);
    line
}

fn make(lines: u64, seed: u64, symbol_count: usize, output: &mut impl Write) -> io::Result<()> {
    let most_live = MOST_LIVE.min(lines / 8).max(1);
    let mut day = Day::new(Random::new(seed), symbol_count, most_live as usize);
    let clears = MOST_CLEARS.min(lines / 10);
    for symbol in day.symbols.iter().cycle().take(clears as usize) {
        output.write_all(clear_of(OPENING, symbol).end())?;
    }
    for number in clears..lines {
        let time = OPENING + (CLOSING - OPENING) * number / lines;
        output.write_all(day.next_line(time).end())?;
    }
    output.flush()
}

fn main() -> Result<(), Box<dyn Error>> {
    let words: Vec<String> = env::args().skip(1).collect();
    let number = |at: usize| words.get(at).map(|word| word.parse::<u64>()).transpose();
    let lines = number(0)?.ok_or("usage: make-day LINES [SEED [SYMBOLS]]")?;
    let seed = number(1)?.unwrap_or(0);
    let symbol_count = number(2)?.map_or(SYMBOLS, |count| count.max(1) as usize);
    let mut output = BufWriter::with_capacity(1 << 20, io::stdout().lock());
    Ok(make(lines, seed, symbol_count, &mut output)?)
}
