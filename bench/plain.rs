//! The report that the program `replay` prints of a day's file, by plain Rust over the standard library's hash map.
//!
//! plain [--reserve ORDERS EXECUTIONS SYMBOLS] [--answers] [--book SYMBOL] FILE
//!
//! With rooms reserved, the maps have them from the start, and need not grow.

mod digits;

use std::collections::HashMap;
use std::collections::hash_map::{Entry, OccupiedEntry};
use std::env;
use std::error::Error;
use std::fmt;
use std::fs::File;
use std::io::{self, BufRead, BufReader, BufWriter, Write};

use ledger::{Book, Ledger, Outcome, Rooms, Turnover};
use reader::Side;

/// Why a line is refused, as docs/REFUSALS.md numbers it.
#[derive(Clone, Copy)]
enum Fault {
    Cut,
    Unknown(u8),
    Length(u8),
    Byte { letter: u8, offset: usize },
    Range { letter: u8, offset: usize },
    Resting,
    Absent,
    Excess,
    Repeated,
    Unmatched,
    Broken,
    Closed,
}

impl Fault {
    fn number(self) -> usize {
        match self {
            Fault::Cut => 1,
            Fault::Unknown(_) => 2,
            Fault::Length(_) => 3,
            Fault::Byte { .. } => 4,
            Fault::Range { .. } => 5,
            Fault::Resting => 6,
            Fault::Absent => 7,
            Fault::Excess => 8,
            Fault::Repeated => 9,
            Fault::Unmatched => 10,
            Fault::Broken => 11,
            Fault::Closed => 13,
        }
    }
}

impl fmt::Display for Fault {
    fn fmt(&self, f: &mut fmt::Formatter<'_>) -> fmt::Result {
        let number = self.number();
        match *self {
            Fault::Unknown(byte) => write!(f, "(refused {number} ({byte}))"),
            Fault::Length(letter) => write!(f, "(refused {number} ({}))", letter as char),
            Fault::Byte { letter, offset } | Fault::Range { letter, offset } => {
                write!(f, "(refused {number} ({} {offset}))", letter as char)
            }
            _ => write!(f, "(refused {number})"),
        }
    }
}

mod lines {
    //! Splitting an input into its lines.

    use super::*;

    /// So many bytes of a line count.
    const MOST: usize = 255;

    /// Where the line ends, looked for in eight bytes at a time.
    fn line_end(bytes: &[u8]) -> Option<usize> {
        const ONES: u64 = u64::MAX / 255;
        const ENDS: u64 = ONES * b'\n' as u64;
        let (words, rest) = bytes.as_chunks();
        for (i, word) in words.iter().enumerate() {
            // a byte of zeros for each line end, whose lowest sets that byte's top bit and no lower one
            let differing = u64::from_le_bytes(*word) ^ ENDS;
            let ends = differing.wrapping_sub(ONES) & !differing & (ONES << 7);
            if ends != 0 {
                return Some(i * 8 + ends.trailing_zeros() as usize / 8);
            }
        }
        let i = rest.iter().position(|byte| *byte == b'\n')?;
        Some(words.len() * 8 + i)
    }

    fn front(line: &[u8], most: usize) -> &[u8] {
        &line[..line.len().min(most)]
    }

    /// Passes on each line where it stands in the buffer; one that goes over the buffer's end is put together first.
    pub fn each_line(input: &mut impl BufRead, mut pass: impl FnMut(&[u8]) -> io::Result<()>) -> io::Result<()> {
        let mut begun = Vec::with_capacity(MOST);
        loop {
            let buffer = input.fill_buf()?;
            if buffer.is_empty() {
                break;
            }
            let length = buffer.len();
            let mut rest = buffer;
            while let Some(end) = line_end(rest) {
                let line = &rest[..end];
                if begun.is_empty() {
                    pass(front(line, MOST))?;
                } else {
                    begun.extend_from_slice(front(line, MOST - begun.len()));
                    pass(&begun)?;
                    begun.clear();
                }
                rest = &rest[end + 1..];
            }
            begun.extend_from_slice(front(rest, MOST - begun.len()));
            input.consume(length);
        }
        if begun.is_empty() { Ok(()) } else { pass(&begun) }
    }
}

mod reader {
    //! Reading a line as a message.

    use super::digits::{DIGITS, NO_DIGIT};
    use super::*;

    #[derive(Clone, Copy, PartialEq)]
    pub enum Side {
        Buy,
        Sell,
    }

    pub struct Add {
        pub order: u64,
        pub side: Side,
        pub shares: u32,
        pub symbol: u64,
        pub price: u64,
    }

    pub struct Trade {
        pub execution: u64,
        pub shares: u32,
        pub symbol: u64,
        pub price: u64,
    }

    /// What a ledger goes by; all other fields are only checked.
    pub enum Message {
        Clear { symbol: u64 },
        Add(Add),
        Execution { order: u64, shares: u32, execution: u64 },
        Cancel { order: u64, shares: u32 },
        Trade(Trade),
        Break { execution: u64 },
    }

    /// A line of its kind's length `L`, whose fields are read by their offsets.
    struct Line<'a, const L: usize> {
        letter: u8,
        bytes: &'a [u8; L],
    }

    // The field readers are inlined by order, so that no offset needs a check.
    impl<'a, const L: usize> Line<'a, L> {
        fn new(letter: u8, line: &'a [u8]) -> Result<Self, Fault> {
            let bytes = line.try_into().map_err(|_| Fault::Length(letter))?;
            Ok(Line { letter, bytes })
        }

        #[inline(always)]
        fn field<const N: usize>(&self, offset: usize) -> &'a [u8; N] {
            self.bytes[offset..].first_chunk().expect("the field is in the line")
        }

        fn bad_byte(&self, offset: usize) -> Fault {
            Fault::Byte { letter: self.letter, offset }
        }

        #[cold]
        fn first_bad(&self, offset: usize, is_good: impl Fn(u8) -> bool) -> Fault {
            let good = self.bytes[offset..].iter().take_while(|byte| is_good(**byte)).count();
            self.bad_byte(offset + good)
        }

        #[inline(always)]
        fn decimal<const N: usize>(&self, offset: usize, low: u64, high: u64) -> Result<u64, Fault> {
            let mut value = 0;
            let mut all_digits = true;
            for byte in self.field::<N>(offset) {
                let digit = byte.wrapping_sub(b'0');
                all_digits &= digit < 10;
                value = value * 10 + u64::from(digit);
            }
            if !all_digits {
                Err(self.first_bad(offset, |byte| byte.is_ascii_digit()))
            } else if (low..=high).contains(&value) {
                Ok(value)
            } else {
                Err(Fault::Range { letter: self.letter, offset })
            }
        }

        #[inline(always)]
        fn time(&self) -> Result<u64, Fault> {
            self.decimal::<8>(0, 0, 86_399_999)
        }

        #[inline(always)]
        fn shares(&self, offset: usize) -> Result<u32, Fault> {
            Ok(self.decimal::<6>(offset, 1, 999_999)? as u32)
        }

        #[inline(always)]
        fn price(&self, offset: usize) -> Result<u64, Fault> {
            self.decimal::<10>(offset, 0, 9_999_999_999)
        }

        /// Twelve digits in base 36. Wrong ones are worth little enough for the number to stay in its type.
        #[inline(always)]
        fn id(&self, offset: usize) -> Result<u64, Fault> {
            let mut value = 0;
            let mut seen = 0;
            for byte in self.field::<12>(offset) {
                let digit = DIGITS[usize::from(*byte)];
                seen |= digit;
                value = value * 36 + u64::from(digit);
            }
            if seen & NO_DIGIT == 0 {
                Ok(value)
            } else {
                Err(self.first_bad(offset, |byte| DIGITS[usize::from(byte)] != NO_DIGIT))
            }
        }

        /// Bytes that `inside` allows, at least `least` of them, and then only spaces.
        #[inline(always)]
        fn padded<const N: usize>(&self, offset: usize, least: usize, inside: impl Fn(u8) -> bool) -> Result<&'a [u8; N], Fault> {
            let field = self.field::<N>(offset);
            let end = field.iter().position(|byte| !inside(*byte)).unwrap_or(N);
            if end < least {
                return Err(self.bad_byte(offset + end));
            }
            match field[end..].iter().position(|byte| *byte != b' ') {
                Some(i) => Err(self.bad_byte(offset + end + i)),
                None => Ok(field),
            }
        }

        #[inline(always)]
        fn symbol<const N: usize>(&self, offset: usize) -> Result<u64, Fault> {
            Ok(symbol_number(self.padded::<N>(offset, 1, |byte| byte.is_ascii_graphic())?))
        }

        fn participant(&self, offset: usize) -> Result<&'a [u8; 4], Fault> {
            self.padded(offset, 0, |byte| byte.is_ascii_uppercase())
        }

        fn side(&self, offset: usize) -> Result<Side, Fault> {
            match self.bytes[offset] {
                b'B' => Ok(Side::Buy),
                b'S' => Ok(Side::Sell),
                _ => Err(self.bad_byte(offset)),
            }
        }

        fn one_of(&self, offset: usize, letters: &[u8]) -> Result<u8, Fault> {
            let byte = self.bytes[offset];
            if letters.contains(&byte) { Ok(byte) } else { Err(self.bad_byte(offset)) }
        }

        /// With a symbol of `N` bytes.
        #[inline(always)]
        fn add<const N: usize>(&self) -> Result<Add, Fault> {
            self.time()?;
            let add = Add {
                order: self.id(9)?,
                side: self.side(21)?,
                shares: self.shares(22)?,
                symbol: self.symbol::<N>(28)?,
                price: self.price(28 + N)?,
            };
            self.one_of(38 + N, b"YN")?;
            Ok(add)
        }

        /// With a symbol of `N` bytes.
        #[inline(always)]
        fn trade<const N: usize>(&self) -> Result<Trade, Fault> {
            self.time()?;
            self.id(9)?;
            self.one_of(21, b"B")?;
            Ok(Trade {
                shares: self.shares(22)?,
                symbol: self.symbol::<N>(28)?,
                price: self.price(28 + N)?,
                execution: self.id(38 + N)?,
            })
        }
    }

    /// The number of a symbol: its bytes, filled up with spaces to eight, in base 256.
    fn symbol_number(name: &[u8]) -> u64 {
        let mut bytes = [b' '; 8];
        bytes[..name.len()].copy_from_slice(name);
        u64::from_be_bytes(bytes)
    }

    /// A symbol that is asked for, without the spaces at its end.
    pub fn symbol(name: &[u8]) -> Option<u64> {
        let is_symbol = (1..=8).contains(&name.len()) && name.iter().all(u8::is_ascii_graphic);
        is_symbol.then(|| symbol_number(name))
    }

    /// The message that the line is, or why it is none.
    pub fn read(line: &[u8]) -> Result<Message, Fault> {
        let letter = *line.get(8).ok_or(Fault::Cut)?;
        Ok(match letter {
            b's' => {
                let line = Line::<17>::new(letter, line)?;
                line.time()?;
                Message::Clear { symbol: line.symbol::<8>(9)? }
            }
            b'A' => Message::Add(Line::<45>::new(letter, line)?.add::<6>()?),
            b'd' => {
                let line = Line::<52>::new(letter, line)?;
                let add = line.add::<8>()?;
                line.participant(47)?;
                line.one_of(51, b"R ")?;
                Message::Add(add)
            }
            b'E' => {
                let line = Line::<39>::new(letter, line)?;
                line.time()?;
                Message::Execution { order: line.id(9)?, shares: line.shares(21)?, execution: line.id(27)? }
            }
            b'X' => {
                let line = Line::<27>::new(letter, line)?;
                line.time()?;
                Message::Cancel { order: line.id(9)?, shares: line.shares(21)? }
            }
            b'P' => Message::Trade(Line::<56>::new(letter, line)?.trade::<6>()?),
            b'r' => Message::Trade(Line::<58>::new(letter, line)?.trade::<8>()?),
            b'B' => {
                let line = Line::<21>::new(letter, line)?;
                line.time()?;
                Message::Break { execution: line.id(9)? }
            }
            _ => return Err(Fault::Unknown(letter)),
        })
    }
}

mod ledger {
    //! Keeping a day.

    use super::*;
    use reader::{Add, Message, Trade, read};

    /// So many messages are accepted at most.
    const DAY_LIMIT: u64 = 1_000_000_000;

    struct Order {
        symbol: u64,
        price: u64,
        shares: u32,
        side: Side,
    }

    struct Execution {
        symbol: u64,
        price: u64,
        shares: u32,
        broken: bool,
    }

    impl Execution {
        fn value(&self) -> u128 {
            u128::from(self.price) * u128::from(self.shares)
        }
    }

    /// What traded of a symbol, or of all: the value in ten-thousandths of a dollar.
    #[derive(Clone, Copy, Default)]
    pub struct Turnover {
        pub volume: u64,
        pub value: u128,
    }

    /// What rests on one side of a symbol.
    #[derive(Default)]
    pub struct Book {
        pub orders: u64,
        pub shares: u64,
        pub best: Option<u64>,
    }

    /// Orders taken off the book, and shares.
    #[derive(Default)]
    pub struct Outcome {
        pub orders: u64,
        pub shares: u64,
    }

    /// How many orders, executions and symbols there is room for at first.
    #[derive(Default)]
    pub struct Rooms {
        pub orders: usize,
        pub executions: usize,
        pub symbols: usize,
    }

    pub struct Ledger {
        orders: HashMap<u64, Order>,
        executions: HashMap<u64, Execution>,
        rows: HashMap<u64, Turnover>,
        accepted: u64,
    }

    impl Ledger {
        pub fn new(rooms: &Rooms) -> Ledger {
            Ledger {
                orders: HashMap::with_capacity(rooms.orders),
                executions: HashMap::with_capacity(rooms.executions),
                rows: HashMap::with_capacity(rooms.symbols),
                accepted: 0,
            }
        }

        pub fn put(&mut self, line: &[u8]) -> Result<Outcome, Fault> {
            let message = read(line)?;
            if self.accepted >= DAY_LIMIT {
                return Err(Fault::Closed);
            }
            let outcome = match message {
                Message::Clear { symbol } => self.clear(symbol),
                Message::Add(add) => self.add(add)?,
                Message::Execution { order, shares, execution } => self.execute(order, shares, execution)?,
                Message::Cancel { order, shares } => take(order_with(&mut self.orders, order, shares)?, shares),
                Message::Trade(trade) => self.trade(trade)?,
                Message::Break { execution } => self.break_trade(execution)?,
            };
            self.accepted += 1;
            Ok(outcome)
        }

        fn clear(&mut self, symbol: u64) -> Outcome {
            let mut outcome = Outcome::default();
            if !self.orders.is_empty() {
                self.orders.retain(|_, order| {
                    let rests = order.symbol != symbol;
                    if !rests {
                        outcome.orders += 1;
                        outcome.shares += u64::from(order.shares);
                    }
                    rests
                });
            }
            outcome
        }

        fn add(&mut self, add: Add) -> Result<Outcome, Fault> {
            let Add { order, side, shares, symbol, price } = add;
            let Entry::Vacant(place) = self.orders.entry(order) else {
                return Err(Fault::Resting);
            };
            place.insert(Order { symbol, price, shares, side });
            self.rows.entry(symbol).or_default();
            Ok(Outcome { orders: 0, shares: shares.into() })
        }

        fn execute(&mut self, order: u64, shares: u32, execution: u64) -> Result<Outcome, Fault> {
            let order = order_with(&mut self.orders, order, shares)?;
            let Entry::Vacant(place) = self.executions.entry(execution) else {
                return Err(Fault::Repeated);
            };
            let &Order { symbol, price, .. } = order.get();
            let execution = place.insert(Execution { symbol, price, shares, broken: false });
            count(&mut self.rows, execution);
            Ok(take(order, shares))
        }

        fn trade(&mut self, trade: Trade) -> Result<Outcome, Fault> {
            let Trade { execution, shares, symbol, price } = trade;
            let Entry::Vacant(place) = self.executions.entry(execution) else {
                return Err(Fault::Repeated);
            };
            let execution = place.insert(Execution { symbol, price, shares, broken: false });
            let volume = count(&mut self.rows, execution);
            Ok(Outcome { orders: 0, shares: volume })
        }

        fn break_trade(&mut self, execution: u64) -> Result<Outcome, Fault> {
            let execution = self.executions.get_mut(&execution).ok_or(Fault::Unmatched)?;
            if execution.broken {
                return Err(Fault::Broken);
            }
            execution.broken = true;
            let row = self.rows.get_mut(&execution.symbol).expect("an execution's symbol has a row");
            row.volume -= u64::from(execution.shares);
            row.value -= execution.value();
            Ok(Outcome { orders: 0, shares: row.volume })
        }

        pub fn accepted(&self) -> u64 {
            self.accepted
        }

        /// By rising symbol number.
        pub fn rows(&self) -> Vec<(u64, Turnover)> {
            let mut rows: Vec<_> = self.rows.iter().map(|(symbol, row)| (*symbol, *row)).collect();
            rows.sort_unstable_by_key(|(symbol, _)| *symbol);
            rows
        }

        pub fn market(&self) -> Turnover {
            self.rows.values().fold(Turnover::default(), |all, row| Turnover {
                volume: all.volume + row.volume,
                value: all.value + row.value,
            })
        }

        pub fn book(&self, symbol: u64, side: Side) -> Book {
            let mut book = Book::default();
            for order in self.orders.values().filter(|order| order.symbol == symbol && order.side == side) {
                book.orders += 1;
                book.shares += u64::from(order.shares);
                book.best = Some(book.best.map_or(order.price, |best| match side {
                    Side::Buy => best.max(order.price),
                    Side::Sell => best.min(order.price),
                }));
            }
            book
        }
    }

    /// The order, if it has so many shares left.
    fn order_with(orders: &mut HashMap<u64, Order>, id: u64, shares: u32) -> Result<OccupiedEntry<'_, u64, Order>, Fault> {
        match orders.entry(id) {
            Entry::Vacant(_) => Err(Fault::Absent),
            Entry::Occupied(order) if order.get().shares < shares => Err(Fault::Excess),
            Entry::Occupied(order) => Ok(order),
        }
    }

    /// Takes shares off the order, and with the last of them the order off the book.
    fn take(mut order: OccupiedEntry<'_, u64, Order>, shares: u32) -> Outcome {
        let left = order.get().shares - shares;
        if left == 0 {
            order.remove();
            Outcome { orders: 1, shares: 0 }
        } else {
            order.get_mut().shares = left;
            Outcome { orders: 0, shares: left.into() }
        }
    }

    /// Adds an execution to the row of its symbol; the answer is the row's volume.
    fn count(rows: &mut HashMap<u64, Turnover>, execution: &Execution) -> u64 {
        let row = rows.entry(execution.symbol).or_default();
        row.volume += u64::from(execution.shares);
        row.value += execution.value();
        row.volume
    }
}

mod report {
    //! Printing what was kept.

    use super::*;

    /// A value is printed in two parts, the low one below this.
    const LOW_END: u128 = 10_000_000_000_000_000;

    struct Average(Turnover);

    impl fmt::Display for Average {
        fn fmt(&self, f: &mut fmt::Formatter<'_>) -> fmt::Result {
            let Turnover { volume, value } = self.0;
            if volume == 0 {
                return f.write_str("none");
            }
            let volume = u128::from(volume);
            let nearest = (2 * value + volume) / (2 * volume);
            write!(f, "{}.{:04}", nearest / 10_000, nearest % 10_000)
        }
    }

    impl fmt::Display for Turnover {
        fn fmt(&self, f: &mut fmt::Formatter<'_>) -> fmt::Result {
            let Turnover { volume, value } = self;
            let (high, low) = (value / LOW_END, value % LOW_END);
            write!(f, "(volume {volume}) (value {high} {low}) (average {})", Average(*self))
        }
    }

    impl fmt::Display for Book {
        fn fmt(&self, f: &mut fmt::Formatter<'_>) -> fmt::Result {
            write!(f, "(orders {}) (shares {}) ", self.orders, self.shares)?;
            match self.best {
                Some(price) => write!(f, "(best {price})"),
                None => f.write_str("(best none)"),
            }
        }
    }

    struct Symbol(u64);

    impl fmt::Display for Symbol {
        fn fmt(&self, f: &mut fmt::Formatter<'_>) -> fmt::Result {
            let bytes = self.0.to_be_bytes();
            f.write_str(String::from_utf8_lossy(&bytes).trim_end())
        }
    }

    /// How many lines came, and how many were refused by each number.
    #[derive(Default)]
    pub struct Tally {
        pub lines: u64,
        pub refused: [u64; 14],
    }

    pub fn answer(number: u64, answer: &Result<Outcome, Fault>, output: &mut impl Write) -> io::Result<()> {
        match answer {
            Ok(Outcome { orders, shares }) => writeln!(output, "(line {number} (took {orders} {shares}))"),
            Err(fault) => writeln!(output, "(line {number} {fault})"),
        }
    }

    pub fn totals(ledger: &Ledger, tally: &Tally, book: Option<u64>, output: &mut impl Write) -> io::Result<()> {
        for (symbol, row) in ledger.rows() {
            writeln!(output, "(symbol {} {row})", Symbol(symbol))?;
        }
        writeln!(output, "(market {})", ledger.market())?;
        if let Some(symbol) = book {
            for (letter, side) in [('B', Side::Buy), ('S', Side::Sell)] {
                writeln!(output, "(book {} {letter} {})", Symbol(symbol), ledger.book(symbol, side))?;
            }
        }
        writeln!(output, "(lines {} (accepted {}))", tally.lines, ledger.accepted())?;
        for (number, times) in tally.refused.iter().enumerate().filter(|(_, times)| **times > 0) {
            writeln!(output, "(refused {number} (times {times}))")?;
        }
        Ok(())
    }
}

#[derive(Default)]
struct Options {
    rooms: Rooms,
    answers: bool,
    book: Option<u64>,
    file: String,
}

const USAGE: &str = "usage: plain [--reserve ORDERS EXECUTIONS SYMBOLS] [--answers] [--book SYMBOL] FILE";

fn options() -> Result<Options, Box<dyn Error>> {
    let mut words = env::args().skip(1);
    let mut options = Options::default();
    loop {
        let mut word = || words.next().ok_or(USAGE);
        match word()?.as_str() {
            "--reserve" => {
                options.rooms = Rooms { orders: word()?.parse()?, executions: word()?.parse()?, symbols: word()?.parse()? }
            }
            "--answers" => options.answers = true,
            "--book" => options.book = Some(reader::symbol(word()?.as_bytes()).ok_or("no symbol")?),
            option if option.starts_with("--") => return Err(USAGE.into()),
            file => {
                options.file = file.to_owned();
                return if words.next().is_none() { Ok(options) } else { Err(USAGE.into()) };
            }
        }
    }
}

fn main() -> Result<(), Box<dyn Error>> {
    let options = options()?;
    let mut input = BufReader::with_capacity(64 << 10, File::open(&options.file)?);
    let mut output = BufWriter::with_capacity(64 << 10, io::stdout().lock());
    let mut ledger = Ledger::new(&options.rooms);
    let mut tally = report::Tally::default();
    lines::each_line(&mut input, |line| {
        let answer = ledger.put(line);
        tally.lines += 1;
        if let Err(fault) = answer {
            tally.refused[fault.number()] += 1;
        }
        if options.answers { report::answer(tally.lines, &answer, &mut output) } else { Ok(()) }
    })?;
    report::totals(&ledger, &tally, options.book, &mut output)?;
    Ok(output.flush()?)
}
