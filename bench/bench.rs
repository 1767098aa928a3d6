//! Measures the proved reader against plain Rust on a million mixed lines, in one run.
//!
//! Both read every field of every line and fold it into one checksum; the checksums are compared on the valid lines and on
//! damaged ones before anything is timed.

mod digits;

use std::hint::black_box;
use std::time::{Duration, Instant};

mod proved {
    unsafe extern "C" {
        // `read_capture(buf: &[u8]) -> u64` of the crate `speed`: a slice passes as a pointer and a length.
        fn read_capture(start: *const u8, length: usize) -> u64;
    }

    /// The checksum of the buffer's lines. The call requires nothing of its argument.
    pub fn checksum(buf: &[u8]) -> u64 {
        unsafe { read_capture(buf.as_ptr(), buf.len()) }
    }
}

mod plain {
    //! The same reader in plain Rust.

    use super::digits::{DIGITS, NO_DIGIT};

    #[derive(Clone, Copy, Debug, PartialEq, Eq)]
    pub enum Fault {
        Cut,
        Unknown(u8),
        Length(u8),
        Byte { letter: u8, offset: usize },
        Range { letter: u8, offset: usize },
    }

    #[derive(Clone, Copy, Debug, PartialEq, Eq)]
    pub enum Side {
        Buy,
        Sell,
    }

    #[derive(Clone, Copy, Debug, PartialEq, Eq)]
    pub enum Display {
        Shown,
        Hidden,
    }

    #[derive(Clone, Copy, Debug, PartialEq, Eq)]
    pub enum Customer {
        Retail,
        Blank,
    }

    #[derive(Clone, Copy, Debug, PartialEq, Eq)]
    pub struct Clear {
        pub time: u64,
        pub symbol: u64,
    }

    #[derive(Clone, Copy, Debug, PartialEq, Eq)]
    pub struct Add {
        pub time: u64,
        pub order: u64,
        pub side: Side,
        pub shares: u64,
        pub symbol: u64,
        pub price: u64,
        pub display: Display,
    }

    #[derive(Clone, Copy, Debug, PartialEq, Eq)]
    pub struct LongAdd {
        pub add: Add,
        pub participant: u64,
        pub customer: Customer,
    }

    #[derive(Clone, Copy, Debug, PartialEq, Eq)]
    pub struct Execution {
        pub time: u64,
        pub order: u64,
        pub shares: u64,
        pub execution: u64,
    }

    #[derive(Clone, Copy, Debug, PartialEq, Eq)]
    pub struct Cancel {
        pub time: u64,
        pub order: u64,
        pub shares: u64,
    }

    #[derive(Clone, Copy, Debug, PartialEq, Eq)]
    pub struct Trade {
        pub time: u64,
        pub order: u64,
        pub side: Side,
        pub shares: u64,
        pub symbol: u64,
        pub price: u64,
        pub execution: u64,
    }

    #[derive(Clone, Copy, Debug, PartialEq, Eq)]
    pub struct Break {
        pub time: u64,
        pub execution: u64,
    }

    #[derive(Clone, Copy, Debug, PartialEq, Eq)]
    pub enum Message {
        Clear(Clear),
        AddShort(Add),
        AddLong(LongAdd),
        Executed(Execution),
        Cancel(Cancel),
        TradeShort(Trade),
        TradeLong(Trade),
        Break(Break),
    }

    /// A line of its kind's length, whose fields are read by their offsets.
    struct Line<'a> {
        letter: u8,
        bytes: &'a [u8],
    }

    impl<'a> Line<'a> {
        fn field<const N: usize>(&self, offset: usize) -> &'a [u8; N] {
            self.bytes[offset..].first_chunk().expect("the line has its kind's length")
        }

        fn bad_byte(&self, offset: usize) -> Fault {
            Fault::Byte { letter: self.letter, offset }
        }

        fn decimal<const N: usize>(&self, offset: usize, low: u64, high: u64) -> Result<u64, Fault> {
            let mut value = 0;
            for (i, byte) in self.field::<N>(offset).iter().enumerate() {
                match byte {
                    b'0'..=b'9' => value = value * 10 + u64::from(byte - b'0'),
                    _ => return Err(self.bad_byte(offset + i)),
                }
            }
            if (low..=high).contains(&value) {
                Ok(value)
            } else {
                Err(Fault::Range { letter: self.letter, offset })
            }
        }

        fn time(&self) -> Result<u64, Fault> {
            self.decimal::<8>(0, 0, 86_399_999)
        }

        fn shares(&self, offset: usize) -> Result<u64, Fault> {
            self.decimal::<6>(offset, 1, 999_999)
        }

        fn price(&self, offset: usize) -> Result<u64, Fault> {
            self.decimal::<10>(offset, 0, 9_999_999_999)
        }

        /// Twelve digits in base 36.
        fn id(&self, offset: usize) -> Result<u64, Fault> {
            let mut value = 0;
            for (i, byte) in self.field::<12>(offset).iter().enumerate() {
                let digit = DIGITS[usize::from(*byte)];
                if digit == NO_DIGIT {
                    return Err(self.bad_byte(offset + i));
                }
                value = value * 36 + u64::from(digit);
            }
            Ok(value)
        }

        /// Bytes that `inside` allows, at least `least` of them, and then only spaces.
        fn padded<const N: usize>(&self, offset: usize, least: usize, inside: impl Fn(u8) -> bool) -> Result<&'a [u8; N], Fault> {
            let field = self.field::<N>(offset);
            let end = field.iter().position(|byte| !inside(*byte)).unwrap_or(N);
            if end < least {
                return Err(self.bad_byte(offset + end));
            }
            match field[end..].iter().position(|byte| *byte != b' ') {
                Some(i) => Err(self.bad_byte(offset + end + i)),
                None => Ok(field),
            }
        }

        fn symbol<const N: usize>(&self, offset: usize) -> Result<u64, Fault> {
            let field = self.padded::<N>(offset, 1, |byte| byte.is_ascii_graphic())?;
            let mut bytes = [b' '; 8];
            bytes[..N].copy_from_slice(field);
            Ok(u64::from_be_bytes(bytes))
        }

        fn participant(&self, offset: usize) -> Result<u64, Fault> {
            let field = self.padded::<4>(offset, 0, |byte| byte.is_ascii_uppercase())?;
            Ok(u64::from(u32::from_be_bytes(*field)))
        }

        fn side(&self, offset: usize) -> Result<Side, Fault> {
            match self.bytes[offset] {
                b'B' => Ok(Side::Buy),
                b'S' => Ok(Side::Sell),
                _ => Err(self.bad_byte(offset)),
            }
        }

        fn trade_side(&self, offset: usize) -> Result<Side, Fault> {
            match self.bytes[offset] {
                b'B' => Ok(Side::Buy),
                _ => Err(self.bad_byte(offset)),
            }
        }

        fn display(&self, offset: usize) -> Result<Display, Fault> {
            match self.bytes[offset] {
                b'Y' => Ok(Display::Shown),
                b'N' => Ok(Display::Hidden),
                _ => Err(self.bad_byte(offset)),
            }
        }

        fn customer(&self, offset: usize) -> Result<Customer, Fault> {
            match self.bytes[offset] {
                b'R' => Ok(Customer::Retail),
                b' ' => Ok(Customer::Blank),
                _ => Err(self.bad_byte(offset)),
            }
        }

        /// With a symbol of `N` bytes.
        fn add<const N: usize>(&self) -> Result<Add, Fault> {
            Ok(Add {
                time: self.time()?,
                order: self.id(9)?,
                side: self.side(21)?,
                shares: self.shares(22)?,
                symbol: self.symbol::<N>(28)?,
                price: self.price(28 + N)?,
                display: self.display(38 + N)?,
            })
        }

        fn trade<const N: usize>(&self) -> Result<Trade, Fault> {
            Ok(Trade {
                time: self.time()?,
                order: self.id(9)?,
                side: self.trade_side(21)?,
                shares: self.shares(22)?,
                symbol: self.symbol::<N>(28)?,
                price: self.price(28 + N)?,
                execution: self.id(38 + N)?,
            })
        }

        fn message(&self) -> Result<Message, Fault> {
            Ok(match self.letter {
                b's' => Message::Clear(Clear { time: self.time()?, symbol: self.symbol::<8>(9)? }),
                b'A' => Message::AddShort(self.add::<6>()?),
                b'd' => Message::AddLong(LongAdd {
                    add: self.add::<8>()?,
                    participant: self.participant(47)?,
                    customer: self.customer(51)?,
                }),
                b'E' => Message::Executed(Execution {
                    time: self.time()?,
                    order: self.id(9)?,
                    shares: self.shares(21)?,
                    execution: self.id(27)?,
                }),
                b'X' => Message::Cancel(Cancel { time: self.time()?, order: self.id(9)?, shares: self.shares(21)? }),
                b'P' => Message::TradeShort(self.trade::<6>()?),
                b'r' => Message::TradeLong(self.trade::<8>()?),
                b'B' => Message::Break(Break { time: self.time()?, execution: self.id(9)? }),
                letter => return Err(Fault::Unknown(letter)),
            })
        }
    }

    fn length_of(letter: u8) -> Option<usize> {
        Some(match letter {
            b's' => 17,
            b'A' => 45,
            b'd' => 52,
            b'E' => 39,
            b'X' => 27,
            b'P' => 56,
            b'r' => 58,
            b'B' => 21,
            _ => return None,
        })
    }

    /// The message that the line is, or why it is none.
    pub fn read(line: &[u8]) -> Result<Message, Fault> {
        let letter = match line {
            [_, _, _, _, _, _, _, _, letter, ..] => *letter,
            _ => return Err(Fault::Cut),
        };
        let length = length_of(letter).ok_or(Fault::Unknown(letter))?;
        if line.len() != length {
            return Err(Fault::Length(letter));
        }
        Line { letter, bytes: line }.message()
    }

    fn mix(sum: u64, value: u64) -> u64 {
        sum.wrapping_mul(31).wrapping_add(value)
    }

    impl Side {
        fn letter(self) -> u64 {
            match self {
                Side::Buy => b'B'.into(),
                Side::Sell => b'S'.into(),
            }
        }
    }

    impl Display {
        fn letter(self) -> u64 {
            match self {
                Display::Shown => b'Y'.into(),
                Display::Hidden => b'N'.into(),
            }
        }
    }

    impl Customer {
        fn letter(self) -> u64 {
            match self {
                Customer::Retail => b'R'.into(),
                Customer::Blank => b' '.into(),
            }
        }
    }

    fn add_all<const N: usize>(sum: u64, values: [u64; N]) -> u64 {
        values.into_iter().fold(sum, mix)
    }

    fn add_order(sum: u64, letter: u8, m: &Add) -> u64 {
        let Add { time, order, side, shares, symbol, price, display } = *m;
        add_all(sum, [time, letter.into(), order, side.letter(), shares, symbol, price, display.letter()])
    }

    fn add_trade(sum: u64, letter: u8, m: &Trade) -> u64 {
        let Trade { time, order, side, shares, symbol, price, execution } = *m;
        add_all(sum, [time, letter.into(), order, side.letter(), shares, symbol, price, execution])
    }

    fn add_message(sum: u64, message: &Message) -> u64 {
        match message {
            Message::Clear(m) => add_all(sum, [m.time, b's'.into(), m.symbol]),
            Message::AddShort(m) => add_order(sum, b'A', m),
            Message::AddLong(m) => {
                let sum = add_order(sum, b'd', &m.add);
                add_all(sum, [m.participant, m.customer.letter()])
            }
            Message::Executed(m) => add_all(sum, [m.time, b'E'.into(), m.order, m.shares, m.execution]),
            Message::Cancel(m) => add_all(sum, [m.time, b'X'.into(), m.order, m.shares]),
            Message::TradeShort(m) => add_trade(sum, b'P', m),
            Message::TradeLong(m) => add_trade(sum, b'r', m),
            Message::Break(m) => add_all(sum, [m.time, b'B'.into(), m.execution]),
        }
    }

    fn add_fault(sum: u64, fault: &Fault) -> u64 {
        match *fault {
            Fault::Cut => add_all(sum, [1]),
            Fault::Unknown(byte) => add_all(sum, [2, byte.into()]),
            Fault::Length(letter) => add_all(sum, [3, letter.into()]),
            Fault::Byte { letter, offset } => add_all(sum, [4, letter.into(), offset as u64]),
            Fault::Range { letter, offset } => add_all(sum, [5, letter.into(), offset as u64]),
        }
    }

    /// The checksum of the buffer's lines.
    pub fn checksum(buf: &[u8]) -> u64 {
        buf.split_inclusive(|byte| *byte == b'\n')
            .filter_map(|line| line.strip_suffix(b"\n"))
            .fold(0, |sum, line| match read(line) {
                Ok(message) => add_message(sum, &message),
                Err(fault) => add_fault(sum, &fault),
            })
    }
}

/// A small generator (xorshift), the same numbers in every run.
struct Random(u64);

impl Random {
    fn next(&mut self) -> u64 {
        self.0 ^= self.0 << 13;
        self.0 ^= self.0 >> 7;
        self.0 ^= self.0 << 17;
        self.0
    }

    fn below(&mut self, end: u64) -> u64 {
        (self.next() >> 11) % end
    }

    fn pick(&mut self, from: &[u8]) -> u8 {
        from[self.below(from.len() as u64) as usize]
    }
}

fn put_decimal(out: &mut Vec<u8>, width: usize, value: u64) {
    out.extend_from_slice(format!("{value:0width$}").as_bytes());
}

fn put_id(out: &mut Vec<u8>, random: &mut Random) {
    out.extend((0..12).map(|_| random.pick(b"0123456789ABCDEFGHIJKLMNOPQRSTUVWXYZ")));
}

fn put_padded(out: &mut Vec<u8>, random: &mut Random, least: usize, width: usize, from: &[u8]) {
    let name = least + random.below((width - least) as u64 + 1) as usize;
    out.extend((0..name).map(|_| random.pick(from)));
    out.extend(std::iter::repeat_n(b' ', width - name));
}

fn put_symbol(out: &mut Vec<u8>, random: &mut Random, width: usize) {
    put_padded(out, random, 1, width, b"ABCDEFGHIJKLMNOPQRSTUVWXYZ.+-=");
}

/// A valid line, with its 0x0A.
fn put_line(out: &mut Vec<u8>, random: &mut Random, time: u64) {
    let letter = match random.below(100) {
        0..40 => b'A',
        40..45 => b'd',
        45..65 => b'E',
        65..90 => b'X',
        90..95 => b'P',
        95..97 => b'r',
        97..98 => b'B',
        _ => b's',
    };
    put_decimal(out, 8, time);
    out.push(letter);
    if letter == b's' {
        put_symbol(out, random, 8);
        out.push(b'\n');
        return;
    }
    put_id(out, random);
    match letter {
        b'A' | b'd' => out.push(random.pick(b"BS")),
        b'P' | b'r' => out.push(b'B'),
        _ => {}
    }
    if letter != b'B' {
        put_decimal(out, 6, 1 + random.below(999_999));
    }
    match letter {
        b'A' | b'P' => put_symbol(out, random, 6),
        b'd' | b'r' => put_symbol(out, random, 8),
        _ => {}
    }
    if matches!(letter, b'A' | b'd' | b'P' | b'r') {
        put_decimal(out, 10, random.below(10_000_000_000));
    }
    match letter {
        b'A' => out.push(random.pick(b"YN")),
        b'd' => {
            out.push(random.pick(b"YN"));
            put_padded(out, random, 0, 4, b"ABCDEFGHIJKLMNOPQRSTUVWXYZ");
            out.push(random.pick(b"R "));
        }
        b'E' | b'P' | b'r' => put_id(out, random),
        _ => {}
    }
    out.push(b'\n');
}

fn valid_lines(count: u64) -> Vec<u8> {
    let mut random = Random(0x9E37_79B9_7F4A_7C15);
    let mut out = Vec::new();
    for i in 0..count {
        put_line(&mut out, &mut random, i * 86_400_000 / count);
    }
    out
}

/// Lines with bytes changed, cut off or added, among some that stay whole.
fn damaged_lines(count: u64) -> Vec<u8> {
    let mut random = Random(0xD1B5_4A32_D192_ED03);
    let mut out = Vec::new();
    for _ in 0..count {
        let start = out.len();
        let time = random.below(90_000_000);
        put_line(&mut out, &mut random, time);
        out.pop();
        let place = |random: &mut Random, out: &Vec<u8>| start + random.below((out.len() - start) as u64) as usize;
        match random.below(8) {
            0 => {}
            1 => {
                let end = place(&mut random, &out);
                out.truncate(end);
            }
            2 => out.push(random.next() as u8),
            3 => {
                let at = place(&mut random, &out);
                out.remove(at);
            }
            4 => {
                let at = start + 8;
                out[at] = random.pick(b"sAdEXPrBQx ");
            }
            5 => {
                let at = place(&mut random, &out);
                out[at] = random.pick(b" 09AZYNBSR!~a\x7f@[/:");
            }
            _ => {
                for _ in 0..=random.below(3) {
                    let at = place(&mut random, &out);
                    out[at] ^= 1 << random.below(8);
                }
            }
        }
        out.push(b'\n');
    }
    out
}

fn timed(read: fn(&[u8]) -> u64, buf: &[u8]) -> (Duration, u64) {
    let start = Instant::now();
    let sum = black_box(read(black_box(buf)));
    (start.elapsed(), sum)
}

/// The shortest and the middle of the times.
fn best_and_median(times: &mut [Duration]) -> (Duration, Duration) {
    times.sort();
    (times[0], times[times.len() / 2])
}

fn compare(name: &str, buf: &[u8]) {
    let lines: Vec<&[u8]> = buf.split_inclusive(|byte| *byte == b'\n').collect();
    let refused = lines.iter().filter(|line| plain::read(&line[..line.len() - 1]).is_err()).count();
    for line in &lines {
        if proved::checksum(line) != plain::checksum(line) {
            eprintln!("{name}: the readers differ on {:?}", String::from_utf8_lossy(line));
            std::process::exit(1);
        }
    }
    if proved::checksum(buf) != plain::checksum(buf) {
        eprintln!("{name}: the readers differ on the whole buffer");
        std::process::exit(1);
    }
    // A buffer may end anywhere.
    for end in 0..buf.len().min(500) {
        if proved::checksum(&buf[..end]) != plain::checksum(&buf[..end]) {
            eprintln!("{name}: the readers differ on the first {end} bytes");
            std::process::exit(1);
        }
    }
    println!("{name}: {} lines, {refused} of them refused; both readers agree on each line and on the whole", lines.len());
}

fn main() {
    const LINES: u64 = 1_000_000;
    const ROUNDS: usize = 25;
    let valid = valid_lines(LINES);
    compare("valid", &valid);
    compare("damaged", &damaged_lines(400_000));

    // Both have gone through the buffer by now, so it is warm; the rounds alternate.
    let mut proved_times = Vec::new();
    let mut plain_times = Vec::new();
    for _ in 0..ROUNDS {
        let (proved_time, proved_sum) = timed(proved::checksum, &valid);
        let (plain_time, plain_sum) = timed(plain::checksum, &valid);
        assert_eq!(proved_sum, plain_sum);
        proved_times.push(proved_time);
        plain_times.push(plain_time);
    }
    let proved = best_and_median(&mut proved_times);
    let plain = best_and_median(&mut plain_times);

    println!();
    println!("{LINES} lines, {:.1} MB, warm buffers, {ROUNDS} rounds each in turn", valid.len() as f64 / 1e6);
    println!("{:10} {:>10} {:>10} {:>10} {:>10}", "", "best ms", "ns/line", "median ms", "ns/line");
    for (name, (best, median)) in [("proved", proved), ("plain Rust", plain)] {
        let per_line = |time: Duration| time.as_secs_f64() * 1e9 / LINES as f64;
        let ms = |time: Duration| time.as_secs_f64() * 1e3;
        println!("{name:10} {:>10.2} {:>10.1} {:>10.2} {:>10.1}", ms(best), per_line(best), ms(median), per_line(median));
    }
    let ratio = |a: Duration, b: Duration| a.as_secs_f64() / b.as_secs_f64();
    println!("{:10} {:>10.2} {:>10} {:>10.2}", "ratio", ratio(proved.0, plain.0), "", ratio(proved.1, plain.1));
}
