//! A plain Rust program of the same rules, unverified: the yardstick of the benchmark. It reads
//! commands for a book from standard input, one a line, and prints one line for each.

mod book;
mod lot;
mod words;

use book::{Book, Phase, MOST_LOTS};
use lot::{Class, Kind};
use std::io::{self, BufRead, BufReader, BufWriter, Write};
use words::{natural, signed, Words};

const FIRST_HOUSE: u64 = 50_000_000;

const REFUSED: [&str; 10] = [
    "wrong phase",
    "number out of range",
    "not enrolled",
    "already enrolled",
    "amount outside its limits",
    "lots not as they must be",
    "All or Nothing bid not for the whole lot",
    "second All or Nothing bid in the lot",
    "lot full",
    "excused by a call",
];

/// Why a line has no other answer.
enum Stop {
    Refused(u8),
    Error(&'static str),
    Broken(io::Error),
}

impl From<u8> for Stop {
    fn from(number: u8) -> Stop {
        Stop::Refused(number)
    }
}

impl From<io::Error> for Stop {
    fn from(error: io::Error) -> Stop {
        Stop::Broken(error)
    }
}

const WRONG_COUNT: Stop = Stop::Error("wrong count of words");

/// The words behind a command, taken one after the other.
struct Rest<'a> {
    line: &'a [u8],
    words: &'a Words,
    next: usize,
}

impl<'a> Rest<'a> {
    fn left(&self) -> usize {
        self.words.count() - self.next
    }

    fn word(&mut self) -> &'a [u8] {
        self.next += 1;
        self.words.get(self.line, self.next - 1)
    }

    fn number(&mut self) -> Result<usize, Stop> {
        let found = natural(self.word(), 65_535).map(|n| n as usize);
        found.ok_or(Stop::Error("not a number from 0 to 65535"))
    }

    fn pri(&mut self) -> Result<u32, Stop> {
        let found = natural(self.word(), 4_294_967_295).map(|n| n as u32);
        found.ok_or(Stop::Error("not a number from 0 to 4294967295"))
    }

    fn price(&mut self) -> Result<i64, Stop> {
        signed(self.word()).ok_or(Stop::Error("not a number from -2147483648 to 2147483647"))
    }

    fn dollars(&mut self) -> Result<u64, Stop> {
        let found = natural(self.word(), u64::MAX);
        found.ok_or(Stop::Error("not a number from 0 to 18446744073709551615"))
    }

    fn kind(&mut self) -> Result<Kind, Stop> {
        match self.word() {
            b"standard" => Ok(Kind::Standard),
            b"all" => Ok(Kind::All),
            _ => Err(Stop::Error("not standard or all")),
        }
    }
}

fn phase_word(phase: Phase) -> &'static str {
    match phase {
        Phase::Resting => "Resting",
        Phase::Bidding => "Bidding",
        Phase::Charging => "Charging",
    }
}

fn class_word(class: Option<Class>) -> &'static str {
    match class {
        None => "none",
        Some(Class::Senior) => "Senior",
        Some(Class::Split) => "Split",
        Some(Class::Subordinate) => "Subordinate",
        Some(Class::Excused) => "Excused",
        Some(Class::NonBidding) => "Non-bidding",
    }
}

fn write_price(out: &mut impl Write, price: Option<i64>) -> io::Result<()> {
    match price {
        Some(price) => write!(out, "{price}"),
        None => out.write_all(b"none"),
    }
}

/// The lots of an open: up to four of them, and how many there are.
fn read_lots(rest: &mut Rest) -> Result<([(u32, u32, u32); MOST_LOTS], usize), Stop> {
    if rest.left() == 0 || rest.left() % 3 != 0 {
        return Err(WRONG_COUNT);
    }
    let count = rest.left() / 3;
    let mut terms = [(0, 0, 0); MOST_LOTS];
    for at in 0..count {
        let lot = (rest.number()? as u32, rest.number()? as u32, rest.pri()?);
        if at < MOST_LOTS {
            terms[at] = lot;
        }
    }
    Ok((terms, count))
}

/// Makes a call of Resting or a new book, and writes its answer.
fn resting(
    book: &mut Book,
    name: &[u8],
    rest: &mut Rest,
    out: &mut impl Write,
) -> Result<(), Stop> {
    match name {
        b"house" => {
            *book = Book::new(rest.dollars()?)?;
        }
        b"enrol" => {
            book.enrol(rest.number()?, rest.dollars()?, rest.dollars()?)?;
        }
        b"top-up" => {
            book.top_up(rest.number()?, rest.dollars()?, rest.dollars()?)?;
        }
        b"release" => {
            let (fund, assessment) = book.release(rest.number()?)?;
            return Ok(write!(out, "fund {fund} assessment {assessment}")?);
        }
        _ => {
            let (terms, count) = read_lots(rest)?;
            book.open(&terms[..count.min(MOST_LOTS)], count)?;
        }
    }
    Ok(out.write_all(b"ok")?)
}

/// Makes a call of Bidding or Charging, and writes its answer.
fn auction(
    book: &mut Book,
    name: &[u8],
    rest: &mut Rest,
    out: &mut impl Write,
) -> Result<(), Stop> {
    match name {
        b"excuse" => {
            book.excuse(rest.number()?, rest.number()?)?;
            out.write_all(b"ok")?;
        }
        b"bid" => {
            let (member, lot, kind) = (rest.number()?, rest.number()?, rest.kind()?);
            let entry = book.bid(member, lot, kind, rest.number()? as u32, rest.price()?)?;
            write!(out, "entry {entry}")?;
        }
        b"close" => {
            let (failed, capacity) = book.close()?;
            write!(out, "failed {failed} capacity {capacity}")?;
        }
        b"charge" => {
            let (covered, uncovered) = book.charge(rest.dollars()?)?;
            write!(out, "covered {covered} uncovered {uncovered}")?;
        }
        b"recover" => {
            let (returned, surplus) = book.recover(rest.dollars()?)?;
            write!(out, "returned {returned} surplus {surplus}")?;
        }
        _ => {
            write!(out, "net-loss {}", book.conclude()?)?;
        }
    }
    Ok(())
}

/// Asks about members and lots, and writes the answer.
fn question(book: &Book, name: &[u8], rest: &mut Rest, out: &mut impl Write) -> Result<(), Stop> {
    match name {
        b"phase" => out.write_all(phase_word(book.phase()).as_bytes())?,
        b"member" => {
            let [fund, assessment, by_fund, by_assessment] = book.member(rest.number()?)?;
            write!(out, "fund {fund} assessment {assessment} ")?;
            write!(out, "fund-borne {by_fund} assessment-borne {by_assessment}")?;
        }
        b"price" => write_price(out, book.price(rest.number()?)?)?,
        b"seat" => {
            let (capacity, standing) = book.seat(rest.number()?)?;
            write!(out, "capacity {capacity} standing {standing}")?;
        }
        b"requirement" => write!(out, "{}", book.requirement(rest.number()?, rest.number()?)?)?,
        b"allocation" => write!(out, "{}", book.allocation(rest.number()?, rest.number()?)?)?,
        b"average" => write_price(out, book.average(rest.number()?, rest.number()?)?)?,
        b"class" => {
            let class = book.class(rest.number()?, rest.number()?)?;
            out.write_all(class_word(class).as_bytes())?;
        }
        _ => write!(out, "{}", book.bears(rest.number()?, rest.number()?)?)?,
    }
    Ok(())
}

/// How many words follow a command; for an open that is for `read_lots` to say.
fn count_for(name: &[u8], words: &Words) -> Result<usize, Stop> {
    match name {
        b"close" | b"conclude" | b"phase" => Ok(0),
        b"house" | b"release" | b"charge" | b"recover" | b"member" | b"price" | b"seat" => Ok(1),
        b"excuse" | b"requirement" | b"allocation" | b"average" | b"class" | b"bears" => Ok(2),
        b"enrol" | b"top-up" => Ok(3),
        b"bid" => Ok(5),
        b"open" => Ok(words.count() - 1),
        _ => Err(Stop::Error("no such command")),
    }
}

fn answer(book: &mut Book, line: &[u8], words: &Words, out: &mut impl Write) -> Result<(), Stop> {
    let name = words.get(line, 0);
    let mut rest = Rest {
        line,
        words,
        next: 1,
    };
    if rest.left() != count_for(name, words)? {
        return Err(WRONG_COUNT);
    }
    match name {
        b"house" | b"enrol" | b"top-up" | b"release" | b"open" => {
            resting(book, name, &mut rest, out)
        }
        b"excuse" | b"bid" | b"close" | b"charge" | b"recover" | b"conclude" => {
            auction(book, name, &mut rest, out)
        }
        _ => question(book, name, &mut rest, out),
    }
}

fn echo(line: &[u8], words: &Words, out: &mut impl Write) -> io::Result<()> {
    for at in 0..words.count() {
        out.write_all(words.get(line, at))?;
        out.write_all(b" ")?;
    }
    out.write_all(b"-> ")
}

fn main() -> io::Result<()> {
    let mut input = BufReader::with_capacity(1 << 16, io::stdin().lock());
    let mut out = BufWriter::with_capacity(1 << 16, io::stdout().lock());
    let mut book = Book::new(FIRST_HOUSE).expect("within the limit of a deposit");
    let mut line = Vec::with_capacity(256);
    let mut words = Words::new();
    while input.read_until(b'\n', &mut line)? > 0 {
        words.cut(&line);
        if words.count() > 0 && words.get(&line, 0)[0] != b'#' {
            echo(&line, &words, &mut out)?;
            match answer(&mut book, &line, &words, &mut out) {
                Ok(()) => {}
                Err(Stop::Refused(number)) => {
                    let reason = REFUSED[usize::from(number) - 1];
                    write!(out, "refused {number}: {reason}")?;
                }
                Err(Stop::Error(reason)) => write!(out, "error: {reason}")?,
                Err(Stop::Broken(error)) => return Err(error),
            }
            out.write_all(b"\n")?;
        }
        line.clear();
    }
    out.flush()
}
