//! The driver of crates/full_book over the plain book, and the same lines printed.

#[allow(dead_code)]
mod book;
#[allow(dead_code)]
mod lot;

use book::Book;
use lot::{Kind, MEMBERS};

const HOUSE: u64 = 500_000_000;
const GROUPS: usize = 250; // of a recovery and four charges
const LOTS: [(u32, u32, u32); 4] = [
    (1_000, 10_000, 2_000_000),
    (2_000, 12_000, 4_000_000),
    (3_000, 13_000, 4_000_000),
    (4_000, 15_000, 6_000_000),
];

/// A linear congruential generator.
struct Draws(u64);

impl Draws {
    /// One of the numbers from 0 to most - 1.
    fn below(&mut self, most: u32) -> u32 {
        self.0 = self
            .0
            .wrapping_mul(6_364_136_223_846_793_005)
            .wrapping_add(1_442_695_040_888_963_407);
        (self.0 >> 33) as u32 % most
    }
}

/// What the calls answer, added up.
#[derive(Default)]
struct Sums {
    entries: u64,
    failed: u64,
    capacity: u64,
    covered: u64,
    uncovered: u64,
    returned: u64,
    surplus: u64,
    loss: u64,
    top_ups: u64,
    refused: u64,
}

fn raise(sum: &mut u64, by: u64) {
    *sum = sum.wrapping_add(by);
}

impl Sums {
    fn print(&self) {
        println!("entries {}", self.entries);
        println!("failed {}", self.failed);
        println!("capacity {}", self.capacity);
        println!("covered {}", self.covered);
        println!("uncovered {}", self.uncovered);
        println!("returned {}", self.returned);
        println!("surplus {}", self.surplus);
        println!("net-loss {}", self.loss);
        println!("top-ups {}", self.top_ups);
        println!("refused {}", self.refused);
    }
}

/// A member's fund and assessment at the beginning of each auction.
fn amounts(member: usize) -> (u64, u64) {
    let member = member as u64;
    (70_000_000 + 500_000 * member, 60_000_000 + 700_000 * member)
}

struct Drill {
    book: Book,
    draws: Draws,
    sums: Sums,
}

impl Drill {
    fn new() -> Drill {
        let mut drill = Drill {
            book: Book::new(HOUSE).expect("within the limit of a deposit"),
            draws: Draws(1),
            sums: Sums::default(),
        };
        for member in 1..=MEMBERS {
            let (fund, assessment) = amounts(member);
            let answer = drill.book.enrol(member, fund, assessment);
            drill.done(answer);
        }
        drill
    }

    fn done(&mut self, answer: Result<(), u8>) {
        if answer.is_err() {
            raise(&mut self.sums.refused, 1);
        }
    }

    /// An auction from its open to the top ups behind its conclude.
    fn auction(&mut self) {
        let answer = self.book.open(&LOTS, LOTS.len());
        self.done(answer);
        for lot in 1..=LOTS.len() {
            self.bids(lot);
        }
        match self.book.close() {
            Ok((failed, capacity)) => {
                raise(&mut self.sums.failed, failed as u64);
                raise(&mut self.sums.capacity, capacity);
            }
            Err(_) => raise(&mut self.sums.refused, 1),
        }
        for group in 0..GROUPS {
            self.losses(group);
        }
        match self.book.conclude() {
            Ok(loss) => raise(&mut self.sums.loss, loss),
            Err(_) => raise(&mut self.sums.refused, 1),
        }
        for member in 1..=MEMBERS {
            self.top_up(member);
        }
    }

    /// Two bids of each member; every eighth makes its second bid All or Nothing.
    fn bids(&mut self, lot: usize) {
        for member in 1..=MEMBERS {
            self.bid(member, lot, Kind::Standard);
        }
        for member in 1..=MEMBERS {
            let all = member % 8 == 1;
            self.bid(member, lot, if all { Kind::All } else { Kind::Standard });
        }
    }

    /// Every fifth member offers much less than the others, and the last one bids for too little.
    fn bid(&mut self, member: usize, lot: usize, kind: Kind) {
        let mut price = -12_000_000 - i64::from(self.draws.below(5_000_000));
        if member % 5 == 0 {
            price -= 7_000_000;
        }
        let mut size = 100;
        if member < MEMBERS {
            size = 240 + self.draws.below(161);
        }
        if kind == Kind::All {
            price -= 3_000_000;
            size = 10_000;
        }
        match self.book.bid(member, lot, kind, size, price) {
            Ok(entry) => raise(&mut self.sums.entries, entry as u64),
            Err(_) => raise(&mut self.sums.refused, 1),
        }
    }

    /// A recovery and four charges. The net loss grows in the first half of the groups and falls
    /// in the second; the last recovery returns it all, and the charges behind it are greater.
    fn losses(&mut self, group: usize) {
        let last = group == GROUPS - 1;
        let returned = if last {
            10_000_000_000
        } else if group < GROUPS / 2 {
            self.draws.below(10_000_000).into()
        } else {
            self.draws.below(180_000_000).into()
        };
        self.recover(returned);
        let least = if last { 150_000_000 } else { 0 };
        for _ in 0..4 {
            let more = u64::from(self.draws.below(25_000_000));
            self.charge(least + more);
        }
    }

    fn recover(&mut self, amount: u64) {
        match self.book.recover(amount) {
            Ok((returned, surplus)) => {
                raise(&mut self.sums.returned, returned);
                raise(&mut self.sums.surplus, surplus);
            }
            Err(_) => raise(&mut self.sums.refused, 1),
        }
    }

    fn charge(&mut self, amount: u64) {
        match self.book.charge(amount) {
            Ok((covered, uncovered)) => {
                raise(&mut self.sums.covered, covered);
                raise(&mut self.sums.uncovered, uncovered);
            }
            Err(_) => raise(&mut self.sums.refused, 1),
        }
    }

    /// Gives a member what the auction took; the sum has it times the member's number.
    fn top_up(&mut self, member: usize) {
        let Ok([held_fund, held_assessment, ..]) = self.book.member(member) else {
            return;
        };
        let (fund, assessment) = amounts(member);
        let fund = fund.saturating_sub(held_fund);
        let assessment = assessment.saturating_sub(held_assessment);
        let both = fund.wrapping_add(assessment);
        raise(&mut self.sums.top_ups, both.wrapping_mul(member as u64));
        let answer = self.book.top_up(member, fund, assessment);
        self.done(answer);
    }
}

fn main() {
    let word = std::env::args().nth(1);
    let auctions: u32 = word.and_then(|word| word.parse().ok()).unwrap_or(1);
    let mut drill = Drill::new();
    for _ in 0..auctions {
        drill.auction();
    }
    println!("auctions {auctions}");
    drill.sums.print();
}
