//! One lot: its bids, its price, what each bid gets and a member's average price.

pub const LOT: u32 = 10_000;
pub const MOST_BIDS: usize = 64;
pub const MEMBERS: usize = 32;
const MOST_PRICE: i64 = 2_000_000_000;

#[derive(Clone, Copy, PartialEq, Eq)]
pub enum Kind {
    Standard,
    All,
}

#[derive(Clone, Copy)]
pub struct Bid {
    pub member: usize, // from 0
    pub kind: Kind,
    pub size: u32,
    pub price: i64,
}

#[derive(Clone, Copy, PartialEq, Eq)]
pub enum Class {
    Senior,
    Split,
    Subordinate,
    Excused,
    NonBidding,
}

pub struct Lot {
    pub weight: u32,
    pub requirement: u32,
    pub pri: i64,
    pub bids: Vec<Bid>,
    pub excused: [bool; MEMBERS],
}

/// Share `at` of the amount over the weights.
pub fn share(amount: u64, weights: &[u64], at: usize) -> u64 {
    let whole: u64 = weights.iter().sum();
    if whole == 0 {
        return 0;
    }
    let before: u64 = weights[..at].iter().sum();
    amount * (before + weights[at]) / whole - amount * before / whole
}

/// All shares of the amount over the weights.
pub fn shares<const N: usize>(amount: u64, weights: &[u64; N]) -> [u64; N] {
    let whole: u64 = weights.iter().sum();
    let mut result = [0; N];
    if whole == 0 {
        return result;
    }
    let (mut sum, mut before) = (0, 0);
    for (share, weight) in result.iter_mut().zip(weights) {
        sum += weight;
        let up_to = amount * sum / whole;
        *share = up_to - before;
        before = up_to;
    }
    result
}

impl Lot {
    pub fn new(weight: u32, requirement: u32, pri: i64) -> Lot {
        let bids = Vec::with_capacity(MOST_BIDS);
        Lot {
            weight,
            requirement,
            pri,
            bids,
            excused: [false; MEMBERS],
        }
    }

    /// The entry number, or the number of the refusal; the member is enrolled.
    pub fn enter(&mut self, bid: Bid) -> Result<usize, u8> {
        let all = bid.kind == Kind::All;
        if bid.size == 0 || bid.size > LOT || bid.price.abs() > MOST_PRICE {
            Err(5)
        } else if all && bid.size != LOT {
            Err(7)
        } else if all && self.all_price_of(bid.member).is_some() {
            Err(8)
        } else if self.bids.len() == MOST_BIDS {
            Err(9)
        } else if self.excused[bid.member] {
            Err(10)
        } else {
            self.bids.push(bid);
            Ok(self.bids.len())
        }
    }

    fn all_price_of(&self, member: usize) -> Option<i64> {
        self.bids
            .iter()
            .find(|b| b.kind == Kind::All && b.member == member)
            .map(|b| b.price)
    }

    fn standard(&self) -> impl Iterator<Item = &Bid> {
        self.bids.iter().filter(|b| b.kind == Kind::Standard)
    }

    fn standard_price(&self) -> Option<i64> {
        let mut offers = [(0, 0); MOST_BIDS];
        let mut count = 0;
        for bid in self.standard() {
            offers[count] = (bid.price, bid.size);
            count += 1;
        }
        let offers = &mut offers[..count];
        offers.sort_unstable_by(|a, b| b.0.cmp(&a.0));
        let mut sum = 0;
        offers.iter().find_map(|&(price, size)| {
            sum += size;
            (sum >= LOT).then_some(price)
        })
    }

    fn all_price(&self) -> Option<i64> {
        self.bids
            .iter()
            .filter(|b| b.kind == Kind::All)
            .map(|b| b.price)
            .max()
    }

    pub fn price(&self) -> Option<i64> {
        self.standard_price().max(self.all_price())
    }

    /// The parts that the bid at that place gets.
    pub fn allocation(&self, at: usize) -> u64 {
        let (by_standard, by_all) = (self.standard_price(), self.all_price());
        let bid = &self.bids[at];
        let Some(price) = by_standard.max(by_all) else {
            return 0;
        };
        if by_all >= by_standard {
            let winner = self
                .bids
                .iter()
                .position(|b| b.kind == Kind::All && b.price == price);
            return if winner == Some(at) { LOT.into() } else { 0 };
        }
        if bid.kind == Kind::All || bid.price < price {
            return 0;
        }
        if bid.price > price {
            return bid.size.into();
        }
        let better: u32 = self
            .standard()
            .filter(|b| b.price > price)
            .map(|b| b.size)
            .sum();
        let mut tied = [0; MOST_BIDS];
        for (size, b) in tied.iter_mut().zip(&self.bids) {
            if b.kind == Kind::Standard && b.price == price {
                *size = b.size.into();
            }
        }
        share((LOT - better).into(), &tied, at)
    }

    fn average(&self, member: usize, requirement: u32) -> Option<i64> {
        let wanted = requirement.max(1);
        let mut own = [(0, 0); MOST_BIDS];
        let (mut count, mut sum) = (0, 0);
        for bid in self.standard().filter(|b| b.member == member) {
            own[count] = (bid.price, bid.size);
            count += 1;
            sum += bid.size;
        }
        if sum < wanted {
            return None;
        }
        let own = &mut own[..count];
        own.sort_unstable_by(|a, b| b.0.cmp(&a.0));
        let (mut worth, mut left) = (0, wanted);
        for &(price, size) in own.iter() {
            let taken = size.min(left);
            worth += price * i64::from(taken);
            left -= taken;
        }
        Some(worth.div_euclid(wanted.into()))
    }

    /// BP with that requirement.
    pub fn best(&self, member: usize, requirement: u32) -> Option<i64> {
        self.average(member, requirement)
            .max(self.all_price_of(member))
    }

    /// The class in a lot that has that price.
    pub fn class(&self, price: i64, best: Option<i64>, requirement: u32) -> Class {
        let senior = price - self.pri / 2;
        match best {
            None if requirement == 0 => Class::Excused,
            None => Class::NonBidding,
            Some(best) if best > senior => Class::Senior,
            Some(best) if best < senior - self.pri => Class::Subordinate,
            Some(_) => Class::Split,
        }
    }

    /// What of an amount is senior.
    pub fn senior_part(&self, amount: u64, price: i64, best: Option<i64>, class: Class) -> u64 {
        match (class, best) {
            (Class::Senior | Class::Excused, _) => amount,
            (Class::Split, Some(best)) => {
                let above = best - (price - self.pri / 2 - self.pri);
                amount * above as u64 / self.pri as u64
            }
            _ => 0,
        }
    }
}
