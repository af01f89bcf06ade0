//! The book: members, one auction at a time and the seven seats.

use crate::lot::{share, shares, Bid, Class, Kind, Lot, MEMBERS};

const MOST_MONEY: u64 = 100_000_000;
const MOST_LOSS: u64 = 10_000_000_000;
const MOST_DEPOSIT: u64 = 3_200_000_000;
pub const MOST_LOTS: usize = 4;
const HOUSE: usize = 3; // the place of the house's seat

#[derive(Clone, Copy, PartialEq, Eq)]
pub enum Phase {
    Resting,
    Bidding,
    Charging,
}

#[derive(Clone, Copy)]
struct Member {
    fund: u64,
    assessment: u64,
}

/// What became of a lot.
#[derive(Clone, Copy)]
struct Outcome {
    price: Option<i64>,
    requirements: [u32; MEMBERS],
    best: [Option<i64>; MEMBERS],
}

type Answer<T> = Result<T, u8>;
type Weights = [u64; MEMBERS];

pub struct Book {
    phase: Phase,
    members: [Option<Member>; MEMBERS],
    lots: Vec<Lot>,
    outcomes: Vec<Outcome>,
    non_bidding: [bool; MEMBERS],
    weights: [Weights; 7], // by seat; the house's place has none
    capacities: [u64; 7],
    standings: [u64; 7],
    capacity: u64, // of all seats
    house: u64,
    net: u64,
}

impl Book {
    pub fn new(house: u64) -> Answer<Book> {
        if house > MOST_DEPOSIT {
            return Err(5);
        }
        Ok(Book {
            phase: Phase::Resting,
            members: [None; MEMBERS],
            lots: Vec::with_capacity(MOST_LOTS),
            outcomes: Vec::with_capacity(MOST_LOTS),
            non_bidding: [false; MEMBERS],
            weights: [[0; MEMBERS]; 7],
            capacities: [0; 7],
            standings: [0; 7],
            capacity: 0,
            house,
            net: 0,
        })
    }

    fn in_phase(&self, phase: Phase) -> Answer<()> {
        if self.phase == phase {
            Ok(())
        } else {
            Err(1)
        }
    }

    fn place(&self, member: usize) -> Answer<usize> {
        if (1..=MEMBERS).contains(&member) {
            Ok(member - 1)
        } else {
            Err(2)
        }
    }

    fn lot_place(&self, lot: usize) -> Answer<usize> {
        if (1..=self.lots.len()).contains(&lot) {
            Ok(lot - 1)
        } else {
            Err(2)
        }
    }

    fn enrolled(&self, member: usize) -> Answer<(usize, Member)> {
        let at = self.place(member)?;
        self.members[at].map(|found| (at, found)).ok_or(3)
    }

    // ---- the ten calls

    pub fn enrol(&mut self, member: usize, fund: u64, assessment: u64) -> Answer<()> {
        self.in_phase(Phase::Resting)?;
        let at = self.place(member)?;
        if self.members[at].is_some() {
            return Err(4);
        }
        if fund > MOST_MONEY || assessment > MOST_MONEY {
            return Err(5);
        }
        self.members[at] = Some(Member { fund, assessment });
        Ok(())
    }

    pub fn top_up(&mut self, member: usize, fund: u64, assessment: u64) -> Answer<()> {
        self.in_phase(Phase::Resting)?;
        let (at, old) = self.enrolled(member)?;
        if fund > MOST_MONEY - old.fund || assessment > MOST_MONEY - old.assessment {
            return Err(5);
        }
        let (fund, assessment) = (old.fund + fund, old.assessment + assessment);
        self.members[at] = Some(Member { fund, assessment });
        Ok(())
    }

    pub fn release(&mut self, member: usize) -> Answer<(u64, u64)> {
        self.in_phase(Phase::Resting)?;
        let (at, old) = self.enrolled(member)?;
        self.members[at] = None;
        Ok((old.fund, old.assessment))
    }

    /// The terms are weight, requirement and PRI; there are `count` lots, of which at most four
    /// are handed over.
    pub fn open(&mut self, terms: &[(u32, u32, u32)], count: usize) -> Answer<()> {
        self.in_phase(Phase::Resting)?;
        let fits = |&(weight, requirement, pri): &(u32, u32, u32)| {
            weight > 0
                && (10_000..=15_000).contains(&requirement)
                && (2..=2_000_000_000).contains(&pri)
                && pri % 2 == 0
        };
        let weights: u32 = terms.iter().map(|t| t.0).sum();
        if !(1..=MOST_LOTS).contains(&count) || !terms.iter().all(fits) || weights != 10_000 {
            return Err(6);
        }
        self.lots.clear();
        self.lots
            .extend(terms.iter().map(|t| Lot::new(t.0, t.1, t.2.into())));
        self.phase = Phase::Bidding;
        Ok(())
    }

    pub fn excuse(&mut self, member: usize, lot: usize) -> Answer<()> {
        self.in_phase(Phase::Bidding)?;
        let lot = self.lot_place(lot)?;
        let (at, _) = self.enrolled(member)?;
        self.lots[lot].excused[at] = true;
        Ok(())
    }

    pub fn bid(
        &mut self,
        member: usize,
        lot: usize,
        kind: Kind,
        size: u32,
        price: i64,
    ) -> Answer<usize> {
        self.in_phase(Phase::Bidding)?;
        let lot = self.lot_place(lot)?;
        let (member, _) = self.enrolled(member)?;
        self.lots[lot].enter(Bid {
            member,
            kind,
            size,
            price,
        })
    }

    pub fn close(&mut self) -> Answer<(usize, u64)> {
        self.in_phase(Phase::Bidding)?;
        self.outcomes.clear();
        let funds = self.funds();
        for lot in &self.lots {
            let outcome = self.outcome(lot, &funds);
            self.outcomes.push(outcome);
        }
        let failed = self.outcomes.iter().filter(|o| o.price.is_none()).count();
        if failed == self.lots.len() {
            self.rest();
            return Ok((failed, 0));
        }
        self.fill_pools();
        self.stand(0);
        self.phase = Phase::Charging;
        Ok((failed, self.capacity))
    }

    pub fn charge(&mut self, amount: u64) -> Answer<(u64, u64)> {
        self.in_phase(Phase::Charging)?;
        if amount > MOST_LOSS {
            return Err(5);
        }
        let covered = amount.min(self.capacity - self.net);
        self.stand(self.net + covered);
        Ok((covered, amount - covered))
    }

    pub fn recover(&mut self, amount: u64) -> Answer<(u64, u64)> {
        self.in_phase(Phase::Charging)?;
        if amount > MOST_LOSS {
            return Err(5);
        }
        let returned = amount.min(self.net);
        self.stand(self.net - returned);
        Ok((returned, amount - returned))
    }

    pub fn conclude(&mut self) -> Answer<u64> {
        self.in_phase(Phase::Charging)?;
        for seat in (0..7).filter(|&seat| seat != HOUSE) {
            let borne = shares(self.standings[seat], &self.weights[seat]);
            for (member, borne) in self.members.iter_mut().zip(borne) {
                let Some(member) = member else { continue };
                if seat < HOUSE {
                    member.fund -= borne;
                } else {
                    member.assessment -= borne;
                }
            }
        }
        self.house -= self.standings[HOUSE];
        let net = self.net;
        self.rest();
        Ok(net)
    }

    // ---- what close works out

    fn rest(&mut self) {
        self.lots.clear();
        self.net = 0;
        self.phase = Phase::Resting;
    }

    fn funds(&self) -> Weights {
        self.members.map(|member| member.map_or(0, |m| m.fund))
    }

    fn outcome(&self, lot: &Lot, funds: &Weights) -> Outcome {
        let mut requirements = shares(lot.requirement.into(), funds).map(|n| n as u32);
        let mut best = [None; MEMBERS];
        for at in 0..MEMBERS {
            if lot.excused[at] {
                requirements[at] = 0;
            }
            if self.members[at].is_some() {
                best[at] = lot.best(at, requirements[at]);
            }
        }
        Outcome {
            price: lot.price(),
            requirements,
            best,
        }
    }

    fn fill_pools(&mut self) {
        let mut lot_weights = [0; MOST_LOTS];
        for (weight, lot) in lot_weights.iter_mut().zip(&self.lots) {
            *weight = lot.weight.into();
        }
        self.weights = [[0; MEMBERS]; 7];
        for at in 0..MEMBERS {
            let Some(member) = self.members[at] else {
                continue;
            };
            let silent = |o: &Outcome| o.best[at].is_none() && o.requirements[at] != 0;
            self.non_bidding[at] = self.outcomes.iter().any(silent);
            if self.non_bidding[at] {
                self.weights[0][at] = member.fund;
                self.weights[4][at] = member.assessment;
                continue;
            }
            let funds = shares(member.fund, &lot_weights);
            let assessments = shares(member.assessment, &lot_weights);
            for (k, (lot, outcome)) in self.lots.iter().zip(&self.outcomes).enumerate() {
                let Some(price) = outcome.price else { continue };
                let best = outcome.best[at];
                let class = lot.class(price, best, outcome.requirements[at]);
                for (seat, amount) in [(1, funds[k]), (5, assessments[k])] {
                    let senior = lot.senior_part(amount, price, best, class);
                    self.weights[seat][at] += amount - senior;
                    self.weights[seat + 1][at] += senior;
                }
            }
        }
        self.capacities = self.weights.map(|weights| weights.iter().sum());
        self.capacities[HOUSE] = self.house;
        self.capacity = self.capacities.iter().sum();
    }

    /// Has each seat in order stand for what it can of what the seats before it leave.
    fn stand(&mut self, net: u64) {
        let mut left = net;
        for (standing, capacity) in self.standings.iter_mut().zip(self.capacities) {
            *standing = capacity.min(left);
            left -= *standing;
        }
        self.net = net;
    }

    // ---- the questions

    pub fn phase(&self) -> Phase {
        self.phase
    }

    /// Fund, assessment and what each bears.
    pub fn member(&self, member: usize) -> Answer<[u64; 4]> {
        let (at, found) = self.enrolled(member)?;
        let mut borne = [0, 0];
        if self.phase == Phase::Charging {
            for seat in (0..7).filter(|&seat| seat != HOUSE) {
                let standing = self.standings[seat];
                borne[usize::from(seat > HOUSE)] += share(standing, &self.weights[seat], at);
            }
        }
        Ok([found.fund, found.assessment, borne[0], borne[1]])
    }

    pub fn requirement(&self, member: usize, lot: usize) -> Answer<u64> {
        if self.phase == Phase::Resting {
            return Err(1);
        }
        let lot = &self.lots[self.lot_place(lot)?];
        let (at, _) = self.enrolled(member)?;
        if lot.excused[at] {
            return Ok(0);
        }
        Ok(share(lot.requirement.into(), &self.funds(), at))
    }

    pub fn price(&self, lot: usize) -> Answer<Option<i64>> {
        self.in_phase(Phase::Charging)?;
        Ok(self.outcomes[self.lot_place(lot)?].price)
    }

    pub fn allocation(&self, lot: usize, entry: usize) -> Answer<u64> {
        self.in_phase(Phase::Charging)?;
        let lot = &self.lots[self.lot_place(lot)?];
        if !(1..=lot.bids.len()).contains(&entry) {
            return Err(2);
        }
        Ok(lot.allocation(entry - 1))
    }

    pub fn average(&self, member: usize, lot: usize) -> Answer<Option<i64>> {
        self.in_phase(Phase::Charging)?;
        let outcome = &self.outcomes[self.lot_place(lot)?];
        let (at, _) = self.enrolled(member)?;
        Ok(outcome.price.and(outcome.best[at]))
    }

    pub fn class(&self, member: usize, lot: usize) -> Answer<Option<Class>> {
        self.in_phase(Phase::Charging)?;
        let lot = self.lot_place(lot)?;
        let (at, _) = self.enrolled(member)?;
        if self.non_bidding[at] {
            return Ok(Some(Class::NonBidding));
        }
        let outcome = &self.outcomes[lot];
        let class = |price| self.lots[lot].class(price, outcome.best[at], outcome.requirements[at]);
        Ok(outcome.price.map(class))
    }

    /// Capacity and standing.
    pub fn seat(&self, seat: usize) -> Answer<(u64, u64)> {
        self.in_phase(Phase::Charging)?;
        if !(1..=7).contains(&seat) {
            return Err(2);
        }
        Ok((self.capacities[seat - 1], self.standings[seat - 1]))
    }

    pub fn bears(&self, member: usize, seat: usize) -> Answer<u64> {
        self.in_phase(Phase::Charging)?;
        if !(1..=7).contains(&seat) || seat - 1 == HOUSE {
            return Err(2);
        }
        let (at, _) = self.enrolled(member)?;
        Ok(share(self.standings[seat - 1], &self.weights[seat - 1], at))
    }
}
