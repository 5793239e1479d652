//! The same search in plain Rust: the same steps, written directly.

use crate::books::{Book, Kind};

#[derive(Clone, Copy)]
struct Row {
    count: u8,
    pairs: [(u8, u8); 4],
    target: u8,
    cents: u32,
}

impl Row {
    fn pairs(&self) -> &[(u8, u8)] {
        &self.pairs[..self.count as usize]
    }

    fn met(&self, plan: &[u8; 64]) -> bool {
        self.pairs().iter().all(|&(d, v)| plan[d as usize] == v)
    }

    fn named(&self) -> u64 {
        self.pairs().iter().fold(0, |set, &(d, _)| set | 1 << d)
    }
}

#[derive(Clone, Copy)]
struct Entry {
    decision: u8,
    value: u8,
    support: u64,
}

pub struct Plain {
    sizes: Vec<u8>,
    on: u64,
    ranks: [u8; 64],
    forbids: Vec<Row>,
    activates: Vec<Row>,
    prices: Vec<Row>,
    trail: Vec<Entry>,
    plan: [u8; 64],
    excluded: [u16; 64],
    resting: [u16; 64],
    reasons: [[u64; 16]; 64],
    pub best: Option<([u8; 64], u64)>,
    pub settled: bool,
    after: [u64; 257],
}

impl Plain {
    pub fn new(book: &Book) -> Plain {
        let rows = |kind: Kind| -> Vec<Row> {
            let of_kind = book.rules.iter().filter(|rule| rule.kind == kind);
            of_kind
                .map(|rule| {
                    let mut pairs = [(0, 0); 4];
                    pairs[..rule.pairs.len()].copy_from_slice(&rule.pairs);
                    Row {
                        count: rule.pairs.len() as u8,
                        pairs,
                        target: rule.target,
                        cents: rule.cents,
                    }
                })
                .collect()
        };
        let marked = book.decisions.iter().enumerate().filter(|(_, d)| d.on);
        Plain {
            sizes: book.decisions.iter().map(|d| d.size).collect(),
            on: marked.fold(0, |set, (i, _)| set | 1 << i),
            ranks: [0; 64],
            forbids: rows(Kind::Forbid),
            activates: rows(Kind::Activate),
            prices: rows(Kind::Price),
            trail: Vec::with_capacity(64),
            plan: [0; 64],
            excluded: [0; 64],
            resting: [0; 64],
            reasons: [[0; 16]; 64],
            best: None,
            settled: false,
            after: [0; 257],
        }
    }

    pub fn run(&mut self, budget: u32) -> u32 {
        let mut made = 0;
        while made < budget && !self.settled {
            self.step();
            made += 1;
        }
        made
    }

    fn step(&mut self) {
        let mut active = self.on;
        for row in &self.activates {
            if row.met(&self.plan) {
                active |= 1 << row.target;
            }
        }
        let waiting = (0..self.sizes.len()).filter(|&d| self.plan[d] == 0 && active >> d & 1 == 1);
        match waiting.min_by_key(|&d| self.ranks[d]) {
            Some(d) => self.extend(d),
            None => self.conclude(),
        }
    }

    fn extend(&mut self, d: usize) {
        let mut support = 0;
        if self.on >> d & 1 == 0 {
            for row in &self.activates {
                if row.target as usize == d && row.met(&self.plan) {
                    support = row.named();
                    break;
                }
            }
        }
        let size = self.sizes[d];
        for v in 1..=size {
            if self.excluded[d] >> (v - 1) & 1 == 0 {
                self.plan[d] = v;
                self.test(d, v);
            }
        }
        self.plan[d] = 0;
        let free = self.excluded[d].trailing_ones() as u8;
        if free < size {
            self.plan[d] = free + 1;
            self.trail.push(Entry {
                decision: d as u8,
                value: free + 1,
                support,
            });
        } else {
            let reasons = self.reasons[d][..size as usize]
                .iter()
                .fold(0, |all, r| all | r);
            let rests = self.resting[d] & self.excluded[d] != 0;
            self.retreat(reasons | support, rests);
        }
    }

    /// Tests the value that the plan gives a decision.
    fn test(&mut self, d: usize, v: u8) {
        let this = !(1u64 << d);
        if let Some(row) = self.forbids.iter().find(|row| row.met(&self.plan)) {
            let reason = row.named() & this;
            self.exclude(d, v, reason, false);
        } else if let Some((_, best)) = self.best {
            if self.price() >= best {
                let reason = self.kept(best) & this;
                self.exclude(d, v, reason, true);
            }
        }
    }

    fn exclude(&mut self, d: usize, v: u8, reason: u64, rests: bool) {
        let bit = 1 << (v - 1);
        self.excluded[d] |= bit;
        if rests {
            self.resting[d] |= bit;
        } else {
            self.resting[d] &= !bit;
        }
        self.reasons[d][v as usize - 1] = reason;
    }

    /// What the plan costs; fills in what the price rules from each place on cost.
    fn price(&mut self) -> u64 {
        let mut sum = 0u64;
        self.after[self.prices.len()] = 0;
        for (i, row) in self.prices.iter().enumerate().rev() {
            if row.met(&self.plan) {
                sum = sum.saturating_add(row.cents as u64);
            }
            self.after[i] = sum;
        }
        sum
    }

    /// The decisions of the kept price rules.
    fn kept(&self, best: u64) -> u64 {
        let mut before = 0u64;
        let mut named = 0;
        for (row, &later) in self.prices.iter().zip(&self.after[1..]) {
            if row.met(&self.plan) && before.saturating_add(later) < best {
                before = before.saturating_add(row.cents as u64);
                named |= row.named();
            }
        }
        named
    }

    fn conclude(&mut self) {
        let cost = self.price();
        let best = match self.best {
            Some((plan, held)) if held <= cost => (plan, held),
            _ => (self.plan, cost),
        };
        self.best = Some(best);
        let blame = self.kept(best.1);
        self.retreat(blame, true);
    }

    fn retreat(&mut self, blame: u64, rests: bool) {
        let Some(at) = self
            .trail
            .iter()
            .rposition(|e| blame >> e.decision & 1 == 1)
        else {
            self.settled = true;
            return;
        };
        let culprit = self.trail[at];
        let mut left = 1u64 << culprit.decision;
        self.plan[culprit.decision as usize] = 0;
        let mut place = at;
        for i in at + 1..self.trail.len() {
            let entry = self.trail[i];
            if entry.support & left != 0 {
                left |= 1 << entry.decision;
                self.plan[entry.decision as usize] = 0;
            } else {
                self.trail[place] = entry;
                place += 1;
            }
        }
        self.trail.truncate(place);
        for d in 0..self.sizes.len() {
            let mut bits = self.excluded[d];
            while bits != 0 {
                let v = bits.trailing_zeros();
                bits &= bits - 1;
                if self.reasons[d][v as usize] & left != 0 {
                    self.excluded[d] &= !(1 << v);
                }
            }
        }
        let d = culprit.decision as usize;
        self.exclude(d, culprit.value, blame & !(1u64 << d), rests);
    }
}
