//! Seeded books, and their bytes.

pub struct Decision {
    pub size: u8,
    pub on: bool,
}

#[derive(Clone, Copy, PartialEq)]
pub enum Kind {
    Forbid,
    Activate,
    Price,
}

pub struct Rule {
    pub kind: Kind,
    pub pairs: Vec<(u8, u8)>,
    pub target: u8,
    pub tier: u8,
    pub cents: u32,
}

pub struct Book {
    pub decisions: Vec<Decision>,
    pub rules: Vec<Rule>,
}

/// SplitMix64.
pub struct Random(pub u64);

impl Random {
    fn next(&mut self) -> u64 {
        self.0 = self.0.wrapping_add(0x9E37_79B9_7F4A_7C15);
        let mut z = self.0;
        z = (z ^ (z >> 30)).wrapping_mul(0xBF58_476D_1CE4_E5B9);
        z = (z ^ (z >> 27)).wrapping_mul(0x94D0_49BB_1331_11EB);
        z ^ (z >> 31)
    }

    /// A number from `low` to `high`, both among them.
    pub fn within(&mut self, low: usize, high: usize) -> usize {
        low + (self.next() % (high - low + 1) as u64) as usize
    }
}

/// What a book is made by.
pub struct Shape {
    pub decisions: usize,
    pub most_size: usize,
    pub rules_of_a_kind: usize,
    /// One decision in so many is off, and then wants an activate rule; 0 for none.
    pub off_in: usize,
    /// The fewest pairs of a forbid rule.
    pub fewest_forbidden: usize,
    /// The fewest cents of a price rule, of 1000: the closer, the longer the search.
    pub least_cents: usize,
}

/// One to three pairs, in ascending order of decision.
fn condition(r: &mut Random, decisions: &[Decision], fewest: usize) -> Vec<(u8, u8)> {
    let count = r.within(fewest, 3).min(decisions.len());
    let mut named: Vec<usize> = Vec::new();
    while named.len() < count {
        let d = r.within(0, decisions.len() - 1);
        if !named.contains(&d) {
            named.push(d);
        }
    }
    named.sort();
    named
        .into_iter()
        .map(|d| (d as u8, r.within(1, decisions[d].size as usize) as u8))
        .collect()
}

impl Book {
    pub fn new(r: &mut Random, shape: &Shape) -> Book {
        let decisions: Vec<Decision> = (0..shape.decisions)
            .map(|i| Decision {
                size: r.within(2, shape.most_size) as u8,
                on: i == 0 || shape.off_in == 0 || r.within(1, shape.off_in) != 1,
            })
            .collect();
        let mut rules = Vec::new();
        for _ in 0..shape.rules_of_a_kind {
            for kind in [Kind::Forbid, Kind::Activate, Kind::Price] {
                let fewest = if kind == Kind::Forbid {
                    shape.fewest_forbidden
                } else {
                    1
                };
                rules.push(Rule {
                    kind,
                    pairs: condition(r, &decisions, fewest),
                    target: r.within(0, shape.decisions - 1) as u8,
                    tier: r.within(0, 3) as u8,
                    cents: r.within(shape.least_cents, 1000) as u32,
                });
            }
        }
        Book { decisions, rules }
    }

    /// The bytes that the linked planner reads.
    pub fn bytes(&self) -> Vec<u8> {
        let mut out = vec![self.decisions.len() as u8];
        for d in &self.decisions {
            out.extend([d.size, d.on as u8]);
        }
        for rule in &self.rules {
            let mut record = [0u8; 16];
            record[0] = match rule.kind {
                Kind::Forbid => 0,
                Kind::Activate => 1,
                Kind::Price => 2,
            };
            record[1] = rule.pairs.len() as u8;
            for (i, &(d, v)) in rule.pairs.iter().enumerate() {
                record[2 + 2 * i] = d;
                record[3 + 2 * i] = v;
            }
            record[10] = rule.target;
            record[11] = rule.tier;
            record[12..].copy_from_slice(&rule.cents.to_le_bytes());
            out.extend(record);
        }
        out
    }
}
