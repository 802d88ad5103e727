//! Tables of states, by family, from a fixed seed.

/// A machine: the flags of each state, and whether there is a step from s to t, at s×n+t.
pub struct Table {
    pub labels: Vec<u32>,
    pub steps: Vec<bool>,
}

impl Table {
    pub fn count(&self) -> usize {
        self.labels.len()
    }

    pub fn has_step(&self, s: usize, t: usize) -> bool {
        self.steps[s * self.count() + t]
    }

    fn new(
        n: usize,
        label: impl FnMut(usize) -> u32,
        mut step: impl FnMut(usize, usize) -> bool,
    ) -> Table {
        Table {
            labels: (0..n).map(label).collect(),
            steps: (0..n * n).map(|place| step(place / n, place % n)).collect(),
        }
    }
}

/// Numbers from a seed (xorshift).
struct Random(u64);

impl Random {
    fn next(&mut self) -> u64 {
        self.0 ^= self.0 << 13;
        self.0 ^= self.0 >> 7;
        self.0 ^= self.0 << 17;
        self.0
    }

    /// Below `bound`.
    fn below(&mut self, bound: usize) -> usize {
        (self.next() >> 16) as usize % bound
    }
}

const SEED: u64 = 0x5eed_2026_1127;

/// Two flags on and off by turns, so that no step leads to a like label.
fn by_turns(s: usize) -> u32 {
    1 << (s % 2)
}

/// Each pair has a step with chance `some` of `n`; each label is one of `kinds` sets of flags.
fn random(n: usize, some: usize, kinds: usize) -> Table {
    let mut labels = Random(SEED + n as u64);
    let mut steps = Random(SEED - n as u64);
    Table::new(
        n,
        |_| labels.below(kinds) as u32,
        |_, _| steps.below(n) < some,
    )
}

/// A family of tables, one for each number of states.
#[derive(Clone, Copy)]
pub enum Family {
    SparseRandom,
    DenseRandom,
    LongChain,
    OneCycle,
    AllLabelsEqual,
}

impl Family {
    pub const ALL: [Family; 5] = [
        Family::SparseRandom,
        Family::DenseRandom,
        Family::LongChain,
        Family::OneCycle,
        Family::AllLabelsEqual,
    ];

    pub fn name(self) -> &'static str {
        match self {
            Family::SparseRandom => "sparse random",
            Family::DenseRandom => "dense random",
            Family::LongChain => "long chain",
            Family::OneCycle => "one cycle",
            Family::AllLabelsEqual => "all labels equal",
        }
    }

    /// The table of `n` states: sparse has about two steps from each state, dense n/2, and the one of equal labels four. One
    /// state of the cycle is marked, so that its states differ by how far they are from it.
    pub fn table(self, n: usize) -> Table {
        match self {
            Family::SparseRandom => random(n, 2, 4),
            Family::DenseRandom => random(n, n / 2, 4),
            Family::LongChain => Table::new(n, by_turns, |s, t| t == s + 1),
            Family::OneCycle => Table::new(
                n,
                |s| if s == 0 { 4 } else { by_turns(s) },
                |s, t| t == (s + 1) % n,
            ),
            Family::AllLabelsEqual => random(n, 4, 1),
        }
    }
}
