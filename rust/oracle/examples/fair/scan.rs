//! Every M with every length of PMC-Mean, and of Swing the lengths at which the rules part.

use oracle::paper::MOST_METADATA;
use oracle::paper::types::wins_by_costs;
use std::ops::Range;
use std::thread;

/// M, and how many readings PMC-Mean and Swing stand for.
#[derive(Clone, Copy, Debug, PartialEq)]
pub struct Lengths {
    pub m: u32,
    pub pmc_mean: usize,
    pub swing: usize,
}

/// Where the rules part.
#[derive(Default)]
pub struct Parted {
    /// How many M with two lengths.
    pub lengths: u64,
    /// The one with the fewest readings of Swing, then the least M; and the other way round.
    pub fewest: Option<Lengths>,
    pub least: Option<Lengths>,
    /// Most lengths of Swing beside one M and length of PMC-Mean.
    pub most: u32,
    /// How many M and lengths of PMC-Mean there are beside which Swing wins by the costs where it does not by the
    /// products.
    pub by_costs_alone: u64,
}

impl Parted {
    fn with(self, other: Self) -> Self {
        let fewest = self.fewest.into_iter().chain(other.fewest);
        let least = self.least.into_iter().chain(other.least);
        Self {
            lengths: self.lengths + other.lengths,
            fewest: fewest.min_by_key(|found| (found.swing, found.m)),
            least: least.min_by_key(|found| (found.m, found.swing)),
            most: self.most.max(other.most),
            by_costs_alone: self.by_costs_alone + other.by_costs_alone,
        }
    }
}

/// The greatest length at which Swing does not win by the products.
pub fn last_lost(m: u32, pmc_mean: usize) -> usize {
    pmc_mean + pmc_mean / m as usize
}

/// How many lengths are gone through before it is looked at what was found.
const PIECE: u32 = 1024;

/// Lengths of PMC-Mean side by side that hold M equally often.
struct Piece {
    m: u32,
    times: u32,
    lengths: Range<u32>,
}

impl Piece {
    /// All lengths up to the longest, in pieces.
    fn all(m: u32, longest: u32) -> impl Iterator<Item = Self> {
        (0..=longest / m).flat_map(move |times| {
            let (from, to) = ((times * m).max(1), ((times + 1) * m).min(longest + 1));
            let pieces = (from..to).step_by(PIECE as usize);
            pieces.map(move |from| Self {
                m,
                times,
                lengths: from..to.min(from + PIECE),
            })
        })
    }

    /// Whether Swing wins by the costs at so many readings more than the last that loses by the products.
    fn wins(&self, pmc_mean: u32, more: u32) -> bool {
        let swing = pmc_mean + self.times + more;
        wins_by_costs(self.m, pmc_mean as usize, swing as usize)
    }

    /// Beside how many it wins at the last that loses by the products, also where that is above the longest.
    fn by_costs_alone(&self) -> u32 {
        let wins = |pmc_mean| u32::from(self.wins(pmc_mean, 0));
        self.lengths.clone().map(wins).sum()
    }

    /// Those for which Swing's length, so many readings behind that, is not above the longest.
    fn within(&self, longest: u32, more: u32) -> Range<u32> {
        let behind = (longest + 1).saturating_sub(self.times + more);
        self.lengths.start..self.lengths.end.min(behind)
    }

    /// Beside how many it does not win there.
    fn ties(&self, longest: u32, more: u32) -> u32 {
        let loses = |pmc_mean| u32::from(!self.wins(pmc_mean, more));
        self.within(longest, more).map(loses).sum()
    }

    /// The first of these.
    fn first(&self, longest: u32) -> Option<Lengths> {
        let is_tie = |&pmc_mean: &u32| !self.wins(pmc_mean, 1);
        let pmc_mean = self.within(longest, 1).find(is_tie)? as usize;
        let swing = last_lost(self.m, pmc_mean) + 1;
        Some(Lengths {
            m: self.m,
            pmc_mean,
            swing,
        })
    }
}

/// One M, with lengths up to the longest.
pub fn of(m: u32, longest: u32) -> Parted {
    let mut found = Parted::default();
    for piece in Piece::all(m, longest) {
        found.by_costs_alone += u64::from(piece.by_costs_alone());
        // Behind a length at which it wins beside all of them, it does so at every length.
        for more in 1.. {
            let ties = piece.ties(longest, more);
            if ties == 0 {
                break;
            }
            found.lengths += u64::from(ties);
            found.most = found.most.max(more);
            found.fewest = found.fewest.or_else(|| piece.first(longest));
        }
    }
    found.least = found.fewest;
    found
}

/// Every M, with lengths up to the longest.
pub fn all(longest: u32) -> Parted {
    let threads = thread::available_parallelism().map_or(1, usize::from);
    let some = |first: u32| {
        let sizes = (first..=MOST_METADATA).step_by(threads);
        sizes.fold(Parted::default(), |found, m| found.with(of(m, longest)))
    };
    thread::scope(|scope| {
        let firsts = 1..=threads as u32;
        let spawned: Vec<_> = firsts
            .map(|first| scope.spawn(move || some(first)))
            .collect();
        let found = spawned
            .into_iter()
            .map(|found| found.join().expect("a scan"));
        found.fold(Parted::default(), Parted::with)
    })
}
