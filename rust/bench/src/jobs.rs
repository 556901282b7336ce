//! The jobs, each over many lists of values or the streams that the library makes of them, and how long
//! a side takes for one.

use crate::sides::{self, Again, Ours, Side, by_paper};
use oracle::paper::models::ErrorBound;
use oracle::paper::rules;
use oracle::rust::Calls;
use std::hint::black_box;
use std::ops::Range;
use std::time::Instant;

/// What is timed on both sides.
#[derive(Clone, Copy, PartialEq)]
pub enum Job {
    Written,
    Read,
    Summed,
}

/// What a job is done on: lists of equally many values, the bound, and their streams.
pub struct Lists<'a> {
    pub rooms: &'a [Vec<f32>],
    pub bound: ErrorBound,
    pub streams: Vec<Vec<u8>>,
}

/// What a job makes of one list or stream.
#[derive(Clone, Copy)]
pub enum Made<'a> {
    Bytes(&'a [u8]),
    Values(&'a [f32]),
    Sum(f32),
}

impl<'a> Lists<'a> {
    pub fn new(rooms: &'a [Vec<f32>], bound: ErrorBound) -> Self {
        let streams = rooms.iter().map(|values| Ours.write(bound, values));
        Self {
            rooms,
            bound,
            streams: streams.collect(),
        }
    }

    /// How many values each list has.
    pub fn count(&self) -> usize {
        self.rooms[0].len()
    }

    /// How many values there are in all.
    pub fn values(&self) -> usize {
        self.rooms.len() * self.count()
    }

    /// The lists in parts of about a quarter of a million values, which take a few milliseconds.
    fn parts(&self) -> Vec<Range<usize>> {
        let size = (250_000 / self.count()).max(1);
        let starts = (0..self.rooms.len()).step_by(size);
        starts
            .map(|start| start..self.rooms.len().min(start + size))
            .collect()
    }

    /// Does a job on a part of the lists or streams; each result goes to `take`.
    fn run(&self, side: &dyn Side, job: Job, part: Range<usize>, take: &mut dyn FnMut(Made)) {
        let mut out = vec![0.0; self.count()];
        match job {
            Job::Written => {
                for values in &self.rooms[part] {
                    take(Made::Bytes(&side.write(self.bound, values)));
                }
            }
            Job::Read => {
                for bytes in &self.streams[part] {
                    side.read(bytes, &mut out);
                    take(Made::Values(&out));
                }
            }
            Job::Summed => {
                for bytes in &self.streams[part] {
                    take(Made::Sum(side.sum(bytes, self.count())));
                }
            }
        }
    }

    /// All that a job makes, in bytes.
    fn results(&self, side: &dyn Side, job: Job) -> Vec<Vec<u8>> {
        let mut all = vec![];
        self.run(side, job, 0..self.rooms.len(), &mut |made| {
            all.push(match made {
                Made::Bytes(bytes) => bytes.to_vec(),
                Made::Values(values) => values.iter().flat_map(|v| v.to_le_bytes()).collect(),
                Made::Sum(sum) => sum.to_le_bytes().to_vec(),
            });
        });
        all
    }

    /// Whether two sides make the same of a job.
    pub fn agree(&self, side: &dyn Side, other: &dyn Side, job: Job) -> bool {
        self.results(side, job) == self.results(other, job)
    }

    /// Whether a build of the Rust's text makes the same of a job as ours, but for streams of `filled` on which
    /// document 01's rules part.
    pub fn agree_with(&self, calls: &Calls, job: Job) -> bool {
        let ours = self.results(&Ours, job);
        let theirs = self.results(&calls.direct, job);
        let may_part = calls.is_filled() && job == Job::Written;
        let mut pairs = self.rooms.iter().zip(ours.iter().zip(&theirs));
        pairs.all(|(values, (ours, theirs))| {
            ours == theirs || may_part && self.have_parted(values, ours, theirs)
        })
    }

    /// Whether these are the streams of the values by today's rules and by the first ones.
    fn have_parted(&self, values: &[f32], ours: &[u8], theirs: &[u8]) -> bool {
        let write = || by_paper(self.bound, values);
        write() == ours && rules::as_first(write) == theirs
    }

    /// The nanoseconds a value that each side takes. The sides take turns on each part of the lists,
    /// round after round, and the best time of each part counts.
    pub fn times(&self, sides: &[&dyn Side], job: Job, rounds: u32) -> Vec<f64> {
        let mut tasks: Vec<Box<dyn FnMut(Range<usize>) + '_>> = vec![];
        for &side in sides {
            tasks.push(Box::new(move |part| {
                self.run(side, job, part, &mut |made| {
                    black_box(made);
                });
            }));
        }
        best(&self.parts(), &mut tasks, rounds, self.values())
    }

    /// The nanoseconds a value that it takes until a writer is back.
    pub fn coming_again(&mut self, again: Again, rounds: u32) -> f64 {
        let (parts, count, bound) = (self.parts(), self.count(), self.bound);
        let values = self.values();
        let streams = &mut self.streams;
        let mut task = |part: Range<usize>| {
            for bytes in &mut streams[part] {
                black_box(again(bound, bytes, count));
            }
        };
        best(&parts, &mut [&mut task], rounds, values)[0]
    }

    /// Whether the writer that comes back is the one that wrote the stream.
    pub fn comes_again(&mut self, again: Again) -> bool {
        let (count, bound) = (self.count(), self.bound);
        let pairs = self.rooms.iter().zip(&mut self.streams);
        let mut same = pairs
            .map(|(values, bytes)| again(bound, bytes, count) == sides::written(bound, values).0);
        same.all(|same| same)
    }
}

/// The nanoseconds that each task takes for one of the values: the tasks take turns on each part, round
/// after round, and the best time of each part counts.
fn best<T: FnMut(Range<usize>)>(
    parts: &[Range<usize>],
    tasks: &mut [T],
    rounds: u32,
    values: usize,
) -> Vec<f64> {
    let mut sums = vec![0.0; tasks.len()];
    for part in parts {
        let mut best = vec![f64::INFINITY; tasks.len()];
        for _ in 0..rounds {
            for (best, task) in best.iter_mut().zip(tasks.iter_mut()) {
                let begin = Instant::now();
                task(part.clone());
                *best = best.min(begin.elapsed().as_secs_f64());
            }
        }
        for (sum, best) in sums.iter_mut().zip(best) {
            *sum += best;
        }
    }
    let nanoseconds = |seconds: f64| seconds * 1e9 / values as f64;
    sums.into_iter().map(nanoseconds).collect()
}

#[cfg(test)]
mod tests {
    use super::{Job, Lists};
    use oracle::builds::AT_HAND;
    use oracle::paper::models::ErrorBound::Relative;

    /// Here the second value is kept as 24, and by the first rules as 18.
    #[test]
    fn filled_may_keep_what_the_first_rules_do() {
        let rooms = [vec![18.0, 25.0]];
        let lists = Lists::new(&rooms, Relative(28.0));
        for calls in AT_HAND.iter().filter(|calls| calls.is_filled()) {
            let (ours, theirs) = (
                &lists.streams[0],
                (calls.direct.write)(lists.bound, &rooms[0]),
            );
            assert_ne!(*ours, theirs);
            assert!(lists.agree_with(calls, Job::Written));
            assert!(!lists.have_parted(&rooms[0], &theirs, ours));
        }
    }
}
