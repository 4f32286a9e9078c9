//! Timing: library, plain model and pass in turns, and of each the least of many rounds.

use crate::cases::Case;
use crate::target::{Library, Target};
use calls::Call;
use std::hint::black_box;
use std::time::Instant;
use vgic::STATE_WORDS;

/// Times that each case's rounds are gone through, spread over the whole run.
pub const SWEEPS: usize = 5;
/// Rounds of a case in a sweep.
const ROUNDS: usize = 80;
/// The least nanoseconds of a round.
const ROUND_NS: f64 = 20_000.0;

/// One pass over the state: the floor that the test for a sound state sets.
#[inline(never)]
fn pass(words: &[u32; STATE_WORDS]) -> u32 {
    words.iter().fold(0, |joined, word| joined | word)
}

/// A device that is timed, and how often its calls are made in a round.
struct Timed<T: Target> {
    device: T,
    start: T,
    units: usize,
    empty_units: usize,
    least: f64,
    least_empty: f64,
}

/// A case that is timed, and the least times so far.
pub struct Timing {
    pub case: Case,
    library: Timed<Library>,
    model: Timed<plain_model::Device>,
    pass_units: usize,
    least_pass: f64,
    /// What the calls lend beside the state.
    bytes: Vec<u8>,
}

fn ns_each(units: usize, mut work: impl FnMut()) -> f64 {
    let start = Instant::now();
    for _ in 0..units {
        work();
    }
    start.elapsed().as_nanos() as f64 / units as f64
}

/// How often work is done in a round that is long enough.
fn enough(mut time: impl FnMut(usize) -> f64) -> usize {
    let mut units = 1;
    while time(units) * units as f64 <= ROUND_NS {
        units += units.div_ceil(2);
    }
    units
}

impl<T: Target> Timed<T> {
    fn new(case: &Case, bytes: &mut [u8]) -> Timed<T> {
        let start = T::of_words(&case.words);
        let mut timed = Timed {
            device: start.clone(),
            start,
            units: 1,
            empty_units: 1,
            least: f64::INFINITY,
            least_empty: if case.put_back { f64::INFINITY } else { 0.0 },
        };
        timed.units = enough(|n| timed.round(case, &case.calls, n, bytes));
        if case.put_back {
            timed.empty_units = enough(|n| timed.round(case, &[], n, bytes));
        }
        timed
    }

    /// The time of the calls, with the state put back before them where the case says so.
    fn round(&mut self, case: &Case, calls: &[Call], units: usize, bytes: &mut [u8]) -> f64 {
        let (device, start) = (&mut self.device, &self.start);
        ns_each(units, || {
            if case.put_back {
                device.clone_from(black_box(start));
            }
            for call in black_box(calls) {
                black_box(device.call(call, bytes));
            }
            black_box(&mut *device);
        })
    }

    fn measure(&mut self, case: &Case, bytes: &mut [u8]) {
        let time = self.round(case, &case.calls, self.units, bytes);
        self.least = self.least.min(time);
        if case.put_back {
            let time = self.round(case, &[], self.empty_units, bytes);
            self.least_empty = self.least_empty.min(time);
        }
    }

    /// The least time of one call.
    fn each(&self, case: &Case) -> f64 {
        (self.least - self.least_empty) / case.calls.len() as f64
    }
}

/// The answers of a case's calls, and the words and bytes after them.
fn outcome<T: Target>(case: &Case) -> (Vec<i64>, [u32; STATE_WORDS], Vec<u8>) {
    let (mut device, mut bytes) = (T::of_words(&case.words), case.lent());
    let mut answer = |call| device.call(call, &mut bytes);
    let answers = case.calls.iter().map(&mut answer).collect();
    (answers, device.words(), bytes)
}

/// Whether library and model agree, every call is granted or refused as it should be, and the state is as it was or is put back.
fn check(case: &Case) -> Result<(), String> {
    let library = outcome::<Library>(case);
    if library != outcome::<plain_model::Device>(case) {
        return Err(format!("{}: library and plain model differ", case.name));
    }
    let (answers, words, _) = library;
    let is_right = |answer| {
        case.refusal
            .map_or(answer >= 0, |refusal| answer == refusal)
    };
    if !answers.iter().all(|&answer| is_right(answer)) {
        return Err(format!("{}: answered {answers:?}", case.name));
    }
    if !case.put_back && words != case.words {
        return Err(format!("{}: the state is another afterwards", case.name));
    }
    Ok(())
}

impl Timing {
    /// A case that was checked, ready to be timed.
    pub fn new(case: Case) -> Result<Timing, String> {
        check(&case)?;
        let mut bytes = case.lent();
        let (library, model) = (Timed::new(&case, &mut bytes), Timed::new(&case, &mut bytes));
        let mut timing = Timing {
            case,
            library,
            model,
            pass_units: 1,
            least_pass: f64::INFINITY,
            bytes,
        };
        timing.pass_units = enough(|n| timing.pass_round(n));
        Ok(timing)
    }

    fn pass_round(&self, units: usize) -> f64 {
        ns_each(units, || {
            black_box(pass(black_box(&self.library.device.0)));
        })
    }

    /// A sweep's rounds.
    pub fn sweep(&mut self) {
        for _ in 0..ROUNDS {
            self.library.measure(&self.case, &mut self.bytes);
            self.model.measure(&self.case, &mut self.bytes);
            self.least_pass = self.least_pass.min(self.pass_round(self.pass_units));
        }
    }

    /// Nanoseconds of one of the library's calls.
    pub fn library_ns(&self) -> f64 {
        self.library.each(&self.case)
    }

    /// Nanoseconds of one of the plain model's calls.
    pub fn model_ns(&self) -> f64 {
        self.model.each(&self.case)
    }

    /// Nanoseconds of one pass over the state.
    pub fn pass_ns(&self) -> f64 {
        self.least_pass
    }

    /// What the library's time is held to: the plain model's call, and the pass where the case has one.
    pub fn held_to_ns(&self) -> f64 {
        let floor = if self.case.with_pass {
            self.least_pass
        } else {
            0.0
        };
        self.model_ns() + floor
    }

    /// The library's time over what it is held to.
    pub fn ratio(&self) -> f64 {
        self.library_ns() / self.held_to_ns()
    }
}
