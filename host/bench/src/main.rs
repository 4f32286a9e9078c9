//! Times every call of the proved library beside the plain model's and one pass over the state; prints tables and writes a plot.
//!
//! bench [PLOT]

mod cases;
mod plot;
mod states;
mod svg;
mod table;
mod target;
mod timing;

use states::Scale;
use std::process::ExitCode;
use timing::Timing;

/// Ratios above this are marked.
pub const LIMIT: f64 = 2.0;

const fn scale(count: usize, vcpus: usize) -> Scale {
    Scale { count, vcpus }
}

/// The devices' sizes.
pub const SCALES: [Scale; 6] = [
    scale(64, 1),
    scale(64, 8),
    scale(256, 1),
    scale(256, 8),
    scale(1024, 1),
    LARGEST,
];

/// The size at which the number of pending interrupts is varied.
pub const LARGEST: Scale = scale(1024, 8);

/// Numbers of pending interrupts.
pub const LINES: [usize; 6] = [0, 1, 10, 100, 300, 1000];

/// Everything that is timed: every kind of call by scale, the searches by the number of pending interrupts.
pub struct Run {
    pub by_scale: Vec<Vec<Timing>>,
    pub by_pending: Vec<Vec<Timing>>,
}

impl Run {
    fn new() -> Result<Run, String> {
        let by_scale = SCALES.map(|s| cases::all(s).into_iter().map(Timing::new).collect());
        let searches = |lines| cases::searches(LARGEST, lines).into_iter();
        let by_pending = LINES.map(|lines| searches(lines).map(Timing::new).collect());
        Ok(Run {
            by_scale: by_scale.into_iter().collect::<Result<_, String>>()?,
            by_pending: by_pending.into_iter().collect::<Result<_, String>>()?,
        })
    }

    fn measure(&mut self) {
        for _ in 0..timing::SWEEPS {
            let rows = self.by_scale.iter_mut().chain(&mut self.by_pending);
            rows.flatten().for_each(Timing::sweep);
        }
    }
}

fn run() -> Result<(), String> {
    let mut run = Run::new()?;
    run.measure();
    table::print(&run);
    match std::env::args_os().nth(1) {
        Some(path) => std::fs::write(path, plot::svg(&run)).map_err(|e| e.to_string()),
        None => Ok(()),
    }
}

fn main() -> ExitCode {
    match run() {
        Ok(()) => ExitCode::SUCCESS,
        Err(why) => {
            eprintln!("bench: {why}");
            ExitCode::FAILURE
        }
    }
}
