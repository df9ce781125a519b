//! Spreads work over the cores and hands what comes of it on in the order of the work, so that no output depends on their number.

use indicatif::{ProgressBar, ProgressDrawTarget, ProgressStyle};
use rayon::prelude::*;
use std::collections::BTreeMap;
use std::error::Error;
use std::io::{self, IsTerminal};
use std::sync::mpsc::{channel, Receiver};

/// What every worker has for a stack; 384 kilobytes were enough for every entry that was measured (docs/SPEED.md).
const STACK: usize = 8 << 20;

/// How much of the machine a command takes, and whether it shows how far it is.
#[derive(clap::Args)]
pub struct Spread {
    /// Use so many cores; 0 is all
    #[arg(short, long, value_name = "N", default_value_t = 0)]
    jobs: usize,
    /// No progress bar and no summary on standard error
    #[arg(short, long)]
    pub quiet: bool,
}

impl Spread {
    /// Does the work for each item, and then something with what came of it, item by item as they stand in the list. Ends early where that fails.
    pub fn over<I: Sync, R: Send>(
        &self,
        items: &[I],
        work: impl Fn(&I) -> R + Sync,
        mut then: impl FnMut(&I, R) -> io::Result<()>,
    ) -> Result<(), Box<dyn Error>> {
        let pool = rayon::ThreadPoolBuilder::new().num_threads(self.jobs).stack_size(STACK).build()?;
        let bar = self.bar(items.len());
        // Answers and the bar at one terminal: the bar makes way.
        let shared = !bar.is_hidden() && io::stdout().is_terminal();
        let (sender, receiver) = channel();
        std::thread::scope(|scope| {
            scope.spawn(|| {
                // An error here is that nobody listens any more, and ends the work.
                let _ = pool.install(|| {
                    items.iter().enumerate().par_bridge().try_for_each_with(sender, |sender, (i, item)| sender.send((i, work(item))))
                });
            });
            in_turn(receiver, |i, result| {
                bar.inc(1);
                if shared {
                    return bar.suspend(|| then(&items[i], result));
                }
                then(&items[i], result)
            })
        })?;
        bar.finish_and_clear();
        Ok(())
    }

    /// Only people see a bar.
    fn bar(&self, length: usize) -> ProgressBar {
        if self.quiet || !io::stderr().is_terminal() {
            return ProgressBar::hidden();
        }
        let style = ProgressStyle::with_template("{bar:30} {pos}/{len}, {eta} left").expect("a good template");
        ProgressBar::with_draw_target(Some(length as u64), ProgressDrawTarget::stderr()).with_style(style)
    }
}

/// What comes in any order, handed on from number 0 upwards.
fn in_turn<R>(receiver: Receiver<(usize, R)>, mut then: impl FnMut(usize, R) -> io::Result<()>) -> io::Result<()> {
    let mut early = BTreeMap::new();
    let mut next = 0;
    for (i, result) in receiver {
        early.insert(i, result);
        while let Some(result) = early.remove(&next) {
            then(next, result)?;
            next += 1;
        }
    }
    Ok(())
}
