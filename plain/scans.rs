//! Log-in, scans and trays of them in plain Rust, by the words of 02. The proved libraries are compared with it, in what they
//! answer (terminal/compare.rs) and in how long they take (bench/bench.rs).

use crate::plain::{go_through, Counted, Fault, Guard, Refusal, Relation, Table, Take, CLOCKS};

/// The reading at which a clock is held.
pub const HELD: u16 = 4001;

/// The most scans of a tray.
pub const TRAY: usize = 256;

/// A running record: the next step, from 1; what the clocks read, in whole ticks; and the counter of the last accepted scan, or of
/// log-in.
#[derive(Clone, Copy, Debug, PartialEq, Eq)]
pub struct Running {
    pub step: u16,
    pub readings: [u16; CLOCKS],
    pub counter: u16,
}

/// What is found of a scan: it is accepted, and the record goes on; or a guard of the next step, by its number there, from 1, turns
/// it away, and the record stays.
#[derive(Clone, Copy, Debug, PartialEq, Eq)]
pub enum Verdict {
    Accepted(Running),
    TurnedAway(usize),
}

pub fn log_in(counter: u16) -> Running {
    Running {
        step: 1,
        readings: [0; CLOCKS],
        counter,
    }
}

/// A scan, judged on the way through the records. What comes of it counts where the table and the record are accepted.
pub fn scan(bytes: &[u8], running: Running, counter: u16) -> Result<Verdict, Refusal> {
    let mut scan = Scan {
        next: running.step,
        readings: running.readings_at(counter),
        step: 1,
        guards: 0,
        failed: None,
        resets: 0,
    };
    let counted = go_through(bytes, &mut scan)?;
    running.fits(counted)?;
    Ok(match scan.failed {
        Some(guard) => Verdict::TurnedAway(guard),
        None => Verdict::Accepted(running.after(counted, scan.readings, scan.resets, counter)),
    })
}

/// A scan on the way: the next step, and what the clocks read at it; the step that the records are of; and of the next step
/// the guards so far, the first that does not hold, and the clocks that it resets, as bits.
struct Scan {
    next: u16,
    readings: [u16; CLOCKS],
    step: u16,
    guards: usize,
    failed: Option<usize>,
    resets: u8,
}

impl Take for Scan {
    fn guard(&mut self, guard: Guard) {
        if self.step == self.next {
            self.guards += 1;
            if self.failed.is_none() && !holds(&guard, &self.readings) {
                self.failed = Some(self.guards);
            }
        }
    }

    fn step(&mut self, resets: u8) {
        if self.step == self.next {
            self.resets = resets;
        }
        self.step += 1;
    }
}

/// A tray: scans at these counters, one after the other. The first places of `verdicts` get 0 for each that is accepted, and for
/// each other the number of the guard that turns it away. The record after them, and how many are accepted.
pub fn tray(
    bytes: &[u8],
    mut running: Running,
    counters: &[u16],
    verdicts: &mut [u16],
) -> Result<(Running, usize), Refusal> {
    let table = Table::parse(bytes)?;
    running.fits(table.counted)?;
    if counters.len() > TRAY {
        return refuse(Fault::Tray);
    }
    if verdicts.len() < counters.len() {
        return refuse(Fault::Verdicts);
    }
    let mut accepted = 0;
    for (&counter, verdict) in counters.iter().zip(verdicts) {
        let step = usize::from(running.step) - 1;
        let readings = running.readings_at(counter);
        let fails = |guard: &Guard| !holds(guard, &readings);
        *verdict = match table.guards_of(step).iter().position(fails) {
            Some(place) => place as u16 + 1,
            None => {
                running = running.after(table.counted, readings, table.resets[step], counter);
                accepted += 1;
                0
            }
        };
    }
    Ok((running, accepted))
}

fn refuse<T>(fault: Fault) -> Result<T, Refusal> {
    Err(Refusal { fault, place: 0 })
}

impl Running {
    /// Refused where a table of these numbers cannot go on from the record.
    fn fits(&self, counted: Counted) -> Result<(), Refusal> {
        let held = self.readings[..counted.clocks].iter().all(|&r| r <= HELD);
        if (1..=counted.steps).contains(&self.step.into()) && held {
            Ok(())
        } else {
            refuse(Fault::Record)
        }
    }

    /// What the clocks read at a counter.
    fn readings_at(&self, counter: u16) -> [u16; CLOCKS] {
        let elapsed = counter.wrapping_sub(self.counter);
        self.readings.map(|r| r.saturating_add(elapsed).min(HELD))
    }

    /// The record after a scan that is accepted, with these readings, at a step that resets these clocks.
    fn after(
        mut self,
        counted: Counted,
        readings: [u16; CLOCKS],
        resets: u8,
        counter: u16,
    ) -> Running {
        for clock in 1..=counted.clocks {
            let reset = resets >> clock & 1 == 1;
            self.readings[clock - 1] = if reset { 0 } else { readings[clock - 1] };
        }
        self.step = self.step % counted.steps as u16 + 1;
        self.counter = counter;
        self
    }
}

/// Whether a guard holds of what the clocks read.
fn holds(guard: &Guard, readings: &[u16; CLOCKS]) -> bool {
    let reading = readings[usize::from(guard.clock) - 1];
    match guard.relation {
        Relation::Under => reading < guard.constant,
        Relation::AtMost => reading <= guard.constant,
        Relation::Exactly => reading == guard.constant,
        Relation::AtLeast => reading >= guard.constant,
        Relation::Over => reading > guard.constant,
    }
}

/// All in the form of the C interface (terminal/scan.h, terminal/tray.h): the record in the first eight places of a lent row, and the
/// answer in the first four of another; false, and nothing done, where a row has fewer.
pub mod entries {
    use super::{Refusal, Running, Verdict};

    fn row([step, a, b, c, d, e, f, counter]: [u16; 8]) -> Running {
        Running {
            step,
            readings: [a, b, c, d, e, f],
            counter,
        }
    }

    fn numbers(running: Running) -> [u16; 8] {
        let [a, b, c, d, e, f] = running.readings;
        [running.step, a, b, c, d, e, f, running.counter]
    }

    fn refusal(refusal: Refusal) -> [u64; 4] {
        [refusal.fault as u64, refusal.place as u64, 0, 0]
    }

    pub fn log_in(counter: u16, running: &mut [u16]) -> bool {
        let Some(record) = running.first_chunk_mut() else {
            return false;
        };
        *record = numbers(super::log_in(counter));
        true
    }

    pub fn scan(table: &[u8], counter: u16, running: &mut [u16], answer: &mut [u64]) -> bool {
        let (Some(record), Some(answer)) = (running.first_chunk_mut(), answer.first_chunk_mut())
        else {
            return false;
        };
        *answer = match super::scan(table, row(*record), counter) {
            Ok(Verdict::Accepted(after)) => {
                *record = numbers(after);
                [0; 4]
            }
            Ok(Verdict::TurnedAway(guard)) => [0, guard as u64, 0, 0],
            Err(refused) => refusal(refused),
        };
        true
    }

    pub fn tray(
        table: &[u8],
        counters: &[u16],
        running: &mut [u16],
        verdicts: &mut [u16],
        answer: &mut [u64],
    ) -> bool {
        let (Some(record), Some(answer)) = (running.first_chunk_mut(), answer.first_chunk_mut())
        else {
            return false;
        };
        *answer = match super::tray(table, row(*record), counters, verdicts) {
            Ok((after, accepted)) => {
                *record = numbers(after);
                [0, accepted as u64, 0, 0]
            }
            Err(refused) => refusal(refused),
        };
        true
    }
}
