//! Holds the proved library's answers to "rounds" and "plan" against a search over clock readings: thousands of small random
//! tables, each asked for its rounds, and for plans of 1 to 5 rounds, from log-in and in mid-shift. The search shares nothing with
//! the library or plain.rs. Also holds the two variants against each other, in counts, plans and demands. The panel's windows, of
//! rounds of few steps, are held against a search over all rows of moments. And each scan of a shift, given singly or in a tray, is
//! held against 01's rules of a run, by true times, which go on where the rail's counter starts again.
//!
//! Prints how many tables and answers there were of each kind, and the first tables on which the two differ, with the question
//! and the difference. Exit status 1 where one differs.

#[allow(dead_code)] // All questions but "read" are asked here.
#[path = "judge.rs"]
mod judge;
#[path = "panel.rs"]
mod panel;
#[path = "scan.rs"]
mod scan;
#[path = "tray.rs"]
mod tray;

use std::array::from_fn;

const TABLES: u64 = 3000;

/// The most clocks, steps and guards of a table, the most rounds that it is asked for, and the most moments of these.
const CLOCKS: usize = 3;
const STEPS: usize = 3;
const GUARDS: usize = 6;
const ROUNDS: usize = 5;
const MOMENTS: usize = ROUNDS * STEPS;

/// With which readings the clocks may start: all 0, or any.
#[derive(Clone, Copy, PartialEq)]
enum Start {
    LogIn,
    MidShift,
}

const STARTS: [Start; 2] = [Start::LogIn, Start::MidShift];

impl Start {
    fn name(self) -> &'static str {
        match self {
            Start::LogIn => "from log-in",
            Start::MidShift => "in mid-shift",
        }
    }

    fn rounds(self, bytes: &[u8], answer: &mut [u64]) -> bool {
        match self {
            Start::LogIn => judge::rounds(bytes, answer),
            Start::MidShift => judge::rounds_mid_shift(bytes, answer),
        }
    }

    fn plan(
        self,
        bytes: &[u8],
        k: usize,
        [times, starts, room]: [&mut [u64]; 3],
        answer: &mut [u64],
    ) -> bool {
        let plan = match self {
            Start::LogIn => judge::plan,
            Start::MidShift => judge::plan_mid_shift,
        };
        plan(bytes, k as u64, times, starts, room, answer)
    }

    fn demands(self, bytes: &[u8], k: usize, row: &mut [i64], answer: &mut [u64]) -> bool {
        let demands = match self {
            Start::LogIn => judge::demands,
            Start::MidShift => judge::demands_mid_shift,
        };
        demands(bytes, k as u64, row, answer)
    }
}

/// Random numbers by the generator of Park and Miller.
struct Random(u64);

impl Random {
    /// A number below n.
    fn below(&mut self, n: usize) -> usize {
        self.0 = self.0 * 48271 % 2147483647;
        (self.0 / 16) as usize % n
    }
}

// Tables. Clocks, steps and guards are counted from 0.

#[derive(Clone, Copy)]
enum Relation {
    Under,
    AtMost,
    Exactly,
    AtLeast,
    Over,
}

/// All relations, each at the place of its number in a table's bytes.
const RELATIONS: [Relation; 5] = [
    Relation::Under,
    Relation::AtMost,
    Relation::Exactly,
    Relation::AtLeast,
    Relation::Over,
];

struct Guard {
    step: usize,
    clock: usize,
    relation: Relation,
    constant: u64,
}

impl Guard {
    /// Whether it holds of a reading in parts.
    fn holds(&self, parts: u64, reading: u64) -> bool {
        let constant = parts * self.constant;
        match self.relation {
            Relation::Under => reading < constant,
            Relation::AtMost => reading <= constant,
            Relation::Exactly => reading == constant,
            Relation::AtLeast => reading >= constant,
            Relation::Over => reading > constant,
        }
    }
}

/// Where a step's resets are written: after its guards, before them, or before them and once more after them, which is refused.
#[derive(Clone, Copy, PartialEq)]
enum Order {
    After,
    Before,
    Twice,
}

const ORDERS: [Order; 3] = [Order::After, Order::Before, Order::Twice];

/// A small table. Of resets and orders only those of its own steps and clocks count.
struct Table {
    clocks: usize,
    steps: usize,
    /// For each step and clock, whether the step resets the clock.
    resets: [[bool; CLOCKS]; STEPS],
    orders: [Order; STEPS],
    guards: Vec<Guard>,
}

impl Table {
    /// A table of 1 to 3 clocks, 1 to 3 steps, and up to 6 guards with constants 0 to 3. Half of the tables are led: there the
    /// last clock is never reset and bounds the rounds from above, by constants to 7, and the others make them take time.
    fn draw(random: &mut Random) -> Table {
        let led = random.below(2) == 1;
        let clocks = random.below(CLOCKS) + 1;
        let steps = random.below(STEPS) + 1;
        let guards = random.below(GUARDS + 1);
        let leads = |clock: usize| led && clock + 1 == clocks;
        // A clock is reset with a chance of a third, and in a led table of two thirds.
        let resets = from_fn(|_| {
            from_fn(|clock| {
                let third = random.below(3);
                !leads(clock) && (third == 1 || led && third == 2)
            })
        });
        let orders = from_fn(|_| ORDERS[random.below(3)]);
        let guards = (0..guards)
            .map(|_| {
                let step = random.below(steps);
                let clock = random.below(clocks);
                let relations = match (led, leads(clock)) {
                    (false, _) => &RELATIONS[..],
                    (true, true) => &RELATIONS[..2],
                    (true, false) => &RELATIONS[3..],
                };
                let relation = relations[random.below(relations.len())];
                // With three clocks a larger constant would make the grid too large.
                let constants = match (led, leads(clock)) {
                    (false, _) => 4,
                    (true, true) if clocks < 3 => 8,
                    (true, true) => 4,
                    (true, false) => 2,
                };
                let constant = random.below(constants) as u64;
                Guard {
                    step,
                    clock,
                    relation,
                    constant,
                }
            })
            .collect();
        Table {
            clocks,
            steps,
            resets,
            orders,
            guards,
        }
    }

    fn guards_of(&self, step: usize) -> impl Iterator<Item = &Guard> {
        self.guards.iter().filter(move |guard| guard.step == step)
    }

    fn resets_of(&self, step: usize) -> impl Iterator<Item = usize> + '_ {
        (0..self.clocks).filter(move |&clock| self.resets[step][clock])
    }

    /// The table as bytes, with each reset of a step once.
    fn bytes(&self) -> Vec<u8> {
        self.written(false).0
    }

    /// The table as bytes, with resets once more where the order says so; and the place of the first that is there already.
    fn written(&self, twice: bool) -> (Vec<u8>, Option<usize>) {
        let mut bytes = vec![1, self.clocks as u8];
        let mut repeated = None;
        for step in 0..self.steps {
            let resets: Vec<u8> = self
                .resets_of(step)
                .flat_map(|clock| [3, clock as u8 + 1])
                .collect();
            let order = self.orders[step];
            if order != Order::After {
                bytes.extend(&resets);
            }
            for guard in self.guards_of(step) {
                let [low, high] = (guard.constant as u16).to_le_bytes();
                bytes.extend([2, guard.clock as u8 + 1, guard.relation as u8, low, high]);
            }
            if order == Order::Twice && twice && !resets.is_empty() {
                repeated.get_or_insert(bytes.len());
            }
            if order == Order::After || order == Order::Twice && twice {
                bytes.extend(&resets);
            }
            bytes.push(4);
        }
        bytes.push(5);
        (bytes, repeated)
    }

    /// The table with weak guards in place of strict ones.
    fn weakened(&self) -> Table {
        let weak = |guard: &Guard| Guard {
            relation: match guard.relation {
                Relation::Under => Relation::AtMost,
                Relation::Over => Relation::AtLeast,
                relation => relation,
            },
            ..*guard
        };
        Table {
            guards: self.guards.iter().map(weak).collect(),
            ..*self
        }
    }

    /// The table with constants so many times as large, up to the largest that there may be.
    fn stretched(&self, by: u64) -> Table {
        let large = |guard: &Guard| Guard {
            constant: (by * guard.constant).min(4000),
            ..*guard
        };
        Table {
            guards: self.guards.iter().map(large).collect(),
            ..*self
        }
    }

    fn largest_constant(&self) -> u64 {
        self.guards.iter().map(|g| g.constant).max().unwrap_or(0)
    }

    fn moments(&self, k: usize) -> usize {
        k * self.steps
    }

    /// The parts to a tick in a plan for k rounds.
    fn parts(&self, k: usize) -> u64 {
        (self.moments(k) + self.clocks + 1) as u64
    }

    /// Whether all guards of a step hold of the readings, in parts.
    fn allows(&self, step: usize, parts: u64, readings: [u64; CLOCKS]) -> bool {
        self.guards_of(step)
            .all(|guard| guard.holds(parts, readings[guard.clock]))
    }

    /// The readings once a step has reset its clocks.
    fn after(&self, step: usize, mut readings: [u64; CLOCKS]) -> [u64; CLOCKS] {
        for clock in self.resets_of(step) {
            readings[clock] = 0;
        }
        readings
    }
}

// The search on a grid.

/// The most states of a grid.
const STATES: usize = 32768;

/// Later than any moment: the time of a state that is not reached.
const NEVER: u64 = 1_000_000;

/// Clock readings in parts, and what is known of them.
struct State {
    /// The state a part later.
    later: usize,
    /// For each step, whether the readings allow it, and the state after its resets.
    open: [bool; STEPS],
    after: [usize; STEPS],
    /// For each moment, whether from here, past that moment, the rest of a run can be completed.
    alive: [bool; MOMENTS + 1],
    /// The least time so far.
    time: u64,
}

/// All states. A reading above the largest constant counts as one part above it: no guard tells them apart. So a clock has
/// `width` readings, and a state is a number: x + width * y + width * width * z for the readings x, y and z.
struct Grid<'a> {
    table: &'a Table,
    moments: usize,
    states: Vec<State>,
}

impl Grid<'_> {
    /// The grid for k rounds with so many parts to a tick, unless it would be too large.
    fn new(table: &Table, k: usize, parts: u64) -> Option<Grid<'_>> {
        let width = parts * table.largest_constant() + 2;
        let size = width.pow(table.clocks as u32) as usize;
        (size <= STATES).then(|| Grid {
            table,
            moments: table.moments(k),
            states: (0..size as u64)
                .map(|number| State::new(table, parts, width, number))
                .collect(),
        })
    }

    /// Backward: from which states the rest of a run can be completed.
    fn complete(&mut self) {
        let states = &mut self.states;
        for state in states.iter_mut() {
            state.alive[self.moments] = true;
        }
        for i in (0..self.moments).rev() {
            let step = i % self.table.steps;
            // In falling order: waiting leads to a state that was passed, or to the same.
            for number in (0..states.len()).rev() {
                let state = &states[number];
                let takes = state.open[step] && states[state.after[step]].alive[i + 1];
                states[number].alive[i] = takes || states[state.later].alive[i];
            }
        }
    }

    /// The states that a run may start in. State 0 is that of readings 0.
    fn starts(&mut self, start: Start) -> &mut [State] {
        match start {
            Start::LogIn => &mut self.states[..1],
            Start::MidShift => &mut self.states,
        }
    }

    /// After `complete`: whether there is a run.
    fn has_run(&mut self, start: Start) -> bool {
        self.starts(start).iter().any(|state| state.alive[0])
    }

    /// Forward, after `complete`: for each moment the earliest over all runs, or `NEVER`.
    fn earliest(&mut self, start: Start) -> Vec<u64> {
        for state in &mut self.states {
            state.time = NEVER;
        }
        for state in self.starts(start) {
            state.time = 0;
        }
        (0..self.moments)
            .map(|i| {
                self.wait();
                self.take(i % self.table.steps, i + 1)
            })
            .collect()
    }

    /// A state is reached at a time, or was earlier.
    fn reach(&mut self, number: usize, time: u64) {
        let state = &mut self.states[number];
        state.time = state.time.min(time);
    }

    /// Time passes.
    fn wait(&mut self) {
        for number in 0..self.states.len() {
            let state = &self.states[number];
            self.reach(state.later, state.time + 1);
        }
    }

    /// All states whose readings allow it take the step to moment i. The least time at which the rest of a run is possible.
    fn take(&mut self, step: usize, i: usize) -> u64 {
        let mut earliest = NEVER;
        // In rising order: a reset leads to a state that was passed, or to the same.
        for number in 0..self.states.len() {
            let state = &mut self.states[number];
            let left = std::mem::replace(&mut state.time, NEVER);
            if left < NEVER && state.open[step] {
                let after = state.after[step];
                self.reach(after, left);
                if self.states[after].alive[i] {
                    earliest = earliest.min(left);
                }
            }
        }
        earliest
    }
}

impl State {
    fn new(table: &Table, parts: u64, width: u64, number: u64) -> State {
        let readings = [
            number % width,
            number / width % width,
            number / width / width,
        ];
        let number_of = |[x, y, z]: [u64; CLOCKS]| (x + width * (y + width * z)) as usize;
        let mut later = readings;
        for reading in &mut later[..table.clocks] {
            *reading = (*reading + 1).min(width - 1);
        }
        State {
            later: number_of(later),
            open: from_fn(|step| table.allows(step, parts, readings)),
            after: from_fn(|step| number_of(table.after(step, readings))),
            alive: [false; MOMENTS + 1],
            time: NEVER,
        }
    }
}

// The search over all rows of moments.

/// The most steps of a row, and the most rows that are looked through.
const ROW: usize = 4;
const ROWS: u64 = 400_000;

/// When a step happens: the earliest and the latest moment of all rows that are runs.
type Reach = Option<(u64, u64)>;

/// All rows of moments up to a last one.
struct Rows<'a> {
    table: &'a Table,
    parts: u64,
    last: u64,
    row: [u64; ROW],
    reach: [Reach; ROW],
}

impl Rows<'_> {
    /// Each moment from here on, at every time that is not before the one before it.
    fn from(&mut self, i: usize, moments: usize, readings: [u64; CLOCKS]) {
        if i == moments {
            for (reach, &time) in self.reach.iter_mut().zip(&self.row[..moments]) {
                let (first, last) = reach.unwrap_or((time, time));
                *reach = Some((first.min(time), last.max(time)));
            }
            return;
        }
        let before = if i == 0 { 0 } else { self.row[i - 1] };
        for time in before..=self.last {
            let at = readings.map(|reading| reading + time - before);
            if self.table.allows(i % self.table.steps, self.parts, at) {
                self.row[i] = time;
                let after = self.table.after(i % self.table.steps, at);
                self.from(i + 1, moments, after);
            }
        }
    }
}

/// A window in parts: when a step may happen.
#[derive(Clone, Copy)]
enum Window {
    Closed(u64, u64),
    Open(u64),
    Absent,
}

impl Table {
    /// The windows of the steps of k rounds from log-in, by all rows of moments up to a last one, unless these are too many.
    ///
    /// Let `most` be as many parts as the guards of all steps together can hold a step from above, or keep it waiting from below;
    /// the last moment is twice as far and one part. If there is a run, the earliest moments are one, and none is above `most`:
    /// each is 0, that of the step before, or that of an earlier step and at most a constant and a part. A step that is bounded
    /// from above is so by guards of different steps, one after the other from log-in, and so by `most`. The last moment adds
    /// a bound to the last step, which comes to another only by guards from below of different steps, and so allows it `most`
    /// and a part. So a closed window is found whole, and an open one reaches above `most`.
    fn windows(&self, k: usize) -> Option<Vec<Window>> {
        let (moments, parts) = (self.moments(k), self.parts(k));
        if moments > ROW {
            return None;
        }
        let most = moments as u64 * (parts * self.largest_constant() + 1);
        let last = 2 * most + 1;
        let rows = (1..=moments as u64).fold(1, |rows, i| rows * (last + i) / i);
        if rows > ROWS {
            return None;
        }
        let mut rows = Rows {
            table: self,
            parts,
            last,
            row: [0; ROW],
            reach: [None; ROW],
        };
        rows.from(0, moments, [0; CLOCKS]);
        let window = |reach: &Reach| match *reach {
            None => Window::Absent,
            Some((first, last)) if last > most => Window::Open(first),
            Some((first, last)) => Window::Closed(first, last),
        };
        Some(rows.reach[..moments].iter().map(window).collect())
    }
}

// Whether a plan is a run.

impl Table {
    /// Whether the moments are a run from these readings, step by step.
    fn runs(&self, parts: u64, times: &[u64], mut readings: [u64; CLOCKS]) -> bool {
        let mut now = 0;
        for (i, &time) in times.iter().enumerate() {
            if time < now {
                return false;
            }
            for reading in &mut readings {
                *reading = reading.saturating_add(time - now);
            }
            let step = i % self.steps;
            if !self.allows(step, parts, readings) {
                return false;
            }
            readings = self.after(step, readings);
            now = time;
        }
        true
    }

    /// The first clock, if any, that could start a part lower in a run.
    fn too_high(&self, parts: u64, times: &[u64], starts: [u64; CLOCKS]) -> Option<usize> {
        let mut above = (0..self.clocks).filter(|&clock| starts[clock] != 0);
        above.find(|&clock| {
            let mut lowered = starts;
            lowered[clock] -= 1;
            self.runs(parts, times, lowered)
        })
    }
}

// Whether a row of moments is a loop. Moment 0 is the start, the steps follow, and then each clock's last reset before the start.

/// At most so many ticks from one moment to another, or under that many unless it is loose: the tighter, the smaller.
#[derive(Clone, Copy, PartialEq, Eq, PartialOrd, Ord)]
struct Demand {
    bound: i64,
    loose: bool,
}

/// What a loop is: one whose sum is below 0, or one whose sum is 0 with a strict demand.
#[derive(PartialEq)]
enum Loop {
    Below,
    Strict,
}

impl Table {
    /// The moment of the last reset of a clock before moment i.
    fn last_reset(&self, moments: usize, clock: usize, i: usize) -> usize {
        (1..i)
            .rev()
            .find(|m| self.resets[(m - 1) % self.steps][clock])
            .unwrap_or(moments + clock + 1)
    }

    /// The demand of a guard at moment i between two moments, if it has one.
    fn of_guard(
        &self,
        moments: usize,
        guard: &Guard,
        i: usize,
        pair: (usize, usize),
    ) -> Option<Demand> {
        let reset = self.last_reset(moments, guard.clock, i);
        let constant = guard.constant as i64;
        let demand = |bound, loose| Some(Demand { bound, loose });
        if pair == (reset, i) {
            match guard.relation {
                Relation::Under => demand(constant, false),
                Relation::AtMost | Relation::Exactly => demand(constant, true),
                Relation::AtLeast | Relation::Over => None,
            }
        } else if pair == (i, reset) {
            match guard.relation {
                Relation::Under | Relation::AtMost => None,
                Relation::Exactly | Relation::AtLeast => demand(-constant, true),
                Relation::Over => demand(-constant, false),
            }
        } else {
            None
        }
    }

    /// The tightest demand between two moments, if there is one.
    fn tightest(&self, start: Start, moments: usize, (from, to): (usize, usize)) -> Option<Demand> {
        // Moments do not decrease, and a clock's last reset before the start is not after it, nor before log-in.
        let ordered = from == to + 1 && from <= moments
            || from == 0 && to > moments
            || start == Start::LogIn && from > moments && to == 0;
        let order = ordered.then_some(Demand {
            bound: 0,
            loose: true,
        });
        let of_guards = (1..=moments).flat_map(|i| {
            self.guards_of((i - 1) % self.steps)
                .filter_map(move |guard| self.of_guard(moments, guard, i, (from, to)))
        });
        of_guards.chain(order).min()
    }

    /// What a row is as moments of so many steps: a loop, or none.
    fn loop_of(&self, start: Start, moments: usize, row: &[u64]) -> Option<Loop> {
        let most = (moments + self.clocks) as u64;
        let alone = |i: usize| !row[..i].contains(&row[i]) && row[i] <= most;
        if row.len() < 2 || !(0..row.len()).all(alone) {
            return None;
        }
        let next = row.iter().cycle().skip(1);
        let demands: Vec<Demand> = row
            .iter()
            .zip(next)
            .map(|(&from, &to)| self.tightest(start, moments, (from as usize, to as usize)))
            .collect::<Option<_>>()?;
        let sum: i64 = demands.iter().map(|demand| demand.bound).sum();
        if sum < 0 {
            Some(Loop::Below)
        } else if sum == 0 && demands.iter().any(|demand| !demand.loose) {
            Some(Loop::Strict)
        } else {
            None
        }
    }
}

// Shifts, by true times: whole ticks since log-in, where every clock reads 0. Scans are counted from 0.

/// How many numbers the rail's counter has, the most scans of a shift and of a tray, and how much larger the constants are in every
/// other shift.
const CIRCLE: u64 = 65536;
const SCANS: usize = 40;
const TRAY: usize = 12;
const STRETCH: u64 = 1333;

/// What the rail's counter shows at a time, where it shows `first` at log-in.
fn counter(first: u64, time: u64) -> u16 {
    ((first + time) % CIRCLE) as u16
}

impl Table {
    /// The time of a clock's last reset at a scan before scan i; if there was none, that of log-in.
    fn reset_time(&self, times: &[u64], clock: usize, i: usize) -> u64 {
        let reset = (0..i).rev().find(|j| self.resets[j % self.steps][clock]);
        reset.map_or(0, |j| times[j])
    }

    /// The number, from 1, of the first guard of scan i that does not hold, if there is one.
    fn failing(&self, times: &[u64], i: usize) -> Option<usize> {
        let reading = |clock: usize| times[i] - self.reset_time(times, clock, i);
        let mut guards = self.guards_of(i % self.steps);
        let place = guards.position(|guard| !guard.holds(1, reading(guard.clock)));
        place.map(|place| place + 1)
    }

    /// Whether scans at these times are a run: times never decrease, and every guard of every scan holds.
    fn keeps_rules(&self, times: &[u64]) -> bool {
        times.is_sorted() && (0..times.len()).all(|i| self.failing(times, i).is_none())
    }

    /// The record after accepted scans at these times, by a rail that shows `first` at log-in.
    fn record(&self, times: &[u64], first: u64) -> [u16; 8] {
        let last = times.last().map_or(0, |&time| time);
        from_fn(|place| match place {
            0 => (times.len() % self.steps + 1) as u16,
            7 => counter(first, last),
            clock if clock > self.clocks => 0,
            clock => (last - self.reset_time(times, clock - 1, times.len())).min(4001) as u16,
        })
    }

    /// A time for the next scan after some that were accepted, from `now` up to `end`. Mostly one at which a guard begins to hold
    /// or ends, and of these mostly one at which all hold.
    fn draw_time(&self, random: &mut Random, times: &[u64], now: u64, end: u64) -> u64 {
        let i = times.len();
        let turning: Vec<u64> = self
            .guards_of(i % self.steps)
            .flat_map(|guard| {
                let exact = self.reset_time(times, guard.clock, i) + guard.constant;
                [exact.saturating_sub(1), exact, exact + 1]
            })
            .filter(|time| (now..=end).contains(time))
            .collect();
        let all_hold = |time: &u64| self.failing(&[times, &[*time]].concat(), i).is_none();
        let holding: Vec<u64> = turning.iter().copied().filter(all_hold).collect();
        let later =
            |random: &mut Random, n: u64| now + random.below(n.min(end - now + 1) as usize) as u64;
        match random.below(16) {
            0 => now,
            1 => later(random, 8),
            2 => later(random, CIRCLE),
            3 => (end - random.below(3) as u64).max(now),
            4..=6 if !turning.is_empty() => turning[random.below(turning.len())],
            _ if !holding.is_empty() => holding[random.below(holding.len())],
            _ => later(random, 5000),
        }
    }
}

// The questions, put beside the search. An error says which question and what differs.

/// What every place of a room holds before it is lent.
const KEPT: u64 = 77777;

/// Whether the places of a room from one on are as before.
fn kept(room: &[u64], from: usize) -> bool {
    room[from..].iter().all(|&place| place == KEPT)
}

/// The count that "rounds" answers, or None: without end.
fn rounds(bytes: &[u8], start: Start) -> Result<Option<u64>, String> {
    let mut answer = [KEPT; 4];
    let told = start.rounds(bytes, &mut answer);
    match (told, answer) {
        (true, [0, 0, count, 0]) => Ok(Some(count)),
        (true, [0, 1, 0, 0]) => Ok(None),
        _ => Err(format!(
            "rounds {}: {told} {answer:?} is no count",
            start.name()
        )),
    }
}

/// Whether a count allows k rounds.
fn allows(count: Option<u64>, k: usize) -> bool {
    count.is_none_or(|count| k as u64 <= count)
}

fn in_words(count: Option<u64>) -> String {
    count.map_or("without end".into(), |count| count.to_string())
}

/// The demands of k rounds, four numbers to each.
fn demands(bytes: &[u8], start: Start, k: usize) -> Result<Vec<[i64; 4]>, String> {
    const KEPT: i64 = self::KEPT as i64;
    let mut row = [KEPT; 4 * (MOMENTS + 2 * GUARDS * ROUNDS + 2 * CLOCKS)];
    let mut answer = [self::KEPT; 4];
    let told = start.demands(bytes, k, &mut row, &mut answer);
    if let (true, [0, number, 0, 0]) = (told, answer) {
        if let Some((first, rest)) = row.split_at_checked(4 * number as usize) {
            if rest.iter().all(|&place| place == KEPT) {
                return Ok(first.chunks(4).map(|d| from_fn(|i| d[i])).collect());
            }
        }
    }
    let name = start.name();
    Err(format!(
        "demands {name} for {k} rounds: {told} {answer:?}, row {row:?}"
    ))
}

/// Holds the demands from log-in against those in mid-shift: straight after that of each clock's last reset stands its partner.
fn demands_agree(table: &Table, bytes: &[u8], k: usize) -> Result<(), String> {
    let log_in = demands(bytes, Start::LogIn, k)?;
    let mid_shift = demands(bytes, Start::MidShift, k)?;
    let steps = &mid_shift[..mid_shift.len().saturating_sub(table.clocks)];
    let resets = (1..=table.clocks).map(|clock| (table.moments(k) + clock) as i64);
    let of_resets: Vec<_> = resets.clone().map(|reset| [0, reset, 0, 0]).collect();
    let and_partners: Vec<_> = resets
        .flat_map(|reset| [[0, reset, 0, 0], [reset, 0, 0, 0]])
        .collect();
    if mid_shift != [steps, &of_resets].concat() || log_in != [steps, &and_partners].concat() {
        return Err(format!(
            "demands for {k} rounds: {log_in:?} from log-in, but {mid_shift:?} in mid-shift"
        ));
    }
    Ok(())
}

/// Every question refuses bytes in which a reset is repeated, at its place, and changes no room.
fn refused_twice(bytes: &[u8], place: usize) -> Result<(), String> {
    const SIGNED: i64 = KEPT as i64;
    let expected = [16, place as u64, 0, 0];
    let same = |question: &str, told: bool, answer: [u64; 4], kept: bool| {
        if told && answer == expected && kept {
            return Ok(());
        }
        let kept = if kept { "kept" } else { "changed" };
        Err(format!(
            "{question}: {told} {answer:?} and rooms {kept}, not {expected:?}"
        ))
    };
    let mut answer = [KEPT; 4];
    let told = judge::read(bytes, &mut answer);
    same("read", told, answer, true)?;
    for start in STARTS {
        let mut answer = [KEPT; 4];
        let told = start.rounds(bytes, &mut answer);
        same("rounds", told, answer, true)?;
        let (mut times, mut starts, mut room) = ([KEPT; MOMENTS], [KEPT; CLOCKS], [KEPT; MOMENTS]);
        let rooms: [&mut [u64]; 3] = [&mut times, &mut starts, &mut room];
        let mut answer = [KEPT; 4];
        let told = start.plan(bytes, 1, rooms, &mut answer);
        let all_kept = kept(&times, 0) && kept(&starts, 0) && kept(&room, 0);
        same("plan", told, answer, all_kept)?;
        let mut row = [SIGNED; 4 * MOMENTS];
        let mut answer = [KEPT; 4];
        let told = start.demands(bytes, 1, &mut row, &mut answer);
        let all_kept = row.iter().all(|&place| place == SIGNED);
        same("demands", told, answer, all_kept)?;
    }
    let (mut marks, mut times) = ([KEPT as u8; MOMENTS], [KEPT as f64; 2 * MOMENTS]);
    let mut answer = [KEPT; 4];
    let told = panel::windows(bytes, 1, &mut marks, &mut times, &mut answer);
    let all_kept = marks == [KEPT as u8; MOMENTS] && times == [KEPT as f64; 2 * MOMENTS];
    same("windows", told, answer, all_kept)?;
    let (widest, _) = panel::widest(bytes, 1);
    if widest != [16, place as u64, 0] {
        return Err(format!("widest: {widest:?}, not 16 at {place}"));
    }
    let mut running = [KEPT as u16; 8];
    let mut answer = [KEPT; 4];
    let told = scan::one(bytes, 1, &mut running, &mut answer);
    same("scan", told, answer, running == [KEPT as u16; 8])?;
    let mut verdicts = [KEPT as u16; 2];
    let mut answer = [KEPT; 4];
    let told = tray::scan(bytes, &[1, 2], &mut running, &mut verdicts, &mut answer);
    let all_kept = running == [KEPT as u16; 8] && verdicts == [KEPT as u16; 2];
    same("tray", told, answer, all_kept)?;
    Ok(())
}

/// The verdict on a scan, or on each scan of a tray: 0 where it is accepted, or the number of the guard that turned it away.
fn verdicts(
    bytes: &[u8],
    counters: &[u16],
    running: &mut [u16],
    in_tray: bool,
) -> Result<Vec<u64>, String> {
    let mut answer = [KEPT; 4];
    if !in_tray {
        let told = scan::one(bytes, counters[0], running, &mut answer);
        return match (told, answer) {
            (true, [0, guard, 0, 0]) => Ok(vec![guard]),
            _ => Err(format!("scan: {told} {answer:?}")),
        };
    }
    let mut row = [KEPT as u16; TRAY + 2];
    let told = tray::scan(bytes, counters, running, &mut row, &mut answer);
    let (first, rest) = row.split_at(counters.len());
    let accepted = first.iter().filter(|&&verdict| verdict == 0).count();
    let kept = rest.iter().all(|&place| place == KEPT as u16);
    if told && answer == [0, accepted as u64, 0, 0] && kept {
        return Ok(first.iter().map(|&verdict| verdict.into()).collect());
    }
    Err(format!("tray: {told} {answer:?}, verdicts {row:?}"))
}

/// What was seen in one variant, by kind; where there are five places, for 1 to 5 rounds.
#[derive(Default)]
struct Seen {
    /// Tables of 0 to 4 rounds, of more, and without end.
    counts: [u64; 7],
    plans: [u64; ROUNDS],
    loops: [u64; ROUNDS],
    plans_between_ticks: u64,
    plans_starting_above: u64,
    strict_loops: u64,
}

/// What was seen; where there are five places, for 1 to 5 rounds.
#[derive(Default)]
struct Tally {
    tables: u64,
    differ: u64,
    /// Tables that were also written with a reset repeated, and refused.
    repeated: u64,
    /// Grids that are too large.
    skipped: [u64; ROUNDS],
    /// Grids with twice the parts.
    finer: [u64; ROUNDS],
    /// From log-in, and in mid-shift.
    seen: [Seen; 2],
    fewer_from_log_in: u64,
    later_from_log_in: u64,
    /// Panels held against all rows of moments, and the windows on them: absent, open, closed.
    panels: u64,
    windows: [u64; 3],
    /// Of single scans, and also with trays.
    shifts: [Shifts; 2],
}

/// What was seen of shifts.
#[derive(Default)]
struct Shifts {
    shifts: u64,
    accepted: u64,
    /// Scans turned away by the first guard of their step, and by a later one.
    turned_away: [u64; 2],
    /// Accepted scans after the first round.
    later_rounds: u64,
    /// Scans where the counter had started again since the last accepted one, or log-in.
    started_again: u64,
    /// Shifts of 65,536 ticks or more, and the longest.
    long: u64,
    longest: u64,
    /// Trays without a scan, with none accepted, with some and with all, and how many scans there were in them.
    trays: [u64; 4],
    in_trays: u64,
}

/// A table that is asked about in a variant: the count of its rounds, and of those without strict guards.
struct Asked<'a> {
    table: &'a Table,
    bytes: &'a [u8],
    start: Start,
    count: Option<u64>,
    weak_count: Option<u64>,
}

impl Asked<'_> {
    fn new<'a>(table: &'a Table, bytes: &'a [u8], start: Start) -> Result<Asked<'a>, String> {
        Ok(Asked {
            table,
            bytes,
            start,
            count: rounds(bytes, start)?,
            weak_count: rounds(&table.weakened().bytes(), start)?,
        })
    }
}

impl Tally {
    /// A table put to all questions with a reset repeated, if it has one where it may be; and, with each once, to "rounds", and to
    /// "demands" and "plan" for 1 to 5 rounds: the first difference.
    fn table(&mut self, table: &Table, bytes: &[u8]) -> Result<(), String> {
        if let (repeated, Some(place)) = table.written(true) {
            self.repeated += 1;
            refused_twice(&repeated, place)
                .map_err(|what| format!("with a reset twice: {what}"))?;
        }
        let log_in = Asked::new(table, bytes, Start::LogIn)?;
        let mid_shift = Asked::new(table, bytes, Start::MidShift)?;
        for asked in [&log_in, &mid_shift] {
            let place = asked.count.map_or(6, |count| count.min(5) as usize);
            self.seen[asked.start as usize].counts[place] += 1;
        }
        let rank = |asked: &Asked| asked.count.unwrap_or(u64::MAX);
        if rank(&log_in) > rank(&mid_shift) {
            return Err(format!(
                "rounds: {} from log-in, but {} in mid-shift",
                in_words(log_in.count),
                in_words(mid_shift.count)
            ));
        }
        self.fewer_from_log_in += u64::from(log_in.count != mid_shift.count);
        (1..=ROUNDS).try_for_each(|k| {
            demands_agree(table, bytes, k)?;
            self.some_rounds(&log_in, &mid_shift, k)?;
            self.panel(table, bytes, k)
        })
    }

    /// The panel's two questions on k rounds, beside the search over all rows of moments, unless these are too many.
    fn panel(&mut self, table: &Table, bytes: &[u8], k: usize) -> Result<(), String> {
        let Some(windows) = table.windows(k) else {
            return Ok(());
        };
        let total = windows.len();
        let parts = table.parts(k);
        let seconds = |moment: u64| moment as f64 / (10 * parts) as f64;
        let mut marks = [KEPT as u8; ROW + 2];
        let mut times = [KEPT as f64; 2 * ROW + 2];
        let (mut shown, mut widest) = ((marks, times), ([0; 3], [0.0; 2]));
        let mut width = None;
        for (i, window) in windows.iter().enumerate() {
            let (mark, pair) = match *window {
                Window::Closed(first, last) => (2, [seconds(first), seconds(last)]),
                Window::Open(first) => (1, [seconds(first), 0.0]),
                Window::Absent => (0, [0.0; 2]),
            };
            shown.0[i] = mark;
            shown.1[2 * i..2 * i + 2].copy_from_slice(&pair);
            self.windows[usize::from(mark)] += 1;
            if let Window::Closed(first, last) = *window {
                if width.is_none_or(|width| last - first > width) {
                    width = Some(last - first);
                    widest = ([0, 0, 2], pair);
                }
            }
        }
        self.panels += 1;
        let mut answer = [KEPT; 4];
        let told = panel::windows(bytes, k as u64, &mut marks, &mut times, &mut answer);
        let bits =
            |times: &[f64]| -> Vec<u64> { times.iter().map(|time| time.to_bits()).collect() };
        let expected = [0, total as u64, 0, 0];
        if !told || answer != expected || marks != shown.0 || bits(&times) != bits(&shown.1) {
            return Err(format!(
                "windows for {k} rounds: {told} {answer:?} {marks:?} {times:?}, but by the search {shown:?}"
            ));
        }
        let found = panel::widest(bytes, k as u64);
        if found.0 != widest.0 || bits(&found.1) != bits(&widest.1) {
            return Err(format!(
                "widest for {k} rounds: {found:?}, but by the search {widest:?}"
            ));
        }
        Ok(())
    }

    /// A shift: log-in and scans, at times some in a tray, each beside the rules of a run by true times; and at its end all that
    /// were accepted.
    fn shift(&mut self, table: &Table, random: &mut Random, trays: bool) -> Result<(), String> {
        let bytes = table.bytes();
        let seen = &mut self.shifts[usize::from(trays)];
        seen.shifts += 1;
        let first = random.below(CIRCLE as usize) as u64;
        let mut running = [KEPT as u16; 8];
        if !scan::log_in(first as u16, &mut running) || running != table.record(&[], first) {
            return Err(format!("log-in at {first}: {running:?}"));
        }
        // The times of the accepted scans, and of the last scan; the scans that are left.
        let (mut times, mut now, mut left) = (Vec::new(), 0, SCANS);
        while left > 0 {
            let in_tray = trays && random.below(2) == 0;
            let number = match in_tray {
                true => random.below(left.min(TRAY) + 1),
                false => 1,
            };
            let before = times.len();
            let (mut counters, mut expected) = (Vec::new(), Vec::new());
            for _ in 0..number {
                // The last time at which the premise holds.
                let last = times.last().map_or(0, |&time| time);
                let end = last + CIRCLE - 1;
                now = table.draw_time(random, &times, now, end);
                times.push(now);
                let failing = table.failing(&times, times.len() - 1);
                counters.push(counter(first, now));
                expected.push(failing.unwrap_or(0) as u64);
                seen.started_again += u64::from(counter(first, now) < counter(first, last));
                left -= 1;
                if let Some(guard) = failing {
                    times.pop();
                    seen.turned_away[usize::from(guard > 1)] += 1;
                    if now == end {
                        left = 0;
                        break;
                    }
                } else {
                    seen.accepted += 1;
                    seen.later_rounds += u64::from(times.len() > table.steps);
                }
            }
            let told = verdicts(&bytes, &counters, &mut running, in_tray);
            let record = table.record(&times, first);
            if told.as_ref() != Ok(&expected) || running != record {
                return Err(format!(
                    "scans at {counters:?} since log-in at {first}: {told:?}, record {running:?}, but by the rules of a run \
                     {expected:?}, record {record:?}, with {times:?} accepted"
                ));
            }
            if in_tray {
                seen.in_trays += counters.len() as u64;
                seen.trays[match times.len() - before {
                    _ if counters.is_empty() => 0,
                    0 => 1,
                    accepted if accepted < counters.len() => 2,
                    _ => 3,
                }] += 1;
            }
        }
        let length = times.last().map_or(0, |&time| time);
        seen.long += u64::from(length >= CIRCLE);
        seen.longest = seen.longest.max(length);
        if !table.keeps_rules(&times) {
            return Err(format!("scans accepted at {times:?} are no run"));
        }
        Ok(())
    }

    /// The search for k rounds, and beside it the counts and the plans, unless the grid would be too large.
    fn some_rounds(&mut self, log_in: &Asked, mid_shift: &Asked, k: usize) -> Result<(), String> {
        let table = log_in.table;
        let parts = table.parts(k);
        let Some(mut grid) = Grid::new(table, k, parts) else {
            self.skipped[k - 1] += 1;
            return Ok(());
        };
        grid.complete();
        if let Some(mut finer) = Grid::new(table, k, 2 * parts) {
            self.finer[k - 1] += 1;
            finer.complete();
            for start in STARTS {
                let possible = grid.has_run(start);
                if finer.has_run(start) != possible {
                    return Err(format!(
                        "search {} for {k} rounds: a run with {parts} parts {possible}, with twice as many {}",
                        start.name(),
                        !possible
                    ));
                }
            }
        }
        let early = self.one_variant(mid_shift, &mut grid, k)?;
        let late = self.one_variant(log_in, &mut grid, k)?;
        let Some((early, late)) = early.zip(late) else {
            return Ok(());
        };
        self.later_from_log_in += u64::from(early != late);
        if early.iter().zip(&late).any(|(early, late)| early > late) {
            return Err(format!(
                "plan for {k} rounds: {late:?} from log-in, but {early:?} in mid-shift"
            ));
        }
        Ok(())
    }

    /// The count and the plan for k rounds in a variant, beside the search; the moments, if it found a run.
    fn one_variant(
        &mut self,
        asked: &Asked,
        grid: &mut Grid,
        k: usize,
    ) -> Result<Option<Vec<u64>>, String> {
        let name = asked.start.name();
        let possible = grid.has_run(asked.start);
        let earliest = grid.earliest(asked.start);
        if earliest.last().is_some_and(|&time| time < NEVER) != possible {
            return Err(format!(
                "search {name} for {k} rounds: a run backward {possible}, forward the moments {earliest:?}"
            ));
        }
        if possible != allows(asked.count, k) {
            let found = if possible { "a run" } else { "no run" };
            return Err(format!(
                "rounds {name}: {}, but the search finds {found} of {k} rounds",
                in_words(asked.count)
            ));
        }
        let earliest = possible.then_some(earliest);
        self.plan(asked, k, earliest.as_deref())
            .map_err(|what| format!("plan {name} for {k} rounds: {what}"))?;
        Ok(earliest)
    }

    /// The question "plan" on k rounds, beside the earliest moments by the search, if it found a run.
    fn plan(&mut self, asked: &Asked, k: usize, earliest: Option<&[u64]>) -> Result<(), String> {
        let mut times = [KEPT; MOMENTS + 2];
        let mut starts = [KEPT; CLOCKS + 2];
        let mut room = [KEPT; MOMENTS + CLOCKS + 3];
        let mut answer = [KEPT; 4];
        let rooms: [&mut [u64]; 3] = [&mut times, &mut starts, &mut room];
        let told = asked.start.plan(asked.bytes, k, rooms, &mut answer);
        match (told, answer, earliest) {
            (true, [0, 0, parts, 0], Some(earliest)) => {
                if !kept(&room, 0) {
                    return Err(format!("a plan, but the loop's room became {room:?}"));
                }
                self.plan_found(asked, k, parts, &times, &starts, earliest)
            }
            (true, [0, 1, length, 0], None) => {
                if !kept(&times, 0) || !kept(&starts, 0) {
                    return Err(format!(
                        "a loop, but times and starts became {times:?}, {starts:?}"
                    ));
                }
                self.loop_found(asked, k, length as usize, &room)
            }
            (true, [0, 0, _, 0], None) => Err("a plan, but the search finds no run".into()),
            (true, [0, 1, _, 0], Some(_)) => Err("a loop, but the search finds a run".into()),
            _ => Err(format!("{told} {answer:?} is neither a plan nor a loop")),
        }
    }

    fn plan_found(
        &mut self,
        asked: &Asked,
        k: usize,
        parts: u64,
        times: &[u64],
        starts: &[u64],
        earliest: &[u64],
    ) -> Result<(), String> {
        let table = asked.table;
        if parts != table.parts(k) {
            return Err(format!("{parts} parts to a tick, not {}", table.parts(k)));
        }
        let moments = &times[..table.moments(k)];
        let seen = &mut self.seen[asked.start as usize];
        seen.plans[k - 1] += 1;
        seen.plans_between_ticks += u64::from(moments.iter().any(|time| time % parts != 0));
        seen.plans_starting_above += u64::from(starts[0] != 0);
        if moments != earliest {
            return Err(format!(
                "moments {moments:?}, but by the search {earliest:?}"
            ));
        }
        let readings = from_fn(|clock| starts[clock]);
        let starting = &starts[..table.clocks];
        let plan = format!("moments {moments:?} from starts {starting:?}");
        if asked.start == Start::LogIn && starting.iter().any(|&reading| reading != 0) {
            return Err(format!("{plan}, which are not 0"));
        }
        if !table.runs(parts, moments, readings) {
            return Err(format!("{plan} are no run"));
        }
        if let Some(clock) = table.too_high(parts, moments, readings) {
            return Err(format!("{plan}: clock {} could start lower", clock + 1));
        }
        if !kept(times, moments.len()) || !kept(starts, table.clocks) {
            return Err(format!("places past the plan became {times:?}, {starts:?}"));
        }
        Ok(())
    }

    fn loop_found(
        &mut self,
        asked: &Asked,
        k: usize,
        length: usize,
        room: &[u64],
    ) -> Result<(), String> {
        let Some(vertices) = room.get(..length) else {
            return Err(format!("a loop of {length} moments is too long"));
        };
        let table = asked.table;
        // Where there is a run without strict guards, no sum is below 0.
        let strict = allows(asked.weak_count, k);
        let seen = &mut self.seen[asked.start as usize];
        seen.loops[k - 1] += 1;
        seen.strict_loops += u64::from(strict);
        match table.loop_of(asked.start, table.moments(k), vertices) {
            None => return Err(format!("{vertices:?} is no loop")),
            Some(Loop::Below) if strict => {
                return Err(format!(
                    "{vertices:?} has a sum below 0, but weak guards would have a run"
                ))
            }
            _ => {}
        }
        if !kept(room, length) {
            return Err(format!("places past a loop of {length} became {room:?}"));
        }
        Ok(())
    }

    /// A table put to all questions, two shifts of it, and two with trays: the first difference.
    fn all(&mut self, table: &Table, bytes: &[u8], times: &mut [Random; 2]) -> Result<(), String> {
        self.table(table, bytes)?;
        for (random, trays) in times.iter_mut().zip([false, true]) {
            self.shift(table, random, trays)?;
            self.shift(&table.stretched(STRETCH), random, trays)
                .map_err(|what| format!("with constants {STRETCH} times as large: {what}"))?;
        }
        Ok(())
    }

    /// What came of a table. The first ten that differ are shown.
    fn judged(&mut self, table: &Table, times: &mut [Random; 2]) {
        let bytes = table.bytes();
        let number = self.tables;
        self.tables += 1;
        if let Err(difference) = self.all(table, &bytes, times) {
            self.differ += 1;
            if self.differ <= 10 {
                let hex: Vec<String> = bytes.iter().map(|b| format!("{b:02x}")).collect();
                println!("differ: table {number}: {}\n  {difference}", hex.join(" "));
            }
        }
    }

    fn print(&self) {
        let by_rounds = |name: &str, numbers: [u64; ROUNDS]| {
            let numbers = numbers.map(|n| n.to_string()).join(" ");
            println!("{name} for 1 to {ROUNDS} rounds: {numbers}");
        };
        println!("tables {}", self.tables);
        println!("also with a reset twice, and refused: {}", self.repeated);
        by_rounds("skipped", self.skipped);
        by_rounds("finer grids", self.finer);
        for start in STARTS {
            let seen = &self.seen[start as usize];
            println!("{}:", start.name());
            for (rounds, tables) in seen.counts[..5].iter().enumerate() {
                println!("  rounds {rounds}: {tables}");
            }
            println!("  more, but finite: {}", seen.counts[5]);
            println!("  without end: {}", seen.counts[6]);
            by_rounds("  plans", seen.plans);
            by_rounds("  loops", seen.loops);
            println!(
                "  plans with a moment between ticks: {}",
                seen.plans_between_ticks
            );
            println!(
                "  plans that start clock 1 above 0: {}",
                seen.plans_starting_above
            );
            println!(
                "  loops where weak guards would have a run: {}",
                seen.strict_loops
            );
        }
        println!(
            "tables with fewer rounds from log-in: {}",
            self.fewer_from_log_in
        );
        println!(
            "plans that are later from log-in: {}",
            self.later_from_log_in
        );
        println!("panels beside all rows of moments: {}", self.panels);
        let [absent, open, closed] = self.windows;
        println!("  windows closed, open, absent: {closed} {open} {absent}");
        for (shifts, kind) in self.shifts.iter().zip(["", " with trays"]) {
            let [by_first, by_later] = shifts.turned_away;
            println!("shifts{kind} by true times: {}", shifts.shifts);
            println!("  scans accepted: {}", shifts.accepted);
            println!("  of these after the first round: {}", shifts.later_rounds);
            println!("  turned away by the first guard of the step: {by_first}");
            println!("  by a later guard: {by_later}");
            println!(
                "  where the counter had started again: {}",
                shifts.started_again
            );
            println!("  shifts of 65,536 ticks or more: {}", shifts.long);
            println!("  ticks of the longest: {}", shifts.longest);
        }
        let with_trays = &self.shifts[1];
        let [empty, none, some, all] = with_trays.trays;
        println!("  trays of no scan, with none accepted, some, all: {empty} {none} {some} {all}");
        println!("  scans in trays: {}", with_trays.in_trays);
        println!("tables that differ: {}", self.differ);
    }
}

fn main() {
    let (mut random, mut times) = (Random(1), [Random(2), Random(3)]);
    let mut tally = Tally::default();
    for _ in 0..TABLES {
        tally.judged(&Table::draw(&mut random), &mut times);
    }
    tally.print();
    if tally.differ > 0 {
        std::process::exit(1);
    }
}
