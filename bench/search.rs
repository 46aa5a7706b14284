//! Searches for tables whose plans take many checks, by hill climbing with fixed seeds. A model of the library's order counts the
//! checks of a plan; the search keeps what takes more. The tables found are then timed in the library, in the time of this thread.
//!
//! With the word panel: for tables whose windows take long, half of the seeds beside their plans and half by themselves. The model
//! counts the checks for the last moments too.
//!
//!     bench/run search [SECONDS [log-in | mid-shift [SEED]]]
//!     bench/run search SECONDS panel [SEED]
//!
//! There are twelve seeds, from SEED on.

mod clock;
#[path = "../terminal/judge.rs"]
mod judge;
#[path = "../terminal/panel.rs"]
mod panel;

use std::time::{Duration, Instant};

const CLOCKS: usize = 6;
const NONE: i64 = i64::MAX;

/// The most steps of a plan.
const TOTAL: usize = 1024;

/// A table: for each step its guards (clock, relation, constant) and the clocks that it resets, as bits.
#[derive(Clone)]
struct Table {
    clocks: usize,
    steps: Vec<(Vec<(usize, u8, u16)>, u8)>,
}

impl Table {
    fn bytes(&self) -> Vec<u8> {
        let mut bytes = vec![1, self.clocks as u8];
        for (guards, resets) in &self.steps {
            for &(clock, relation, constant) in guards {
                let [low, high] = constant.to_le_bytes();
                bytes.extend([2, clock as u8, relation, low, high]);
            }
            for j in 1..=self.clocks {
                if resets >> j & 1 == 1 {
                    bytes.extend([3, j as u8]);
                }
            }
            bytes.push(4);
        }
        bytes.push(5);
        bytes
    }

    fn guards(&self) -> usize {
        self.steps.iter().map(|(guards, _)| guards.len()).sum()
    }
}

/// From log-in a pass begins with the demands that no last reset is before the start.
#[derive(Clone, Copy, PartialEq)]
enum Start {
    LogIn,
    MidShift,
}

/// The passes of a plan before the first way, and before passes go on alone.
const PLAIN: usize = 3;
const TRIES: usize = 16;

/// What a plan takes: passes forth and back, checks of demands, and how many of these a pass has; and whether a run exists.
struct Cost {
    passes: usize,
    checks: usize,
    pass: usize,
    run: bool,
}

/// The library's order over the demands of k rounds, in a model. Each step of a round has the tightest guards, as clock and parts, and
/// for each clock how many steps ago it was last reset in rounds without end.
struct Model {
    clocks: usize,
    length: usize,
    total: usize,
    low: Vec<Vec<(usize, i64)>>,
    up: Vec<Vec<(usize, i64)>>,
    far: Vec<[usize; CLOCKS + 1]>,
}

/// Times that checks raise, each with the moment after which it was raised.
struct Times {
    time: Vec<i64>,
    parent: Vec<usize>,
    checks: usize,
}

impl Times {
    fn check(&mut self, from: usize, to: usize, weight: i64) -> bool {
        self.checks += 1;
        let raised = self.time[from] < self.time[to] + weight;
        if raised {
            self.time[from] = self.time[to] + weight;
            self.parent[from] = to;
        }
        raised
    }
}

/// Bounds from above that checks lower.
struct Bounds {
    late: Vec<i64>,
    checks: usize,
}

impl Bounds {
    /// The bound of `to` by that of `from`; the lower of `low` and what is lowered.
    fn check(&mut self, from: usize, to: usize, most: i64, low: usize) -> usize {
        self.checks += 1;
        if self.late[from] != NONE && self.late[from] + most < self.late[to] {
            self.late[to] = self.late[from] + most;
            return low.min(to);
        }
        low
    }
}

impl Model {
    fn of(table: &Table, k: usize) -> Model {
        let length = table.steps.len();
        let total = k * length;
        let parts = (total + table.clocks + 1) as i64;
        let (mut low, mut up) = (vec![vec![]; length], vec![vec![]; length]);
        let mut far = vec![[0; CLOCKS + 1]; length];
        for (s, (guards, _)) in table.steps.iter().enumerate() {
            for j in 1..=table.clocks {
                let of_clock = || guards.iter().filter(|guard| guard.0 == j).map(|guard| (guard.1, i64::from(guard.2) * parts));
                let least = of_clock().filter(|guard| guard.0 >= 2).map(|(relation, c)| c + i64::from(relation == 4));
                let most = of_clock().filter(|guard| guard.0 <= 2).map(|(relation, c)| c - i64::from(relation == 0));
                low[s].extend(least.max().map(|w| (j, w)));
                up[s].extend(most.min().map(|w| (j, w)));
                far[s][j] = (1..=length)
                    .find(|d| table.steps[(s + length - d) % length].1 >> j & 1 == 1)
                    .unwrap_or(0);
            }
        }
        Model { clocks: table.clocks, length, total, low, up, far }
    }

    fn vertices(&self) -> usize {
        self.total + self.clocks + 1
    }

    /// The last reset of clock j at step i.
    fn last(&self, i: usize, j: usize) -> usize {
        match self.far[i % self.length][j] {
            d if d != 0 && d <= i => i + 1 - d,
            _ => self.total + j,
        }
    }

    /// Step i forth: the order demand, and its guards from below; whether it is raised.
    fn forth(&self, i: usize, times: &mut Times) -> bool {
        let mut raised = times.check(i + 1, i, 0);
        for &(j, w) in &self.low[i % self.length] {
            raised |= times.check(i + 1, self.last(i, j), w);
        }
        raised
    }

    /// Step i back, its guards from above: the lower of `low` and what is raised, and whether something is.
    fn back(&self, i: usize, times: &mut Times, low: usize) -> (usize, bool) {
        let (mut lowest, mut raised) = (low, false);
        for &(j, w) in &self.up[i % self.length] {
            let last = self.last(i, j);
            if times.check(last, i + 1, -w) {
                (lowest, raised) = (lowest.min(last), true);
            }
        }
        (lowest, raised)
    }

    /// A pass; whether it raises something on the way back.
    fn pass(&self, start: Start, times: &mut Times) -> bool {
        if start == Start::LogIn {
            for j in 1..=self.clocks {
                times.check(self.total + j, 0, 0);
            }
        }
        for i in 0..self.total {
            self.forth(i, times);
        }
        let mut raised = false;
        for i in (0..self.total).rev() {
            raised |= self.back(i, times, 0).1;
        }
        for j in 1..=self.clocks {
            raised |= times.check(0, self.total + j, 0);
        }
        raised
    }

    /// A way home: step by step forth, and from each back at once as far as it raises earlier ones. Cut after so many checks.
    fn home(&self, times: &mut Times, most: usize) {
        let end = times.checks + most;
        let mut i = 0;
        while i < self.total && times.checks < end {
            self.forth(i, times);
            let (mut at, mut lowest) = (i + 1, i + 1);
            while at > 0 && at >= lowest {
                at -= 1;
                lowest = self.back(at, times, lowest).0;
            }
            i = lowest;
        }
    }

    /// A way out: once forth, then step by step back, and where a step raises an earlier one, forth at once from there, a round past the
    /// last one raised. Cut after so many checks.
    fn out(&self, times: &mut Times, most: usize) {
        for i in 0..self.total {
            self.forth(i, times);
        }
        let end = times.checks + most;
        let mut i = self.total;
        while i > 0 && times.checks < end {
            times.check(i, i - 1, 0);
            let lowest = self.back(i - 1, times, i).0;
            let mut top = i - 1;
            let mut at = lowest;
            while at < self.total && at < top + self.length && lowest < i {
                if self.forth(at, times) {
                    top = top.max(at + 1);
                }
                at += 1;
            }
            i = top;
        }
    }

    /// A plan: three passes, thirteen with a way home or out before each, in turn, one with both, and then passes. The library looks for
    /// a cycle after each.
    fn plan(&self, start: Start) -> Cost {
        let n = self.vertices();
        let mut times = Times { time: vec![0; n], parent: vec![usize::MAX; n], checks: 0 };
        times.time[..=self.total].fill(4001 * n as i64);
        let mut marks = vec![0; n];
        let mut cost = Cost { passes: 0, checks: 0, pass: 0, run: true };
        while cost.passes < TRIES + n {
            let most = 26 * self.total;
            match cost.passes {
                TRIES => {
                    self.home(&mut times, most);
                    self.out(&mut times, most);
                }
                m if m < PLAIN || m > TRIES => {}
                m if m % 2 == 1 => self.home(&mut times, most),
                _ => self.out(&mut times, most),
            }
            let begun = times.checks;
            let raised = self.pass(start, &mut times);
            cost = Cost { passes: cost.passes + 1, checks: times.checks, pass: times.checks - begun, run: true };
            if !raised {
                break;
            }
            if on_cycle(&times.parent, &mut marks) {
                cost.run = false;
                break;
            }
        }
        cost
    }

    /// Last moments, step `from` back: the order demands and the guards from below, down to where nothing is lowered.
    fn descend(&self, bounds: &mut Bounds, from: usize, floor: usize) -> usize {
        let (mut i, mut lowest) = (from, floor);
        while i > 0 && i >= lowest {
            i -= 1;
            lowest = bounds.check(i + 1, i, 0, lowest);
            for &(j, w) in &self.low[i % self.length] {
                lowest = bounds.check(i + 1, self.last(i, j), -w, lowest);
            }
        }
        lowest
    }

    /// Last moments forth, and from each step that is lowered back at once, so many steps in all; whether one is lowered.
    fn ascend(&self, bounds: &mut Bounds, mut left: usize) -> bool {
        let (mut i, mut hit) = (0, false);
        while i < self.total {
            let mut lowest = usize::MAX;
            for &(j, w) in &self.up[i % self.length] {
                lowest = bounds.check(self.last(i, j), i + 1, w, lowest);
            }
            let mut next = i + 1;
            if lowest < usize::MAX {
                hit = true;
                if left > 0 {
                    next = self.descend(bounds, i + 1, i + 1);
                    left = left.saturating_sub(i + 2 - next);
                }
            }
            i = next;
        }
        hit
    }

    /// Last moments, step by step back, and where a step lowers an earlier moment, forth at once from there, a round past the last one
    /// lowered; so many steps in all.
    fn glide(&self, bounds: &mut Bounds, mut left: usize) {
        let mut i = self.total;
        while i > 0 && left > 0 {
            let mut lowest = bounds.check(i, i - 1, 0, usize::MAX);
            for &(j, w) in &self.low[(i - 1) % self.length] {
                lowest = bounds.check(i, self.last(i - 1, j), -w, lowest);
            }
            if lowest >= i {
                (i, left) = (i - 1, left - 1);
                continue;
            }
            let (mut at, mut top) = (lowest, i - 1);
            while at < self.total && at < top + self.length {
                for &(j, w) in &self.up[at % self.length] {
                    if bounds.check(self.last(at, j), at + 1, w, usize::MAX) < usize::MAX {
                        top = top.max(at + 1);
                    }
                }
                at += 1;
            }
            left = left.saturating_sub(top + self.length + 1 - lowest);
            i = top;
        }
    }

    /// The checks for the last moments, from log-in and where a run exists: forth, then back and forth until nothing is lowered, with a
    /// glide before each turn but the first.
    fn latest(&self) -> usize {
        let mut bounds = Bounds { late: vec![0; self.vertices()], checks: 0 };
        bounds.late[1..=self.total].fill(NONE);
        self.ascend(&mut bounds, 0);
        let mut most = 0;
        loop {
            self.glide(&mut bounds, most);
            self.descend(&mut bounds, self.total, 0);
            if !self.ascend(&mut bounds, 4 * self.total) {
                return bounds.checks;
            }
            most = 16 * self.total;
        }
    }
}

fn on_cycle(parent: &[usize], marks: &mut [usize]) -> bool {
    marks.fill(0);
    for start in 0..parent.len() {
        let mut vertex = start;
        while marks[vertex] == 0 && parent[vertex] != usize::MAX {
            marks[vertex] = start + 1;
            vertex = parent[vertex];
        }
        if marks[vertex] == start + 1 {
            return true;
        }
    }
    false
}

/// Random numbers (xorshift).
struct Random(u64);

impl Random {
    fn below(&mut self, n: usize) -> usize {
        self.0 ^= self.0 << 13;
        self.0 ^= self.0 >> 7;
        self.0 ^= self.0 << 17;
        (self.0 >> 11) as usize % n
    }

    fn constant(&mut self) -> u16 {
        match self.below(4) {
            0 => self.below(4) as u16,
            1 => self.below(20) as u16,
            2 => self.below(400) as u16,
            _ => 3980 + self.below(21) as u16,
        }
    }

    fn table(&mut self) -> Table {
        let clocks = 2 + self.below(5);
        let steps = (0..1 + self.below(8))
            .map(|_| {
                let guards = (0..self.below(4))
                    .map(|_| (1 + self.below(clocks), self.below(5) as u8, self.constant()))
                    .collect();
                (guards, (self.below(128) & self.below(128)) as u8)
            })
            .collect();
        Table { clocks, steps }
    }

    /// A table that differs a little.
    fn changed(&mut self, table: &Table) -> Table {
        let mut new = table.clone();
        for _ in 0..1 + self.below(3) {
            let s = self.below(new.steps.len());
            match self.below(8) {
                0 if new.steps.len() < 16 => {
                    let step = new.steps[self.below(new.steps.len())].clone();
                    new.steps.insert(s, step);
                }
                1 if new.steps.len() > 1 => {
                    new.steps.remove(s);
                }
                2 => new.steps[s].1 ^= 2 << self.below(new.clocks),
                3 | 4 => {
                    let guard = (1 + self.below(new.clocks), self.below(5) as u8, self.constant());
                    new.steps[s].0.push(guard);
                }
                5 if !new.steps[s].0.is_empty() => {
                    let g = self.below(new.steps[s].0.len());
                    new.steps[s].0.remove(g);
                }
                _ if !new.steps[s].0.is_empty() => {
                    let g = self.below(new.steps[s].0.len());
                    let up = self.below(2) == 0;
                    let by = 1 + self.below(3) as u16;
                    let constant = &mut new.steps[s].0[g].2;
                    *constant = if up { (*constant + by).min(4000) } else { constant.saturating_sub(by) };
                }
                _ => {}
            }
        }
        if new.guards() > 64 {
            return table.clone();
        }
        new
    }
}

/// The table in words.
fn words(table: &Table) -> String {
    let relation = |r: u8| ["under", "at most", "exactly", "at least", "over"][usize::from(r)];
    let steps: Vec<String> = table
        .steps
        .iter()
        .map(|(guards, resets)| {
            let guards = guards.iter().map(|&(j, r, c)| format!("{j} {} {c}", relation(r)));
            let resets = (1..=CLOCKS).filter(|j| resets >> j & 1 == 1).map(|j| format!("zero {j}"));
            guards.chain(resets).collect::<Vec<_>>().join(", ")
        })
        .collect();
    steps.join("; ")
}

/// As many rounds as there may be in so many steps.
fn rounds(table: &Table, steps: usize) -> usize {
    (steps / table.steps.len()).max(1)
}

/// What a search looks for: the larger the longer it takes, for a table and so many steps.
type Measure<'a> = &'a dyn Fn(&Table, usize) -> f64;

/// The steps of a climb at first.
const FEW: usize = 120;

/// Climbs from random tables towards a larger measure, until an end. Few rounds first, where a step of the climb is quick; then as
/// many as a plan may have.
fn climb(seed: u64, end: Instant, measure: Measure) -> Table {
    let mut random = Random(seed * 0x9E37_79B9_7F4A_7C15);
    let mut best = random.table();
    for steps in [FEW, TOTAL] {
        let mut most = measure(&best, steps);
        let until = if steps == FEW { end - (end - Instant::now()) / 3 } else { end };
        let mut turn = 0;
        while Instant::now() < until {
            turn += 1;
            let new = match random.below(if turn < 50 { 2 } else { 200 }) {
                0 => random.table(),
                _ => random.changed(&best),
            };
            let taken = measure(&new, steps);
            if taken >= most {
                (most, best) = (taken, new);
            }
        }
    }
    best
}

/// The table with only those guards and resets without which the measure is clearly smaller.
fn reduced(table: &Table, measure: Measure) -> Table {
    let enough = 0.97 * measure(table, TOTAL);
    let mut small = table.clone();
    for s in 0..small.steps.len() {
        for g in (0..small.steps[s].0.len()).rev() {
            let mut new = small.clone();
            new.steps[s].0.remove(g);
            if measure(&new, TOTAL) >= enough {
                small = new;
            }
        }
        for j in 1..=small.clocks {
            let mut new = small.clone();
            new.steps[s].1 &= !(1 << j);
            if measure(&new, TOTAL) >= enough {
                small = new;
            }
        }
    }
    small
}

/// The least time of a few calls, in microseconds.
fn fastest(calls: usize, mut call: impl FnMut()) -> f64 {
    let time = |_| {
        let begin = clock::now();
        call();
        (clock::now() - begin) / 1e3
    };
    (0..calls).map(time).fold(f64::MAX, f64::min)
}

type Plan = fn(&[u8], u64, &mut [u64], &mut [u64], &mut [u64], &mut [u64]) -> bool;

/// The time of a plan of as many rounds as there may be.
fn plan_time(table: &Table, plan: Plan) -> f64 {
    let (bytes, k) = (table.bytes(), rounds(table, TOTAL) as u64);
    let (mut times, mut starts, mut room, mut answer) = ([0; TOTAL], [0; CLOCKS], [0; TOTAL + CLOCKS + 1], [0; 4]);
    fastest(9, || {
        assert!(plan(&bytes, k, &mut times, &mut starts, &mut room, &mut answer));
    })
}

/// The time of the windows of as many rounds as there may be.
fn windows_time(table: &Table) -> f64 {
    let (bytes, k) = (table.bytes(), rounds(table, TOTAL) as u64);
    let (mut marks, mut seconds, mut answer) = ([0; TOTAL], [0.0; 2 * TOTAL], [0; 4]);
    fastest(9, || {
        assert!(panel::windows(&bytes, k, &mut marks, &mut seconds, &mut answer));
    })
}

/// The table's bytes, as they are searched for, in hexadecimal.
fn hex(table: &Table) -> String {
    table.bytes().iter().map(|byte| format!("{byte:02x}")).collect()
}

const SEEDS: u64 = 12;

/// What a climb from each seed finds, with the largest measure first.
fn search(seconds: u64, seeds: impl Iterator<Item = u64> + Clone, measure: Measure) -> Vec<Table> {
    let each = Duration::from_millis(seconds * 1000 / seeds.clone().count() as u64);
    let mut found: Vec<Table> = seeds.map(|seed| climb(seed, Instant::now() + each, measure)).collect();
    found.sort_by(|a, b| measure(b, TOTAL).total_cmp(&measure(a, TOTAL)));
    found
}

fn search_plan(seconds: u64, first: u64, start: Start, plan: Plan) {
    let cost = |table: &Table, steps: usize| Model::of(table, rounds(table, steps)).plan(start);
    // At first by the checks of a pass, so that a climb does not end where there are only many guards.
    let measure = |table: &Table, steps: usize| {
        let Cost { checks, pass, .. } = cost(table, steps);
        checks as f64 / if steps == FEW { pass as f64 } else { 1.0 }
    };
    let found = search(seconds, first..first + SEEDS, &measure);
    println!("{:>6} {:>7} {:>6} {:>7} {:>10} {:>8} {:>9}  table, reduced to what matters; all of it", "steps", "rounds", "guards", "passes", "checks", "by pass", "us");
    for table in &found {
        let Cost { passes, checks, pass, run } = cost(table, TOTAL);
        let small = reduced(table, &|table, steps| {
            let Cost { checks, pass, .. } = cost(table, steps);
            checks as f64 / pass as f64
        });
        println!(
            "{:>6} {:>7} {:>6} {passes:>7} {checks:>10} {:>8.1} {:>9.1}  {}{}; {}",
            table.steps.len(), rounds(table, TOTAL), table.guards(), checks as f64 / pass as f64, plan_time(table, plan),
            if run { "" } else { "a loop: " }, words(&small), hex(table)
        );
    }
}

fn search_panel(seconds: u64, first: u64) {
    // The checks of a pass and of the plan, and those for the last moments.
    let checks = |table: &Table, steps: usize| {
        let model = Model::of(table, rounds(table, steps));
        let plan = model.plan(Start::LogIn);
        [plan.pass, plan.checks, if plan.run { model.latest() } else { 0 }].map(|number| number as f64)
    };
    let by_plan = |table: &Table, steps: usize| {
        let [_, plan, latest] = checks(table, steps);
        latest / plan
    };
    let alone = |table: &Table, steps: usize| {
        let [pass, _, latest] = checks(table, steps);
        latest / if steps == FEW { pass } else { 1.0 }
    };
    let goals: [(&str, Measure); 2] = [("windows by plan", &by_plan), ("windows", &alone)];
    for (name, measure) in goals {
        println!("{name}");
        println!("{:>6} {:>7} {:>6} {:>10} {:>10} {:>10} {:>9} {:>7}  table, reduced to what matters; all of it", "steps", "rounds", "guards", "checks", "of plan", "windows us", "plan us", "ratio");
        for table in search(seconds / 2, first..first + SEEDS / 2, measure) {
            let [_, of_plan, of_latest] = checks(&table, TOTAL);
            let (windows, plan) = (windows_time(&table), plan_time(&table, judge::plan));
            println!(
                "{:>6} {:>7} {:>6} {:>10} {of_plan:>10} {windows:>10.1} {plan:>9.1} {:>7.2}  {}; {}",
                table.steps.len(), rounds(&table, TOTAL), table.guards(), of_plan + of_latest, windows / plan, words(&reduced(&table, &by_plan)), hex(&table)
            );
        }
    }
}

fn main() {
    let seconds: u64 = std::env::args().nth(1).map_or(60, |word| word.parse().expect("seconds"));
    let first: u64 = std::env::args().nth(3).map_or(1, |word| word.parse().expect("the first seed"));
    match std::env::args().nth(2).as_deref() {
        None | Some("log-in") => search_plan(seconds, first, Start::LogIn, judge::plan),
        Some("mid-shift") => search_plan(seconds, first, Start::MidShift, judge::plan_mid_shift),
        Some("panel") => search_panel(seconds, first),
        Some(word) => panic!("{word}: only log-in, mid-shift or panel can be asked for"),
    }
}
