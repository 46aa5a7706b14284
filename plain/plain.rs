//! The four questions about a timing table and the panel's two, in plain Rust and with no proofs; scans.rs beside it judges
//! scans, and cards.rs converts cards. The proved libraries are compared with them, in what they answer (terminal/compare.rs) and in
//! how long they take (bench/bench.rs).
//!
//! Rounds, plan and demands have two variants: runs from log-in, which sets every clock to 0, or in mid-shift, from any readings.
//! The panel shows runs from log-in.
//!
//! A clock is 01's timer, a guard its bound, a reset its zeroing. Clocks are numbered from 1, as on the wire.

use std::cell::RefCell;

/// The most bytes of a table.
pub const LONGEST: usize = 4096;
/// The most clocks of a table.
pub const CLOCKS: usize = 6;
/// The most steps of a round.
pub const STEPS: usize = 16;
/// The most guards of a table.
pub const GUARDS: usize = 64;
/// The largest constant of a guard.
pub const CONSTANT: u16 = 4000;
/// The most steps of all rounds of a plan.
pub const TOTAL: usize = 1024;

/// Why a question is refused, with 01's number.
#[derive(Clone, Copy, Debug, PartialEq, Eq)]
pub enum Fault {
    Length = 1,
    Cut,
    Kind,
    Head,
    Bounds,
    Timer,
    Relation,
    Constant,
    Steps,
    Tail,
    Rounds,
    Times,
    Starts,
    Loop,
    List,
    Twice,
    Record,
    Tray,
    Verdicts,
    Card,
    Output,
}

/// A fault and the place of the byte that it is found at, or 0.
#[derive(Clone, Copy, Debug, PartialEq, Eq)]
pub struct Refusal {
    pub fault: Fault,
    pub place: usize,
}

/// With which readings the clocks may start: all 0, or any.
#[derive(Clone, Copy, Debug, PartialEq, Eq)]
pub enum Start {
    LogIn,
    MidShift,
}

/// How a guard compares its clock's reading with its constant.
#[derive(Clone, Copy, Debug, PartialEq, Eq)]
pub enum Relation {
    Under,
    AtMost,
    Exactly,
    AtLeast,
    Over,
}

/// What a step asks of a clock's reading.
#[derive(Clone, Copy, Debug, PartialEq, Eq)]
pub struct Guard {
    pub clock: u8,
    pub relation: Relation,
    pub constant: u16,
}

/// What a table has, counted.
#[derive(Clone, Copy, Debug, Default, PartialEq, Eq)]
pub struct Counted {
    pub clocks: usize,
    pub steps: usize,
    pub guards: usize,
}

/// The answer to "rounds".
#[derive(Clone, Copy, Debug, PartialEq, Eq)]
pub enum Rounds {
    Count(u64),
    WithoutEnd,
}

/// The answer to "plan": the parts to a tick, or the length of a loop.
#[derive(Clone, Copy, Debug, PartialEq, Eq)]
pub enum Plan {
    Found { parts: u64 },
    Loop { length: usize },
}

/// When a step may happen: from a moment to a moment, from a moment on, or never, where no run exists.
#[derive(Clone, Copy, Debug, PartialEq, Eq)]
pub enum Window<T> {
    Closed(T, T),
    Open(T),
    Absent,
}

/// "Read": the clocks, steps and guards of a table.
pub fn read(bytes: &[u8]) -> Result<Counted, Refusal> {
    go_through(bytes, &mut ())
}

/// "Rounds": how many rounds a table allows.
pub fn rounds(bytes: &[u8], start: Start) -> Result<Rounds, Refusal> {
    Ok(count(&Table::parse(bytes)?, start))
}

/// "Plan for k": the earliest moments in the first places of `times` and their smallest starts in those of `starts`; or a loop
/// in those of `room`.
pub fn plan(
    bytes: &[u8],
    start: Start,
    k: u64,
    times: &mut [u64],
    starts: &mut [u64],
    room: &mut [u64],
) -> Result<Plan, Refusal> {
    let table = Table::parse(bytes)?;
    let total = table.total(k)?;
    let clocks = table.counted.clocks;
    let refuse = |fault| Err(Refusal { fault, place: 0 });
    if times.len() < total {
        return refuse(Fault::Times);
    }
    if starts.len() < clocks {
        return refuse(Fault::Starts);
    }
    if room.len() < total + clocks + 1 {
        return refuse(Fault::Loop);
    }
    SPACE.with_borrow_mut(|space| {
        space.demands.set(&table, total);
        if let Some(first) = space.earliest(start) {
            let mut length = 0;
            for (place, moment) in room.iter_mut().zip(space.first.cycle(first)) {
                *place = moment.into();
                length += 1;
            }
            return Ok(Plan::Loop { length });
        }
        let time = &space.first.time;
        for (place, &t) in times.iter_mut().zip(&time[1..=total]) {
            *place = t as u64;
        }
        let least = space.demands.least_starts(time);
        for (place, &s) in starts.iter_mut().zip(&least[..clocks]) {
            *place = s as u64;
        }
        let parts = space.demands.moments() as u64;
        Ok(Plan::Found { parts })
    })
}

/// "Demands for k": their number, with four numbers for each (from, to, bound, strict) in the first places of `row`.
pub fn demands(bytes: &[u8], start: Start, k: u64, row: &mut [i64]) -> Result<usize, Refusal> {
    let table = Table::parse(bytes)?;
    let total = table.total(k)?;
    let exact = |g: &&Guard| g.relation == Relation::Exactly;
    let all = table.guards[..table.ends[table.counted.steps]].iter();
    let of_round = table.counted.steps + all.len() + all.filter(exact).count();
    let of_clock = match start {
        Start::LogIn => 2,
        Start::MidShift => 1,
    };
    let number = total / table.counted.steps * of_round + table.counted.clocks * of_clock;
    if row.len() < 4 * number {
        return Err(Refusal {
            fault: Fault::List,
            place: 0,
        });
    }
    let mut places = row.chunks_exact_mut(4);
    let mut put = |from: usize, to: usize, bound: i64, strict: bool| {
        if let Some(place) = places.next() {
            place.copy_from_slice(&[from as i64, to as i64, bound, i64::from(strict)]);
        }
    };
    let mut last = resets_before(total);
    for (i, step) in (1..=total).zip((0..table.counted.steps).cycle()) {
        put(i, i - 1, 0, false);
        for g in table.guards_of(step) {
            let (z, c) = (last[usize::from(g.clock)], i64::from(g.constant));
            match g.relation {
                Relation::Under => put(z, i, c, true),
                Relation::AtMost => put(z, i, c, false),
                Relation::Exactly => {
                    put(z, i, c, false);
                    put(i, z, -c, false);
                }
                Relation::AtLeast => put(i, z, -c, false),
                Relation::Over => put(i, z, -c, true),
            }
        }
        table.reset(step, i, &mut last);
    }
    for j in 1..=table.counted.clocks {
        put(0, total + j, 0, false);
        if start == Start::LogIn {
            put(total + j, 0, 0, false);
        }
    }
    Ok(number)
}

/// The panel's "windows for k": a mark for each step in the first places of `marks`, and two seconds for each in those of `times`.
/// The number of steps.
pub fn windows(
    bytes: &[u8],
    k: u64,
    marks: &mut [u8],
    times: &mut [f64],
) -> Result<usize, Refusal> {
    let table = Table::parse(bytes)?;
    let total = table.total(k)?;
    if marks.len() < total || times.len() < 2 * total {
        return Err(Refusal {
            fault: Fault::Times,
            place: 0,
        });
    }
    let parts = table.parts(total);
    SPACE.with_borrow_mut(|space| {
        let places = marks.iter_mut().zip(times.chunks_exact_mut(2));
        for ((mark, pair), span) in places.zip(space.spans(&table, total)) {
            (*mark, [pair[0], pair[1]]) = shown(in_seconds(span, parts));
        }
    });
    Ok(total)
}

/// The panel's "widest for k": the widest closed window, the first among equals, in seconds; or absent, where none is closed.
pub fn widest(bytes: &[u8], k: u64) -> Result<Window<f64>, Refusal> {
    let table = Table::parse(bytes)?;
    let total = table.total(k)?;
    let mut widest: Option<(i64, i64)> = None;
    SPACE.with_borrow_mut(|space| {
        for span in space.spans(&table, total) {
            if let Window::Closed(a, b) = span {
                if widest.is_none_or(|(c, d)| b - a > d - c) {
                    widest = Some((a, b));
                }
            }
        }
    });
    let window = widest.map_or(Window::Absent, |(a, b)| Window::Closed(a, b));
    Ok(in_seconds(window, table.parts(total)))
}

/// The parts to a tick of k rounds from log-in, and the window of each step in parts.
pub fn spans(bytes: &[u8], k: u64) -> Result<(u64, Vec<Window<i64>>), Refusal> {
    let table = Table::parse(bytes)?;
    let total = table.total(k)?;
    let spans = SPACE.with_borrow_mut(|space| space.spans(&table, total).collect());
    Ok((table.parts(total), spans))
}

// Reading.

/// What the records of a table are handed to, from the left.
pub trait Take {
    /// The head, with the number of clocks.
    fn head(&mut self, _clocks: u8) {}
    fn guard(&mut self, _guard: Guard) {}
    fn reset(&mut self, _clock: u8) {}
    /// A step finished, with the clocks that it resets, as bits.
    fn step(&mut self, _resets: u8) {}
}

impl Take for () {}

/// Goes through the records of a table with 01's tests, and hands on those that pass.
pub fn go_through(bytes: &[u8], taker: &mut impl Take) -> Result<Counted, Refusal> {
    let refuse = |fault, place| Err(Refusal { fault, place });
    let clocks = match *bytes {
        _ if bytes.len() > LONGEST => return refuse(Fault::Length, LONGEST),
        [] | [1] => return refuse(Fault::Cut, 0),
        [0 | 6.., ..] => return refuse(Fault::Kind, 0),
        [1, clocks, ..] if (1..=CLOCKS).contains(&clocks.into()) => clocks,
        _ => return refuse(Fault::Head, 0),
    };
    taker.head(clocks);
    let (mut guards, mut steps) = (0, 0);
    // Whether a guard or reset stands since the last finished step, and the clocks reset since then, as bits.
    let (mut open, mut resets) = (false, 0u32);
    let mut at = 2;
    loop {
        let refuse = |fault| refuse(fault, at);
        let Some(&kind) = bytes.get(at) else {
            return refuse(Fault::Cut);
        };
        match kind {
            2 => {
                let Some(&[clock, relation, low, high]) = bytes[at + 1..].first_chunk() else {
                    return refuse(Fault::Cut);
                };
                let constant = u16::from_le_bytes([low, high]);
                if guards == GUARDS {
                    return refuse(Fault::Bounds);
                }
                if !(1..=clocks).contains(&clock) {
                    return refuse(Fault::Timer);
                }
                let Some(relation) = relation_of(relation) else {
                    return refuse(Fault::Relation);
                };
                if constant > CONSTANT {
                    return refuse(Fault::Constant);
                }
                guards += 1;
                open = true;
                at += 5;
                taker.guard(Guard {
                    clock,
                    relation,
                    constant,
                });
            }
            3 => {
                let Some(&[clock]) = bytes[at + 1..].first_chunk() else {
                    return refuse(Fault::Cut);
                };
                if !(1..=clocks).contains(&clock) {
                    return refuse(Fault::Timer);
                }
                if resets >> clock & 1 == 1 {
                    return refuse(Fault::Twice);
                }
                open = true;
                resets |= 1 << clock;
                at += 2;
                taker.reset(clock);
            }
            4 => {
                if steps == STEPS {
                    return refuse(Fault::Steps);
                }
                taker.step(resets as u8);
                steps += 1;
                (open, resets) = (false, 0);
                at += 1;
            }
            5 => {
                if steps == 0 || open {
                    return refuse(Fault::Steps);
                }
                at += 1;
                break;
            }
            1 => return refuse(Fault::Head),
            _ => return refuse(Fault::Kind),
        }
    }
    if at < bytes.len() {
        return refuse(Fault::Tail, at);
    }
    Ok(Counted {
        clocks: clocks.into(),
        steps,
        guards,
    })
}

fn relation_of(byte: u8) -> Option<Relation> {
    match byte {
        0 => Some(Relation::Under),
        1 => Some(Relation::AtMost),
        2 => Some(Relation::Exactly),
        3 => Some(Relation::AtLeast),
        4 => Some(Relation::Over),
        _ => None,
    }
}

/// For each clock by its number, the moment of its last reset.
type Resets = [usize; CLOCKS + 1];

/// The last resets before the start of a plan of so many steps.
fn resets_before(total: usize) -> Resets {
    std::array::from_fn(|j| total + j)
}

/// A legal table.
pub struct Table {
    pub counted: Counted,
    guards: [Guard; GUARDS],
    /// Step i has the guards from place `ends[i]` up to place `ends[i + 1]`.
    ends: [usize; STEPS + 1],
    /// The clocks that each step resets, as bits.
    pub resets: [u8; STEPS],
}

impl Table {
    pub fn parse(bytes: &[u8]) -> Result<Table, Refusal> {
        let none = Guard {
            clock: 0,
            relation: Relation::Under,
            constant: 0,
        };
        let mut table = Table {
            counted: Counted::default(),
            guards: [none; GUARDS],
            ends: [0; STEPS + 1],
            resets: [0; STEPS],
        };
        table.counted = go_through(bytes, &mut table)?;
        Ok(table)
    }

    /// The steps of k rounds.
    fn total(&self, k: u64) -> Result<usize, Refusal> {
        let total = usize::try_from(k)
            .ok()
            .and_then(|k| k.checked_mul(self.counted.steps));
        total.filter(|t| (1..=TOTAL).contains(t)).ok_or(Refusal {
            fault: Fault::Rounds,
            place: 0,
        })
    }

    /// The parts to a tick in a plan of so many steps.
    fn parts(&self, total: usize) -> u64 {
        (total + self.counted.clocks + 1) as u64
    }

    /// The guards of a step, counted from 0.
    pub fn guards_of(&self, step: usize) -> &[Guard] {
        &self.guards[self.ends[step]..self.ends[step + 1]]
    }

    /// Whether a step resets a clock.
    pub fn resets(&self, step: usize, clock: usize) -> bool {
        self.resets[step] >> clock & 1 == 1
    }

    /// The resets of a step take place at a moment.
    fn reset(&self, step: usize, moment: usize, last: &mut Resets) {
        for j in 1..=self.counted.clocks {
            if self.resets(step, j) {
                last[j] = moment;
            }
        }
    }

    /// From how many steps ago each clock was reset at a step, the same at the next.
    fn age(&self, step: usize, ago: &mut [usize; CLOCKS + 1]) {
        for j in 1..=self.counted.clocks {
            let reset = self.resets(step, j);
            ago[j] = if reset { 1 } else { ago[j].saturating_add(1) };
        }
    }
}

/// The records of a table, which fill it in.
impl Take for Table {
    fn guard(&mut self, guard: Guard) {
        self.guards[self.counted.guards] = guard;
        self.counted.guards += 1;
    }

    fn step(&mut self, resets: u8) {
        self.resets[self.counted.steps] = resets;
        self.counted.steps += 1;
        self.ends[self.counted.steps] = self.counted.guards;
    }
}

// Planning: the longest paths of the demands, in parts.

/// A demand between a step and an earlier moment, which lies so many steps ago, or is another where the plan does not reach back so
/// far. One of the two is to be at least `weight` after the other.
#[derive(Clone, Copy)]
struct Demand {
    ago: usize,
    or_else: usize,
    weight: i64,
}

impl Demand {
    /// The earlier moment, where the step is moment i.
    fn earlier(&self, i: usize) -> usize {
        if self.ago < i {
            i - self.ago
        } else {
            self.or_else
        }
    }
}

/// Demands of each step of a round.
#[derive(Default)]
struct Side {
    demands: Vec<Demand>,
    /// Step s has those from place `ends[s]` up to place `ends[s + 1]`.
    ends: [usize; STEPS + 1],
}

impl Side {
    fn of(&self, step: usize) -> &[Demand] {
        &self.demands[self.ends[step]..self.ends[step + 1]]
    }
}

/// The tightest demands of so many steps. Those of `lower` are that the step is after the earlier moment: the order of the steps, and
/// for each clock one guard from below. Those of `upper` are the other way round: for each clock one guard from above.
#[derive(Default)]
struct Demands {
    clocks: usize,
    steps: usize,
    total: usize,
    lower: Side,
    upper: Side,
}

impl Demands {
    /// Those of a table.
    fn set(&mut self, table: &Table, total: usize) {
        let Counted { clocks, steps, .. } = table.counted;
        (self.clocks, self.steps, self.total) = (clocks, steps, total);
        let parts = self.moments() as i64;
        self.lower.demands.clear();
        self.upper.demands.clear();
        // How many steps ago each clock was reset, in rounds without end. For the first step it is known after a round.
        let mut ago = [usize::MAX; CLOCKS + 1];
        for step in 0..steps {
            table.age(step, &mut ago);
        }
        for step in 0..steps {
            let tight = tightest(table.guards_of(step), parts);
            self.lower.demands.push(Demand {
                ago: 1,
                or_else: 0,
                weight: 0,
            });
            for j in 1..=clocks {
                let demand = |weight| Demand {
                    ago: ago[j],
                    or_else: total + j,
                    weight,
                };
                self.lower.demands.extend(tight.least[j].map(demand));
                self.upper.demands.extend(tight.most[j].map(|w| demand(-w)));
            }
            self.lower.ends[step + 1] = self.lower.demands.len();
            self.upper.ends[step + 1] = self.upper.demands.len();
            table.age(step, &mut ago);
        }
    }

    /// The start, the steps, and the last reset of each clock before the start. As many parts has a tick.
    fn moments(&self) -> usize {
        1 + self.total + self.clocks
    }

    /// The smallest starts of the clocks for the times of the moments. Steps of later rounds are no earlier, and ask no more.
    fn least_starts(&self, time: &[i64]) -> [i64; CLOCKS] {
        let mut least = [0; CLOCKS];
        for i in 1..=self.steps {
            for demand in self.lower.of(i - 1) {
                if let Some(j) = demand.earlier(i).checked_sub(self.total + 1) {
                    least[j] = least[j].max(demand.weight - time[i]);
                }
            }
        }
        least
    }
}

/// For each clock by its number, the least and the most that a step's guards let it read, in parts.
#[derive(Default)]
struct Tight {
    least: [Option<i64>; CLOCKS + 1],
    most: [Option<i64>; CLOCKS + 1],
}

fn tightest(guards: &[Guard], parts: i64) -> Tight {
    let mut tight = Tight::default();
    for guard in guards {
        let (j, c) = (usize::from(guard.clock), i64::from(guard.constant) * parts);
        let (least, most) = match guard.relation {
            Relation::Under => (None, Some(c - 1)),
            Relation::AtMost => (None, Some(c)),
            Relation::Exactly => (Some(c), Some(c)),
            Relation::AtLeast => (Some(c), None),
            Relation::Over => (Some(c + 1), None),
        };
        // None is below every number, and so not the least of two.
        tight.least[j] = tight.least[j].max(least);
        tight.most[j] = tight.most[j].into_iter().chain(most).min();
    }
    tight
}

/// The time of a moment that nothing has reached: below all that can be.
const UNREACHED: i64 = i64::MIN / 2;

/// The parent of a moment that was not raised.
const NO_PARENT: u16 = u16::MAX;

/// How many passes of a plan go before the first way home or out, and before the last; and the most checks of such a way, by those of a
/// pass.
const PLAIN: usize = 3;
const TRIES: usize = 16;
const WAY: usize = 2;

/// The most checks of ways home and out to the latest times, by those of a pass.
const LATE: usize = 4;

/// Moments, each with its time and with its parent, the moment after which it was raised.
#[derive(Default)]
struct Moments {
    time: Vec<i64>,
    parent: Vec<u16>,
    marks: Vec<u16>,
}

impl Moments {
    /// The start and the steps get a time, and the last resets before the start another.
    fn set(&mut self, demands: &Demands, steps: i64, resets: i64) {
        self.time.clear();
        self.time.resize(demands.total + 1, steps);
        self.time.resize(demands.moments(), resets);
        self.parent.clear();
        self.parent.resize(demands.moments(), NO_PARENT);
    }

    /// Raises a moment to a weight after another; whether it was below.
    fn raise(&mut self, moment: usize, after: usize, weight: i64) -> bool {
        let least = self.time[after] + weight;
        let below = self.time[moment] < least;
        if below {
            self.time[moment] = least;
            self.parent[moment] = after as u16;
        }
        below
    }

    /// A moment on a cycle of parents. Each walk leaves its own marks and stops at any.
    fn on_cycle(&mut self) -> Option<u16> {
        self.marks.clear();
        self.marks.resize(self.parent.len(), 0);
        for (start, walk) in (0..self.parent.len()).zip(1..) {
            let mut moment = start;
            while self.marks[moment] == 0 && self.parent[moment] != NO_PARENT {
                self.marks[moment] = walk;
                moment = usize::from(self.parent[moment]);
            }
            if self.marks[moment] == walk {
                return Some(moment as u16);
            }
        }
        None
    }

    /// The moments of the cycle of parents that a moment is on.
    fn cycle(&self, first: u16) -> impl Iterator<Item = u16> + '_ {
        let next = move |&m: &u16| Some(self.parent[usize::from(m)]).filter(|&p| p != first);
        std::iter::successors(Some(first), next)
    }
}

/// Ways over the steps of a plan, on which demands raise moments: those of `forth` the step, those of `back` the earlier moment.
struct Walk<'a> {
    start: Start,
    demands: &'a Demands,
    forth: &'a Side,
    back: &'a Side,
    moments: &'a mut Moments,
}

impl Walk<'_> {
    /// Raises the moments until all demands are met; or, where they contradict each other, until the parents close a cycle: a moment
    /// on it. Passes go forth and back (Yen's order). Each way leaves its own demands met, so that one that raises nothing is the
    /// last. After some passes a way home or out goes before each, in turn, and after some more plain passes go on.
    fn settle(&mut self) -> Option<u16> {
        self.go_forth();
        let mut passes = 0;
        loop {
            passes += 1;
            if !self.go_back() {
                return None;
            }
            let raised = match passes {
                PLAIN..TRIES if passes % 2 == 1 => {
                    self.go_home(WAY);
                    self.go_forth();
                    true
                }
                PLAIN..TRIES => {
                    self.go_forth();
                    self.go_out(WAY);
                    self.go_forth();
                    true
                }
                _ => self.go_forth(),
            };
            if !raised {
                return None;
            }
            let found = self.moments.on_cycle();
            if found.is_some() {
                return found;
            }
        }
    }

    /// Forth over all steps; whether a moment was raised. Log-in resets the clocks.
    fn go_forth(&mut self) -> bool {
        let total = self.demands.total;
        let mut raised = false;
        if self.start == Start::LogIn {
            for j in 1..=self.demands.clocks {
                raised |= self.moments.raise(total + j, 0, 0);
            }
        }
        for (i, step) in (1..=total).zip((0..self.demands.steps).cycle()) {
            raised |= self.forth(i, step);
        }
        raised
    }

    /// Back over all steps; whether a moment was raised. The last resets before the start are not after it.
    fn go_back(&mut self) -> bool {
        let total = self.demands.total;
        let mut raised = false;
        for (i, step) in (1..=total).rev().zip((0..self.demands.steps).rev().cycle()) {
            raised |= self.back(i, step) < usize::MAX;
        }
        for j in 1..=self.demands.clocks {
            raised |= self.moments.raise(0, total + j, 0);
        }
        raised
    }

    /// A way home, after one back: forth step by step, and from each step that is raised back at once to the lowest moment that is
    /// raised with it, and on after that. Cut after the checks of so many passes; whether it has come to the end, where all demands of
    /// the steps are met.
    fn go_home(&mut self, passes: usize) -> bool {
        let (steps, total) = (self.demands.steps, self.demands.total);
        let pass = total / steps * (self.forth.demands.len() + self.back.demands.len());
        let mut checks = 0;
        let (mut i, mut step) = (1, 0);
        while i <= total && checks < passes * pass {
            checks += self.forth.of(step).len();
            let mut lowest = i;
            if self.forth(i, step) {
                let (mut at, mut step) = (i, step);
                while at >= lowest {
                    checks += self.back.of(step).len();
                    lowest = lowest.min(self.back(at, step));
                    at -= 1;
                    step = step.checked_sub(1).unwrap_or(steps - 1);
                }
            }
            step = match step + 1 {
                next if lowest == i && next < steps => next,
                _ => lowest % steps,
            };
            i = lowest + 1;
        }
        i > total
    }

    /// A way out, after one forth: back step by step, and from each earlier moment that is raised forth at once, a round past the last
    /// moment that is raised with it, and back again from that. Cut after the checks of so many passes.
    fn go_out(&mut self, passes: usize) {
        let (steps, total) = (self.demands.steps, self.demands.total);
        let pass = total / steps * (self.forth.demands.len() + self.back.demands.len());
        let mut checks = 0;
        let mut i = total;
        while i > 0 && checks < passes * pass {
            let step = (i - 1) % steps;
            checks += self.back.of(step).len();
            let lowest = self.back(i, step);
            let mut top = i - 1;
            if lowest < i {
                let mut at = lowest + 1;
                while at <= total.min(top + steps) {
                    let step = (at - 1) % steps;
                    checks += self.forth.of(step).len();
                    if self.forth(at, step) {
                        top = top.max(at);
                    }
                    at += 1;
                }
            }
            i = top;
        }
    }

    /// Raises moment i, of this step of a round, after earlier ones; whether it was raised.
    fn forth(&mut self, i: usize, step: usize) -> bool {
        let mut raised = false;
        for demand in self.forth.of(step) {
            raised |= self.moments.raise(i, demand.earlier(i), demand.weight);
        }
        raised
    }

    /// Raises earlier moments after moment i, of this step of a round; the lowest that was raised, or the greatest number.
    fn back(&mut self, i: usize, step: usize) -> usize {
        let mut lowest = usize::MAX;
        if self.moments.time[i] != UNREACHED {
            for demand in self.back.of(step) {
                let earlier = demand.earlier(i);
                if self.moments.raise(earlier, i, demand.weight) {
                    lowest = lowest.min(earlier);
                }
            }
        }
        lowest
    }
}

/// Room to work in, which is kept from question to question.
#[derive(Default)]
struct Space {
    demands: Demands,
    first: Moments,
    last: Moments,
}

thread_local! {
    static SPACE: RefCell<Space> = RefCell::default();
}

impl Space {
    /// The earliest times of all moments, with the start at 0; or a moment on a cycle of demands that contradict each other. In
    /// mid-shift a clock may read more than any guard asks for.
    fn earliest(&mut self, start: Start) -> Option<u16> {
        let resets = match start {
            Start::LogIn => 0,
            Start::MidShift => -i64::from(CONSTANT + 1) * self.demands.moments() as i64,
        };
        self.first.set(&self.demands, 0, resets);
        let mut walk = Walk {
            start,
            demands: &self.demands,
            forth: &self.demands.lower,
            back: &self.demands.upper,
            moments: &mut self.first,
        };
        walk.settle()
    }

    /// The latest times from log-in, where a run exists, with the sign turned round: so that the same demands raise the earlier moment
    /// where they raised the later one, and the later where they raised the earlier. A pass and a way home, and where that is cut passes with
    /// ways out between.
    fn latest(&mut self) {
        self.last.set(&self.demands, UNREACHED, 0);
        self.last.time[0] = 0;
        let mut walk = Walk {
            start: Start::LogIn,
            demands: &self.demands,
            forth: &self.demands.upper,
            back: &self.demands.lower,
            moments: &mut self.last,
        };
        walk.go_forth();
        if walk.go_back() && !walk.go_home(LATE) {
            while walk.go_forth() {
                walk.go_out(4 * LATE);
                walk.go_forth();
                if !walk.go_back() {
                    return;
                }
            }
        }
    }

    /// The windows of all steps of a plan from log-in, in parts.
    fn spans(&mut self, table: &Table, total: usize) -> impl Iterator<Item = Window<i64>> + '_ {
        self.demands.set(table, total);
        let run = self.earliest(Start::LogIn).is_none();
        if run {
            self.latest();
        }
        (1..=total).map(move |i| match (run, self.last.time.get(i)) {
            (true, Some(&UNREACHED)) => Window::Open(self.first.time[i]),
            (true, Some(last)) => Window::Closed(self.first.time[i], -last),
            _ => Window::Absent,
        })
    }
}

// Windows, as the panel shows them.

/// A tick is a tenth of a second.
fn seconds(moment: i64, parts: u64) -> f64 {
    moment as f64 / (10 * parts) as f64
}

fn in_seconds(window: Window<i64>, parts: u64) -> Window<f64> {
    match window {
        Window::Closed(a, b) => Window::Closed(seconds(a, parts), seconds(b, parts)),
        Window::Open(a) => Window::Open(seconds(a, parts)),
        Window::Absent => Window::Absent,
    }
}

/// A window as the panel has it: its mark and two times.
fn shown(window: Window<f64>) -> (u8, [f64; 2]) {
    match window {
        Window::Closed(a, b) => (2, [a, b]),
        Window::Open(a) => (1, [a, 0.0]),
        Window::Absent => (0, [0.0, 0.0]),
    }
}

// Counting: the effects of rounds as difference bound matrices.

/// A bound on a difference, in ticks: 2 d + 1 for "at most d", 2 d for "under d". The smaller is the tighter.
type Bound = i64;

const NONE: Bound = Bound::MAX;
const ZERO: Bound = 1;

fn at_most(d: i64) -> Bound {
    2 * d + 1
}

fn under(d: i64) -> Bound {
    2 * d
}

/// The bound on a sum of differences: strict where one of the two is.
fn sum(a: Bound, b: Bound) -> Bound {
    if a == NONE || b == NONE {
        NONE
    } else {
        a + b - ((a | b) & 1)
    }
}

/// The vertices of one configuration: now, and the last reset of each clock.
const SIDE: usize = CLOCKS + 1;

/// What some steps do, as the tightest bounds between the configuration before them (the first `side` vertices) and the one
/// after them (the next `side`): `bounds[a][b]` is on the time at b less the time at a.
#[derive(Clone)]
struct Effect {
    side: usize,
    bounds: [[Bound; 2 * SIDE]; 2 * SIDE],
}

impl Effect {
    /// The effect of a step, if it can be done at all.
    fn of_step(table: &Table, step: usize) -> Option<Effect> {
        let side = table.counted.clocks + 1;
        let mut bounds = [[NONE; 2 * SIDE]; 2 * SIDE];
        let mut put = |from: usize, to: usize, bound: Bound| {
            bounds[from][to] = bounds[from][to].min(bound);
        };
        let now = side;
        put(now, 0, ZERO);
        for j in 1..side {
            let last = if table.resets(step, j) { now } else { j };
            put(0, j, ZERO);
            put(last, side + j, ZERO);
            put(side + j, last, ZERO);
        }
        for guard in table.guards_of(step) {
            let (j, c) = (usize::from(guard.clock), i64::from(guard.constant));
            match guard.relation {
                Relation::Under => put(j, now, under(c)),
                Relation::AtMost => put(j, now, at_most(c)),
                Relation::Exactly => {
                    put(j, now, at_most(c));
                    put(now, j, at_most(-c));
                }
                Relation::AtLeast => put(now, j, at_most(-c)),
                Relation::Over => put(now, j, under(-c)),
            }
        }
        for v in 0..2 * side {
            put(v, v, ZERO);
        }
        close(&mut bounds, 2 * side, 0..2 * side)?;
        Some(Effect { side, bounds })
    }

    /// The effect of these steps and then others, if they can be done together. Both effects are closed, so that only ways
    /// through the configuration between them are new.
    fn then(&self, other: &Effect) -> Option<Effect> {
        let side = self.side;
        let mut joint = [[NONE; 3 * SIDE]; 3 * SIDE];
        for a in 0..2 * side {
            joint[a][..2 * side].copy_from_slice(&self.bounds[a][..2 * side]);
        }
        for a in 0..2 * side {
            for b in 0..2 * side {
                let bound = &mut joint[side + a][side + b];
                *bound = other.bounds[a][b].min(*bound);
            }
        }
        close(&mut joint, 3 * side, side..2 * side)?;
        let mut bounds = [[NONE; 2 * SIDE]; 2 * SIDE];
        for a in 0..2 * side {
            let row = &joint[if a < side { a } else { side + a }];
            bounds[a][..side].copy_from_slice(&row[..side]);
            bounds[a][side..2 * side].copy_from_slice(&row[2 * side..3 * side]);
        }
        Some(Effect { side, bounds })
    }

    /// Whether it is possible from a configuration that the start allows. Readings 0 are those where now and all last resets
    /// have one time.
    fn allowed(&self, start: Start) -> bool {
        let before = self.bounds[..self.side].iter();
        start == Start::MidShift
            || before
                .flat_map(|row| &row[..self.side])
                .all(|&bound| bound >= ZERO)
    }

    /// Whether two effects are possible from the same configurations.
    fn same_starts(&self, other: &Effect) -> bool {
        (0..self.side).all(|a| self.bounds[a][..self.side] == other.bounds[a][..self.side])
    }
}

/// Tightens the bounds among the first `size` vertices by ways through those of a range (Floyd and Warshall); None where they
/// contradict each other.
fn close<const N: usize>(
    bounds: &mut [[Bound; N]; N],
    size: usize,
    through: std::ops::Range<usize>,
) -> Option<()> {
    for p in through {
        if bounds[p][p] < ZERO {
            return None;
        }
        let on = bounds[p];
        for row in &mut bounds[..size] {
            let first = row[p];
            if first != NONE {
                for (bound, &second) in row[..size].iter_mut().zip(&on[..size]) {
                    *bound = sum(first, second).min(*bound);
                }
            }
        }
    }
    Some(())
}

/// The effect of one round of a table, if it can be done at all.
fn effect_of_round(table: &Table) -> Option<Effect> {
    let mut effect = Effect::of_step(table, 0)?;
    for step in 1..table.counted.steps {
        effect = effect.then(&Effect::of_step(table, step)?)?;
    }
    Some(effect)
}

/// The rounds that a table allows: effects are doubled as far as the start allows them, then the smaller ones added on the way
/// back. Where twice as many rounds are possible from the same configurations, every number is.
fn count(table: &Table, start: Start) -> Rounds {
    let allowed = |effect: &Effect| effect.allowed(start);
    let Some(mut most) = effect_of_round(table).filter(allowed) else {
        return Rounds::Count(0);
    };
    let mut smaller = Vec::new();
    while let Some(twice) = most.then(&most).filter(allowed) {
        if twice.same_starts(&most) {
            return Rounds::WithoutEnd;
        }
        smaller.push(std::mem::replace(&mut most, twice));
    }
    let mut count = 1 << smaller.len();
    for (i, effect) in smaller.iter().enumerate().rev() {
        if let Some(more) = most.then(effect).filter(allowed) {
            most = more;
            count += 1 << i;
        }
    }
    Rounds::Count(count)
}

/// The questions in the form of the C interface (terminal/judge.h, terminal/panel.h): four numbers in the first places of a lent
/// answer; false, and nothing done, where it has fewer than four. Those that do not say mid-shift are from log-in.
pub mod entries {
    use super::{Plan, Refusal, Rounds, Start};

    fn refusal(refusal: Refusal) -> [u64; 4] {
        [refusal.fault as u64, refusal.place as u64, 0, 0]
    }

    fn give(answer: &mut [u64], numbers: impl FnOnce() -> Result<[u64; 4], Refusal>) -> bool {
        let Some(first) = answer.first_chunk_mut() else {
            return false;
        };
        *first = numbers().unwrap_or_else(refusal);
        true
    }

    fn counted(rounds: Rounds) -> [u64; 4] {
        match rounds {
            Rounds::Count(count) => [0, 0, count, 0],
            Rounds::WithoutEnd => [0, 1, 0, 0],
        }
    }

    fn planned(plan: Plan) -> [u64; 4] {
        match plan {
            Plan::Found { parts } => [0, 0, parts, 0],
            Plan::Loop { length } => [0, 1, length as u64, 0],
        }
    }

    fn listed(number: usize) -> [u64; 4] {
        [0, number as u64, 0, 0]
    }

    pub fn read(table: &[u8], answer: &mut [u64]) -> bool {
        give(answer, || {
            let c = super::read(table)?;
            Ok([0, c.clocks as u64, c.steps as u64, c.guards as u64])
        })
    }

    pub fn rounds(table: &[u8], answer: &mut [u64]) -> bool {
        give(answer, || super::rounds(table, Start::LogIn).map(counted))
    }

    pub fn rounds_mid_shift(table: &[u8], answer: &mut [u64]) -> bool {
        give(answer, || {
            super::rounds(table, Start::MidShift).map(counted)
        })
    }

    pub fn plan(
        table: &[u8],
        k: u64,
        times: &mut [u64],
        starts: &mut [u64],
        room: &mut [u64],
        answer: &mut [u64],
    ) -> bool {
        give(answer, || {
            super::plan(table, Start::LogIn, k, times, starts, room).map(planned)
        })
    }

    pub fn plan_mid_shift(
        table: &[u8],
        k: u64,
        times: &mut [u64],
        starts: &mut [u64],
        room: &mut [u64],
        answer: &mut [u64],
    ) -> bool {
        give(answer, || {
            super::plan(table, Start::MidShift, k, times, starts, room).map(planned)
        })
    }

    pub fn demands(table: &[u8], k: u64, row: &mut [i64], answer: &mut [u64]) -> bool {
        give(answer, || {
            super::demands(table, Start::LogIn, k, row).map(listed)
        })
    }

    pub fn demands_mid_shift(table: &[u8], k: u64, row: &mut [i64], answer: &mut [u64]) -> bool {
        give(answer, || {
            super::demands(table, Start::MidShift, k, row).map(listed)
        })
    }

    pub fn windows(
        table: &[u8],
        k: u64,
        marks: &mut [u8],
        times: &mut [f64],
        answer: &mut [u64],
    ) -> bool {
        give(answer, || {
            super::windows(table, k, marks, times).map(listed)
        })
    }

    /// Number, place and mark, and two times.
    pub fn widest(table: &[u8], k: u64) -> ([u64; 3], [f64; 2]) {
        match super::widest(table, k) {
            Ok(window) => {
                let (mark, times) = super::shown(window);
                ([0, 0, u64::from(mark)], times)
            }
            Err(r) => {
                let [number, place, ..] = refusal(r);
                ([number, place, 0], [0.0, 0.0])
            }
        }
    }
}
