//! The tables that are timed: the samples, the largest, and those that plans or the panel take long for.

pub const UNDER: u8 = 0;
pub const AT_MOST: u8 = 1;
pub const EXACTLY: u8 = 2;
pub const AT_LEAST: u8 = 3;
pub const OVER: u8 = 4;

pub fn guard(clock: u8, relation: u8, constant: u16) -> Vec<u8> {
    let [low, high] = constant.to_le_bytes();
    vec![2, clock, relation, low, high]
}

pub fn reset(clock: u8) -> Vec<u8> {
    vec![3, clock]
}

/// A table of these steps, each its records one after the other.
pub fn table(clocks: u8, steps: &[Vec<u8>]) -> Vec<u8> {
    let mut bytes = vec![1, clocks];
    for step in steps {
        bytes.extend(step);
        bytes.push(4);
    }
    bytes.push(5);
    bytes
}

pub const S1: &[u8] = include_bytes!("../samples/S1.table");
pub const S2: &[u8] = include_bytes!("../samples/S2.table");
pub const S8: &[u8] = include_bytes!("../samples/S8.table");
pub const S9: &[u8] = include_bytes!("../samples/S9.table");
pub const S10: &[u8] = include_bytes!("../samples/S10.table");
pub const S11: &[u8] = include_bytes!("../samples/S11.table");

/// 531 bytes, the longest table: sixteen steps with four guards and six resets each.
pub fn longest() -> Vec<u8> {
    let guards: Vec<u8> = (1..=4).flat_map(|i| guard(i, AT_MOST, 4000)).collect();
    let resets: Vec<u8> = (1..=6).flat_map(reset).collect();
    table(6, &vec![[guards, resets].concat(); 16])
}

/// 324 bytes: 64 guards in a step, and no reset.
pub fn guards_only() -> Vec<u8> {
    let guards: Vec<u8> = (0..64)
        .flat_map(|i| guard(i % 6 + 1, AT_MOST, 4000))
        .collect();
    table(6, &[guards])
}

/// 327 bytes: a step with a reset, and then one with 64 guards, of which none holds where every clock reads 2,000.
pub fn guards_of_another_step() -> Vec<u8> {
    let guards: Vec<u8> = (0..64)
        .flat_map(|i| guard(i % 6 + 1, UNDER, 2000))
        .collect();
    table(6, &[reset(1), guards])
}

/// 531 bytes: sixteen steps with six resets each, and 64 guards, four in each step or all in the first. The last guard of a step
/// holds from a tick after the step before it.
pub fn waiting(all_in_first: bool) -> Vec<u8> {
    let step = |i: u8| {
        let number = match (all_in_first, i) {
            (false, _) => 4,
            (true, 0) => 64,
            (true, _) => 0,
        };
        let guards = (1..=number).flat_map(|j| match j {
            _ if j == number => guard(4, AT_LEAST, 1),
            _ => guard(j % 6 + 1, AT_MOST, 4000),
        });
        guards.chain((1..=6).flat_map(reset)).collect()
    };
    let steps: Vec<_> = (0..16).map(step).collect();
    table(6, &steps)
}

/// 211 bytes: sixteen steps with six resets each, and no guard.
pub fn resets_only() -> Vec<u8> {
    let resets: Vec<u8> = (1..=6).flat_map(reset).collect();
    table(6, &vec![resets; 16])
}

/// Six clocks, sixteen steps, 64 guards, rounds without end: each step asks something of four clocks.
pub fn largest() -> Vec<u8> {
    let step = |i: u8| {
        let clock = |j: u8| (i + j) % 6 + 1;
        [
            guard(clock(0), AT_LEAST, 1),
            guard(clock(1), AT_MOST, 400),
            guard(clock(2), OVER, 0),
            guard(clock(3), UNDER, 500),
            reset(clock(0)),
        ]
        .concat()
    };
    let steps: Vec<_> = (0..16).map(step).collect();
    table(6, &steps)
}

/// The largest table, with a clock in place of another that is never reset and runs out: a count of rounds.
pub fn largest_with_an_end() -> Vec<u8> {
    let step = |i: u8| {
        let clock = |j: u8| (i + j) % 5 + 1;
        [
            guard(clock(0), AT_LEAST, 1),
            guard(clock(1), AT_MOST, 400),
            guard(clock(2), OVER, 0),
            guard(6, UNDER, 4000),
            reset(clock(0)),
        ]
        .concat()
    };
    let steps: Vec<_> = (0..16).map(step).collect();
    table(6, &steps)
}

/// A line as it may be: hook in, settle, weigh, label, scan out.
pub fn line() -> Vec<u8> {
    let steps = [
        [guard(1, AT_LEAST, 20), reset(1), reset(2)].concat(),
        guard(2, AT_LEAST, 5),
        [guard(2, AT_MOST, 12), reset(3)].concat(),
        [guard(3, AT_LEAST, 1), guard(3, UNDER, 8)].concat(),
        [guard(1, AT_MOST, 40), guard(3, OVER, 2)].concat(),
    ];
    table(3, &steps)
}

/// One step with 64 guards, and every clock reset.
pub fn crowded(relation: u8, constant: u16) -> Vec<u8> {
    let guards: Vec<u8> = (0..64)
        .flat_map(|i| guard(i % 6 + 1, relation, constant))
        .collect();
    let resets: Vec<u8> = (1..=6).flat_map(reset).collect();
    table(6, &[[guards, resets].concat()])
}

/// Steps of which clocks up to `used` are a part, with more guards, up to 64, that every run of the plans here meets.
pub fn filled(mut steps: Vec<Vec<u8>>, used: u8) -> Vec<u8> {
    let counted = crate::plain::read(&table(6, &steps)).unwrap();
    let length = counted.steps;
    for i in 0..64 - counted.guards {
        let clock = (i / 2 / length % 6) as u8 + 1;
        let (relation, constant) = [(AT_LEAST, 0), (AT_MOST, 4000)][i / length % 2];
        steps[i % length].extend(guard(clock, relation, constant));
    }
    for step in &mut steps {
        step.extend((used + 1..=6).flat_map(reset));
    }
    table(6, &steps)
}

/// A table that was slow for passes that only go forth. The second steps are exactly 11 apart, and the first steps less, so that
/// the first steps come late at first and each a part sooner than the one before: a way back from the last round to the first.
pub fn drifting() -> Vec<u8> {
    let first = [guard(3, UNDER, 11), guard(2, AT_LEAST, 1), reset(3)].concat();
    let second = [guard(1, EXACTLY, 11), reset(1), reset(2)].concat();
    filled(vec![first, second], 3)
}

/// Half rounds of three steps. The third is late after the second of the half before, the first is late for the third, and the
/// second is late after the first: ways forth and back in turn, from each half to the next. With an end, the third are all
/// within so many ticks.
pub fn zigzag(end: Option<u16>) -> Vec<u8> {
    let half = |here: u8, before: u8| {
        let third = [guard(1, AT_MOST, 1), guard(before, AT_LEAST, 3)].concat();
        let within = end.map_or(vec![], |most| guard(4, AT_MOST, most));
        [
            reset(1),
            [guard(1, AT_LEAST, 1), reset(here)].concat(),
            [third, within].concat(),
        ]
    };
    let steps = [half(2, 3), half(3, 2)].concat();
    filled(steps, 4)
}

/// Four steps are within 3,999 ticks of each other, round by round, and the fifth comes 4,000 after the fifth of the round before: a
/// chain of steps back from each fifth step, that fits exactly.
pub fn descending() -> Vec<u8> {
    let mut steps: Vec<_> = [3984, 5, 5, 5]
        .map(|most| [guard(1, AT_MOST, most), reset(1)].concat())
        .into();
    steps.push([guard(2, AT_LEAST, 4000), reset(2)].concat());
    filled(steps, 2)
}

/// One that bench/search.rs found for passes forth and back alone, reduced to what matters. The second steps are 3,994 ticks after the
/// third before them and soon after the first, and the fourth steps are soon after the third and late after the first before them: each
/// pass forth and back moves one half round.
pub fn staircase() -> Vec<u8> {
    let steps = vec![
        reset(1),
        [guard(2, EXACTLY, 3994), guard(1, AT_MOST, 6), reset(2)].concat(),
        reset(2),
        [guard(2, AT_MOST, 3), guard(1, AT_LEAST, 102), reset(1)].concat(),
    ];
    filled(steps, 2)
}

/// One that bench/search.rs found for passes and ways home, reduced to what matters. The fifth steps are over 3,990 ticks apart, so that
/// the second of a round is late for the third of the round before, that for its fourth, and that for its first: a way back from the last
/// round to the first, with steps forth on it. A way home goes it anew from each round, and a way out goes it once.
pub fn receding() -> Vec<u8> {
    let steps = vec![
        reset(3),
        guard(2, UNDER, 3979),
        reset(2),
        guard(3, AT_MOST, 3),
        [guard(1, OVER, 3990), reset(1)].concat(),
    ];
    filled(steps, 3)
}

/// The slowest plan that bench/search.rs found for passes and ways home and out, reduced to what matters. The last steps are over 3,982
/// ticks after the first before them, and from each of them guards from above lead back over three clocks in turn, some of them forth
/// again on the way, from the last round to the first: ways home and out both are cut or gain little.
pub fn braided() -> Vec<u8> {
    let steps = vec![
        [guard(3, OVER, 139), reset(4)].concat(),
        [guard(1, UNDER, 3995), reset(2)].concat(),
        [guard(1, AT_MOST, 3993), reset(3)].concat(),
        reset(1),
        [guard(2, UNDER, 22), reset(3)].concat(),
        [guard(3, UNDER, 11), reset(3)].concat(),
        [guard(3, UNDER, 19), reset(3)].concat(),
        [reset(1), reset(2)].concat(),
        guard(3, AT_MOST, 19),
        reset(1),
        guard(2, EXACTLY, 5),
        reset(3),
        [guard(3, UNDER, 9), guard(4, OVER, 3982)].concat(),
    ];
    filled(steps, 4)
}

/// One whose windows were slow for turns forth and back, reduced to what matters; the plan is quick. Every fifth step is within 3,998
/// ticks, so that the last round bounds the one before it from above, and so on to the first: from the fifth step back to the third and
/// the first, forth to the second, back to the fourth of the round before, and forth to its fifth.
pub fn recoiling() -> Vec<u8> {
    let steps = vec![
        reset(1),
        [guard(1, AT_MOST, 0), guard(2, AT_LEAST, 11)].concat(),
        [guard(1, OVER, 0), reset(3)].concat(),
        [reset(1), reset(2)].concat(),
        [
            guard(1, AT_MOST, 1),
            guard(4, AT_MOST, 3998),
            guard(3, AT_LEAST, 2),
        ]
        .concat(),
    ];
    filled(steps, 4)
}

/// Tables and numbers of rounds, for plans and panel.
pub fn rounds() -> Vec<(&'static str, Vec<u8>, u64)> {
    let samples = |bytes: &[u8]| bytes.to_vec();
    vec![
        ("S10 for 2", samples(S10), 2),
        ("5 steps for 10", line(), 10),
        ("5 steps for 204", line(), 204),
        ("S1 for 1,024", samples(S1), 1024),
        ("S8 for 1,024", samples(S8), 1024),
        ("S9 for 1,024", samples(S9), 1024),
        ("S10 for 512", samples(S10), 512),
        ("S11 for 1,024", samples(S11), 1024),
        ("6 clocks, 16 steps, 64 guards, for 64", largest(), 64),
        (
            "6 clocks, 16 steps, 64 guards, with an end, for 64",
            largest_with_an_end(),
            64,
        ),
        (
            "1 step, 64 exact guards, for 1,024",
            crowded(EXACTLY, 3),
            1024,
        ),
        ("1 step, 64 guards, for 1,024", crowded(AT_LEAST, 3), 1024),
        (
            "1 step, 64 guards from above, for 1,024",
            crowded(AT_MOST, 3),
            1024,
        ),
        ("2 steps, 64 guards, for 512: drifting", drifting(), 512),
        ("6 steps, 64 guards, for 170: zigzag", zigzag(None), 170),
        (
            "6 steps, 64 guards, for 170: zigzag",
            zigzag(Some(1000)),
            170,
        ),
        ("5 steps, 64 guards, for 204: descending", descending(), 204),
        ("4 steps, 64 guards, for 256: staircase", staircase(), 256),
        ("5 steps, 64 guards, for 204: receding", receding(), 204),
        ("5 steps, 64 guards, for 204: recoiling", recoiling(), 204),
        ("13 steps, 64 guards, for 78: braided", braided(), 78),
    ]
}
