//! The time of this thread on a processor, so that other work on the machine does not count.

#[repr(C)]
struct Timespec {
    seconds: i64,
    nanoseconds: i64,
}

extern "C" {
    fn clock_gettime(clock: i32, time: *mut Timespec) -> i32;
}

/// Nanoseconds that this thread has run.
pub fn now() -> f64 {
    const THREAD: i32 = 3;
    let mut time = Timespec {
        seconds: 0,
        nanoseconds: 0,
    };
    assert_eq!(unsafe { clock_gettime(THREAD, &mut time) }, 0);
    time.seconds as f64 * 1e9 + time.nanoseconds as f64
}

/// Median times of a call in nanoseconds, of each side, over so many turns; fewer where a call is slow.
pub fn time<const N: usize>(most: usize, mut sides: [&mut dyn FnMut(); N]) -> [f64; N] {
    let batch = |call: &mut dyn FnMut(), number: u32| {
        let begin = now();
        for _ in 0..number {
            call();
        }
        (now() - begin) / f64::from(number)
    };
    // As many calls as take about half a millisecond, after some to warm up.
    let number = |call: &mut dyn FnMut()| {
        batch(call, 3);
        let once = batch(call, 3).max(1.0);
        let number = (500_000.0 / once).clamp(1.0, 20_000.0) as u32;
        batch(call, number);
        number
    };
    let numbers = sides.each_mut().map(|side| number(side));
    let slow = sides.iter_mut().any(|side| batch(side, 1) > 5_000_000.0);
    let turns = if slow { 21.min(most) } else { most };
    let mut times = [const { Vec::new() }; N];
    for _ in 0..turns {
        for (i, side) in sides.iter_mut().enumerate() {
            times[i].push(batch(side, numbers[i]));
        }
    }
    times.map(|mut times| {
        times.sort_by(f64::total_cmp);
        times[times.len() / 2]
    })
}
