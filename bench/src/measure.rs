//! Time of a call and the stack it uses.

use std::time::{Duration, Instant};

const MOST_ROUNDS: usize = 200;
const FEWEST_ROUNDS: usize = 5;
// Short rounds: some of them then pass undisturbed on a busy machine.
const ROUND: Duration = Duration::from_micros(500);
const TOGETHER: Duration = Duration::from_millis(300);

/// Something to measure: one pass over it, and how many calls a pass makes.
pub struct Pass<'a> {
    pub calls: usize,
    pub run: &'a mut dyn FnMut(),
}

/// How often to run a pass so that one round lasts long enough to be measured.
fn repeats(pass: &mut Pass) -> u32 {
    (pass.run)();
    let begun = Instant::now();
    (pass.run)();
    let once = begun.elapsed().max(Duration::from_nanos(20));
    (ROUND.as_nanos() / once.as_nanos()).clamp(1, 100_000) as u32
}

fn round(pass: &mut Pass, times: u32) -> f64 {
    let begun = Instant::now();
    for _ in 0..times {
        (pass.run)();
    }
    begun.elapsed().as_nanos() as f64 / f64::from(times) / pass.calls as f64
}

/// Nanoseconds per call of each pass, in each round.
pub struct Times<const N: usize> {
    rounds: Vec<[f64; N]>,
}

impl<const N: usize> Times<N> {
    pub fn best(&self, pass: usize) -> f64 {
        self.rounds.iter().map(|round| round[pass]).fold(f64::INFINITY, f64::min)
    }

    /// The median of the rounds' ratios: what else runs disturbs both sides of a round alike.
    pub fn ratio(&self, pass: usize, to: usize) -> f64 {
        let mut ratios: Vec<f64> = self.rounds.iter().map(|round| round[pass] / round[to]).collect();
        ratios.sort_by(f64::total_cmp);
        ratios[ratios.len() / 2]
    }
}

/// Measures the passes in turn, round after round.
pub fn measure<const N: usize>(mut passes: [Pass; N]) -> Times<N> {
    let times: Vec<u32> = passes.iter_mut().map(repeats).collect();
    let mut rounds = Vec::new();
    let begun = Instant::now();
    while rounds.len() < FEWEST_ROUNDS || (rounds.len() < MOST_ROUNDS && begun.elapsed() < TOGETHER) {
        let mut times = times.iter();
        rounds.push(passes.each_mut().map(|pass| round(pass, *times.next().unwrap())));
    }
    Times { rounds }
}

const PAINTED: usize = 512 * 1024;
const PAINT: u8 = 0xA5;
// The compiler may use these bytes below the stack pointer without moving it.
const RED_ZONE: usize = 128;

/// Paints the stack below this frame, makes the call and looks how deep the paint is gone.
#[cfg(target_arch = "x86_64")]
#[inline(never)]
fn depth(call: &mut dyn FnMut()) -> usize {
    let top: usize;
    // Safe: only reads the stack pointer.
    unsafe { std::arch::asm!("mov {}, rsp", out(reg) top) };
    let bottom = (top - PAINTED) as *mut u8;
    // Safe: the thread's stack reaches far below what is painted, and nothing lives there.
    unsafe {
        for i in 0..PAINTED - RED_ZONE {
            bottom.add(i).write_volatile(PAINT);
        }
        call();
        let mut untouched = 0;
        while untouched < PAINTED - RED_ZONE && bottom.add(untouched).read_volatile() == PAINT {
            untouched += 1;
        }
        PAINTED - untouched
    }
}

/// The deepest stack of these calls, in bytes, each in a thread of its own.
pub fn stack(call: &mut (dyn FnMut() + Send)) -> usize {
    std::thread::scope(|scope| {
        let thread = std::thread::Builder::new().stack_size(8 * PAINTED);
        thread.spawn_scoped(scope, move || depth(&mut *call)).unwrap().join().unwrap()
    })
}
