//! One call at a time, counted and timed.
use std::hint::black_box;
use std::time::{Duration, Instant};

/// What is measured happens in here and nowhere else: callgrind is told to count inside this function alone.
#[no_mangle]
#[inline(never)]
pub extern "C" fn measured(call: &mut Call) {
    (call.0)();
}

pub struct Call<'a>(&'a mut dyn FnMut());

/// The shortest time of a call, and how many calls there are to be.
pub struct Clock {
    pub calls: usize,
    pub shortest: Duration,
}

impl Clock {
    /// `ready` makes the inputs anew before each call.
    pub fn run<T>(&mut self, mut ready: impl FnMut() -> T, mut call: impl FnMut(&mut T)) {
        for _ in 0..self.calls {
            let mut given = ready();
            let start = Instant::now();
            measured(&mut Call(&mut || call(black_box(&mut given))));
            self.shortest = self.shortest.min(start.elapsed());
        }
    }
}
