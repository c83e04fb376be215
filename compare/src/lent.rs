//! What is lent to a call: a slice between guards, and how all of it was before the call.
use oracle::random::Random;

/// A float, or a byte of a file.
pub trait Word: Copy {
    const GUARD: Self;
    const ZERO: Self;
    fn bits(self) -> u64;
    /// the same value; of zeros the sign doesn't count
    fn same(self, other: Self) -> bool;
}

impl Word for f64 {
    const GUARD: f64 = f64::from_bits(0x7ff4_dead_beef_0001);
    const ZERO: f64 = 0.0;
    fn bits(self) -> u64 {
        self.to_bits()
    }
    fn same(self, other: f64) -> bool {
        self.to_bits() == other.to_bits() || (self == 0.0 && other == 0.0)
    }
}

impl Word for u8 {
    const GUARD: u8 = 0xa5;
    const ZERO: u8 = 0;
    fn bits(self) -> u64 {
        u64::from(self)
    }
    fn same(self, other: u8) -> bool {
        self == other
    }
}

const GUARDS: usize = 8;

pub struct Lent<T> {
    name: &'static str,
    all: Vec<T>,
    before: Vec<u64>,
}

impl<T: Word> Lent<T> {
    pub fn of(name: &'static str, part: &[T]) -> Lent<T> {
        let guards = [T::GUARD; GUARDS];
        let all = [&guards, part, &guards].concat();
        let before = all.iter().map(|x| x.bits()).collect();
        Lent { name, all, before }
    }

    pub fn part(&mut self) -> &mut [T] {
        let end = self.all.len() - GUARDS;
        &mut self.all[GUARDS..end]
    }

    /// Nothing was written, nor the guards.
    pub fn unwritten(&self) -> Result<(), String> {
        let turned = |(x, y): (&T, &u64)| x.bits() != *y;
        match self.all.iter().zip(&self.before).position(turned) {
            None => Ok(()),
            Some(at) => Err(self.told(at, "was written", self.before[at])),
        }
    }

    /// At the front stands `front`, as `same` finds it, then +0; the guards are as they were.
    fn ends(&self, front: &[T], same: impl Fn(T, T) -> bool) -> Result<(), String> {
        let end = self.all.len() - GUARDS;
        if front.len() > end - GUARDS {
            return Err(format!("{} has no room for {}", self.name, front.len()));
        }
        for (at, x) in self.all.iter().enumerate() {
            let guard = at < GUARDS || end <= at;
            let (ok, want) = match front.get(at.wrapping_sub(GUARDS)) {
                _ if guard => (x.bits() == self.before[at], self.before[at]),
                Some(y) => (same(*x, *y), y.bits()),
                None => (x.bits() == T::ZERO.bits(), T::ZERO.bits()),
            };
            if !ok {
                return Err(self.told(at, "differs", want));
            }
        }
        Ok(())
    }

    /// The numbers of `front`, a zero's sign aside, then +0.
    pub fn holds(&self, front: &[T]) -> Result<(), String> {
        self.ends(front, T::same)
    }

    /// The bits of `front`, then +0.
    pub fn holds_bits(&self, front: &[T]) -> Result<(), String> {
        self.ends(front, |x, y| x.bits() == y.bits())
    }

    fn told(&self, at: usize, what: &str, want: u64) -> String {
        let place = at as i64 - GUARDS as i64;
        format!(
            "{} {what} at {place}: {:016x}, not {want:016x}",
            self.name,
            self.all[at].bits()
        )
    }
}

/// Room whose content means nothing: any bits.
pub fn room(r: &mut Random, name: &'static str, length: usize) -> Lent<f64> {
    let any: Vec<f64> = (0..length).map(|_| f64::from_bits(r.next())).collect();
    Lent::of(name, &any)
}

pub fn bytes(r: &mut Random, name: &'static str, length: usize) -> Lent<u8> {
    let any: Vec<u8> = (0..length).map(|_| r.next() as u8).collect();
    Lent::of(name, &any)
}
