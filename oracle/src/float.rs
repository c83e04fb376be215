//! Stands in for the repository's `float`: what the copied files call, at f64.
use core::fmt::Debug;
use core::ops::{AddAssign, DivAssign, MulAssign, SubAssign};

pub trait SemiflowFloat:
    num_traits::Float + AddAssign + SubAssign + MulAssign + DivAssign + Debug + Send + Sync + 'static
{
    fn libm_cos(self) -> Self;
    fn libm_sin(self) -> Self;
    fn libm_exp(self) -> Self;
}

impl SemiflowFloat for f64 {
    fn libm_cos(self) -> f64 {
        self.cos()
    }
    fn libm_sin(self) -> f64 {
        self.sin()
    }
    fn libm_exp(self) -> f64 {
        self.exp()
    }
}

pub fn from_f64<F: SemiflowFloat>(x: f64) -> F {
    F::from(x).unwrap()
}
