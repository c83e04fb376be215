//! One case as a line of words: names, counts in decimal, and floats as the 16 hex digits of their bits.
use crate::draw::Axis;
use crate::mode::Cutting;
use crate::tt_core::TtCore;
use std::fmt::{Display, Write};

pub struct Line(String);

impl Line {
    pub fn of_case(kind: &str, index: usize) -> Line {
        Line(format!("{kind} {index}"))
    }

    /// A case that is given by hand, as far as it is given.
    pub fn of_text(text: &str) -> Line {
        Line(text.to_string())
    }

    /// the case's number
    pub fn index(&self) -> usize {
        self.0
            .split(' ')
            .nth(1)
            .and_then(|w| w.parse().ok())
            .expect("a number")
    }

    pub fn word(&mut self, w: impl Display) -> &mut Line {
        write!(self.0, " {w}").unwrap();
        self
    }

    /// Every NaN is written as one, since IEEE 754 doesn't say which it is.
    fn bits(&mut self, x: f64) -> &mut Line {
        let x = if x.is_nan() {
            f64::from_bits(0x7ff8_0000_0000_0000)
        } else {
            x
        };
        self.word(format_args!("{:016x}", x.to_bits()))
    }

    pub fn float(&mut self, name: &str, x: f64) -> &mut Line {
        self.word(name).bits(x)
    }

    /// a name, how many, and each
    pub fn floats(&mut self, name: &str, xs: &[f64]) -> &mut Line {
        self.word(name).word(xs.len());
        for &x in xs {
            self.bits(x);
        }
        self
    }

    pub fn words<T: Display>(&mut self, name: &str, xs: &[T]) -> &mut Line {
        self.word(name).word(xs.len());
        for x in xs {
            self.word(x);
        }
        self
    }

    /// five words an axis: a, b, xmin, xmax, boundary
    pub fn axes(&mut self, axes: &[Axis]) -> &mut Line {
        self.word("axes").word(5 * axes.len());
        for x in axes {
            for number in [x.a, x.b, x.domain.0, x.domain.1] {
                self.bits(number);
            }
            self.word(x.boundary);
        }
        self
    }

    /// eps, and the mode as a count
    pub fn cutting(&mut self, cutting: Cutting) -> &mut Line {
        self.float("eps", cutting.eps)
            .word("mode")
            .word(cutting.mode)
    }

    /// how many cores, and the three sizes of each
    pub fn shape(&mut self, cores: &[TtCore<f64>]) -> &mut Line {
        self.word("shape").word(cores.len());
        for c in cores {
            self.word(c.r_left).word(c.n).word(c.r_right);
        }
        self
    }

    /// the cores' numbers without gaps
    pub fn chain(&mut self, cores: &[TtCore<f64>]) -> &mut Line {
        self.floats(
            "chain",
            &cores
                .iter()
                .flat_map(|c| c.data.clone())
                .collect::<Vec<f64>>(),
        )
    }

    /// what follows is the answer
    pub fn answer(&mut self) -> &mut Line {
        self.word("=")
    }

    pub fn text(&self) -> &str {
        &self.0
    }
}
