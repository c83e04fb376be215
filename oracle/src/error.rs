//! Stands in for the repository's `error`: the two variants that the copied files make.
#[derive(Clone, Debug)]
pub enum SemiflowError {
    DomainViolation { what: &'static str, value: f64 },
    UnsupportedOperation { what: &'static str },
}
