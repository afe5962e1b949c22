//! The comparison of two implementations call by call.

pub mod coverage;
pub mod differ;
pub mod generate;
pub mod machine;
#[cfg(have_proved)]
#[allow(unsafe_code)]
pub mod proved;
pub mod random;
pub mod world;
