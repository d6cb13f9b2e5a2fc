// What the test program and the benchmark share: the plain reference, the
// fast implementation, the C interface and a small random generator.

pub mod fast;
pub mod generate;
#[path = "../wrapper/src/library.rs"]
pub mod library;
pub mod reference;
pub mod rng;
pub mod subject;
