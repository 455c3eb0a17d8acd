//! What is measured: a job, done by the proved library and by plain Rust on the same input.

use std::rc::Rc;

/// One job: what it is called, in what it is counted, how many of these one pass has, and a pass by each program. A pass
/// answers a number made of all answers, which has to be the same from both.
pub struct Job {
    pub name: String,
    pub unit: &'static str,
    pub units: usize,
    pub proved: Box<dyn Fn() -> usize>,
    pub plain: Box<dyn Fn() -> usize>,
}

pub fn job<T: 'static>(
    name: String,
    unit: &'static str,
    units: usize,
    input: T,
    pass: fn(bool, &T) -> usize,
) -> Job {
    let input = Rc::new(input);
    let again = input.clone();
    Job {
        name,
        unit,
        units,
        proved: Box::new(move || pass(true, &input)),
        plain: Box::new(move || pass(false, &again)),
    }
}
