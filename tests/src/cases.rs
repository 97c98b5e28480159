//! Cases with numbers, so that a failure can be looked at by itself, and the count of the replies
//! that were met.

use crate::lent::Lent;
use crate::random::Random;
use std::collections::BTreeMap;
use std::fmt::{Debug, Write};

/// What went into a call, by name; printed in hex where the case fails.
pub type Inputs<'a> = &'a [(&'a str, &'a [u8])];

pub struct Case {
    pub random: Random,
    seed: u64,
    number: u64,
}

/// Runs so many cases. Each has a generator of its own, made from the seed and the case's number.
pub fn each_case(seed: u64, cases: u64, mut run: impl FnMut(&mut Case)) {
    for number in 0..cases {
        run(&mut Case::new(seed, number));
    }
}

impl Case {
    pub fn new(seed: u64, number: u64) -> Case {
        let start = Random::new(seed ^ number.rotate_left(32)).number();
        Case {
            random: Random::new(start),
            seed,
            number,
        }
    }

    /// What came of the library must be what is expected of it: the model's answer, mostly.
    pub fn same<T: PartialEq + Debug>(&self, what: &str, given: T, expected: T, inputs: Inputs) {
        if given != expected {
            let message = format!("{what}: {given:?} is given, {expected:?} is expected");
            self.fail(&message, inputs);
        }
    }

    /// A lent run must hold these bytes, and the bytes around it must be as before.
    pub fn holds(&self, what: &str, lent: &Lent, expected: &[u8], inputs: Inputs) {
        if lent.content() != expected {
            self.fail(&difference(what, lent.content(), expected), inputs);
        }
        if !lent.guards_stay() {
            self.fail(
                &format!("{what}: a byte beside the lent run was written"),
                inputs,
            );
        }
    }

    /// A lent run that is only read must be as before.
    pub fn stays(&self, what: &str, lent: &Lent, inputs: Inputs) {
        if !lent.stays() {
            self.fail(&format!("{what}: lent for reading, and written"), inputs);
        }
    }

    fn fail(&self, message: &str, inputs: Inputs) -> ! {
        let mut text = format!("seed {:#x}, case {}: {message}", self.seed, self.number);
        for (name, bytes) in inputs {
            write!(text, "\n  {name}, {} bytes: {}", bytes.len(), hex(bytes)).unwrap();
        }
        panic!("{text}");
    }
}

fn difference(what: &str, given: &[u8], expected: &[u8]) -> String {
    let place = given
        .iter()
        .zip(expected)
        .position(|(one, other)| one != other);
    format!(
        "{what}: the bytes differ, first at {place:?}\n  given:    {}\n  expected: {}",
        hex(given),
        hex(expected)
    )
}

fn hex(bytes: &[u8]) -> String {
    let digits: Vec<String> = bytes.iter().map(|byte| format!("{byte:02x}")).collect();
    digits.join(" ")
}

/// How often each reply was met.
pub struct Tally {
    of: &'static str,
    met: BTreeMap<u32, u64>,
}

impl Tally {
    pub fn new(of: &'static str) -> Tally {
        Tally {
            of,
            met: BTreeMap::new(),
        }
    }

    pub fn meet(&mut self, reply: u32) {
        *self.met.entry(reply).or_insert(0) += 1;
    }

    /// Prints the counts. Every expected reply must have been met so many times, and no other at all.
    pub fn finish(self, expected: &[u32], at_least: u64) {
        let cases: u64 = self.met.values().sum();
        println!("{}: {cases} cases, replies {:?}", self.of, self.met);
        let replies: Vec<u32> = self.met.keys().copied().collect();
        assert_eq!(replies, expected, "{}: the replies that were met", self.of);
        for (reply, count) in &self.met {
            assert!(
                *count >= at_least,
                "{}: reply {reply} was met {count} times only",
                self.of
            );
        }
    }
}
