// How many calls were compared, and how they were answered.
use crate::rules::{self, ACCEPTED};
use std::fmt;

#[derive(Default)]
pub struct Tally {
    // by the number of the answer
    answered: [usize; 12],
}

impl Tally {
    pub fn count(&mut self, number: u32) {
        self.answered[number as usize] += 1;
    }

    pub fn add(&mut self, other: &Tally) {
        for (mine, theirs) in self.answered.iter_mut().zip(other.answered) {
            *mine += theirs;
        }
    }

    // Prints a part and adds it.
    pub fn print(&mut self, what: &str, part: Tally) {
        println!("{what}: {part}");
        self.add(&part);
    }
}

impl fmt::Display for Tally {
    fn fmt(&self, f: &mut fmt::Formatter) -> fmt::Result {
        write!(f, "{} compared", self.answered.iter().sum::<usize>())?;
        for (number, times) in self.answered.iter().enumerate().filter(|(_, times)| **times > 0) {
            match number as u32 {
                ACCEPTED => write!(f, ", {times} accepted")?,
                number => write!(f, ", {times} {}", rules::name(number))?,
            }
        }
        Ok(())
    }
}
