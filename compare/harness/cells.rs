// The cells of a scorer's list, as its text has them.
use crate::random::Random;
use std::fmt;

pub trait Kind: Clone + Default + fmt::Display + Send {
    const NAME: &'static str;

    fn drawn(random: &mut Random) -> Self;

    fn line(random: &mut Random, len: usize) -> Vec<Self> {
        (0..len).map(|_| Self::drawn(random)).collect()
    }
}

#[derive(Clone, Default)]
pub enum Passage {
    #[default]
    Blank,
    Time(u32),
    Mark(&'static str),
}

#[derive(Clone, Default)]
pub struct Penalty(i32);

impl Kind for Passage {
    const NAME: &'static str = "passages";

    fn drawn(random: &mut Random) -> Passage {
        match random.below(10) {
            0 => Passage::Blank,
            1 => Passage::Mark(random.pick(&["DNS", "DNF", "DSQ", "OFF"])),
            2 => Passage::Time(u32::MAX - random.below(2) as u32),
            _ => Passage::Time(random.below(10_000) as u32),
        }
    }
}

impl Kind for Penalty {
    const NAME: &'static str = "penalties";

    fn drawn(random: &mut Random) -> Penalty {
        match random.below(10) {
            0 => Penalty(random.pick(&[i32::MIN, i32::MAX, 0, -1])),
            _ => Penalty(random.below(10_000) as i32 - 5000),
        }
    }
}

impl fmt::Display for Passage {
    fn fmt(&self, f: &mut fmt::Formatter) -> fmt::Result {
        match self {
            Passage::Blank => write!(f, "-"),
            Passage::Time(t) => write!(f, "{t}"),
            Passage::Mark(mark) => write!(f, "{mark}"),
        }
    }
}

impl fmt::Display for Penalty {
    fn fmt(&self, f: &mut fmt::Formatter) -> fmt::Result {
        write!(f, "{}", self.0)
    }
}

// Cells as words, each with a space before it.
pub fn words<T: fmt::Display>(cells: &[T]) -> String {
    cells.iter().map(|x| format!(" {x}")).collect()
}
