// The first difference, in the words that a person needs to make the call again.
use std::fmt;

pub struct Difference {
    pub shape: String,
    pub call: String,
    pub index: String,
    pub expected: String,
    pub got: String,
}

impl fmt::Display for Difference {
    fn fmt(&self, f: &mut fmt::Formatter) -> fmt::Result {
        writeln!(f, "differs:")?;
        writeln!(f, "  shape     {}", self.shape)?;
        writeln!(f, "  call      {}", self.call)?;
        writeln!(f, "  index     {}", self.index)?;
        writeln!(f, "  expected  {}", self.expected)?;
        write!(f, "  got       {}", self.got)
    }
}
