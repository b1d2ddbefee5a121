//! The words of a WCSP text by what they are for, as a person is told of them.

use std::fmt;

/// What a word is due as. Functions and variables are counted from 0, as the format does.
#[derive(Clone, Copy, Debug, PartialEq, Eq)]
pub enum Due {
    Name,
    Variables,
    Largest,
    Functions,
    Bound,
    Size { variable: usize },
    Arity { function: u64 },
    Scope { function: u64 },
    Default { function: u64 },
    Tuples { function: u64 },
    Value { function: u64, variable: usize },
    Cost { function: u64 },
}

impl Due {
    /// What a negative number stands for here, and what to write instead, where it is content that is refused;
    /// none where it is not the format.
    pub fn negative(self) -> Option<&'static str> {
        match self {
            Due::Arity { .. } => {
                Some("a shared function is not read; write it out where it is used")
            }
            Due::Tuples { .. } => Some("a shared function is not read; write its tuples out here"),
            Due::Default { .. } => {
                Some("a function by its keyword is not read, nor is a gain; write its tuples out")
            }
            Due::Size { .. } => {
                Some("a domain by its bounds is not read; give its number of values")
            }
            Due::Cost { .. } => {
                Some("a gain is not read; add the same to all costs of the function")
            }
            Due::Bound => Some("no cost is below it; give one above the costs that are allowed"),
            _ => None,
        }
    }

    /// What to do about a number outside of its limits, where these do not tell.
    pub fn outside(self) -> &'static str {
        match self {
            Due::Bound => "; costs stay below it, so give one above those that are allowed",
            _ => "",
        }
    }
}

impl fmt::Display for Due {
    fn fmt(&self, f: &mut fmt::Formatter) -> fmt::Result {
        match self {
            Due::Name => write!(f, "a name"),
            Due::Variables => write!(f, "the number of variables"),
            Due::Largest => write!(f, "the largest domain size"),
            Due::Functions => write!(f, "the number of functions"),
            Due::Bound => write!(f, "the upper bound"),
            Due::Size { variable } => write!(f, "the domain size of variable {variable}"),
            Due::Arity { function } => write!(f, "the arity of function {function}"),
            Due::Scope { function } => write!(f, "a variable of function {function}"),
            Due::Default { function } => write!(f, "the default cost of function {function}"),
            Due::Tuples { function } => write!(f, "the number of tuples of function {function}"),
            Due::Value { function, variable } => {
                write!(f, "a value of variable {variable} in function {function}")
            }
            Due::Cost { function } => write!(f, "the cost of a tuple of function {function}"),
        }
    }
}
