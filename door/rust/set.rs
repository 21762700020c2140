//! A set of assumptions: assumption k is worth 2^(k-1).
use crate::Refusal;
use std::fmt;

/// ```
/// use reasons::{Refusal, Set};
/// let set = Set::of(&[3, 1])?;
/// assert_eq!(set, Set(5));
/// assert_eq!(set.to_string(), "{1,3}");
/// assert_eq!(set.members().collect::<Vec<_>>(), [1, 3]);
/// assert_eq!(Set::default().to_string(), "{}");
/// assert_eq!(Set::of(&[33]), Err(Refusal::Number));
/// # Ok::<(), Refusal>(())
/// ```
#[derive(Clone, Copy, Debug, Default, PartialEq, Eq, Hash)]
pub struct Set(pub u32);

impl Set {
    /// The set of these assumptions, each from 1 to 32, in any order. Refused: 4, for any other number.
    pub fn of(assumptions: &[u32]) -> Result<Set, Refusal> {
        let mut all = 0;
        for &k in assumptions {
            if !(1..=32).contains(&k) {
                return Err(Refusal::Number);
            }
            all |= 1 << (k - 1);
        }
        Ok(Set(all))
    }

    /// The assumptions, rising.
    pub fn members(self) -> impl Iterator<Item = u32> {
        (1..=32).filter(move |k| self.0 >> (k - 1) & 1 == 1)
    }
}

impl fmt::Display for Set {
    fn fmt(&self, f: &mut fmt::Formatter<'_>) -> fmt::Result {
        f.write_str("{")?;
        for (place, k) in self.members().enumerate() {
            write!(f, "{}{k}", if place == 0 { "" } else { "," })?;
        }
        f.write_str("}")
    }
}
