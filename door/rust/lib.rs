//! A safe wrapper of the proved library `libdoor.a`: for every date claim the smallest groups of assumptions that carry it.
//!
//! The `unsafe` here is the calls themselves; a caller owes nothing. What is trusted stands in docs/PROMISES.md.
//!
//! ```
//! use reasons::{Answer, Set, Store};
//!
//! # fn main() -> Result<(), reasons::Refusal> {
//! // assumptions 1 to 3: the terminal writes UTC, it writes local time, the slip is right; claims 4 to 7
//! let mut store = Store::open(3, 4)?;
//! store.add(4, &[1])?;
//! store.add(6, &[3, 4])?;
//! store.add(0, &[2, 3])?;
//! let utc_and_slip = Set::of(&[1, 3])?;
//! assert_eq!(store.question(6, utc_and_slip)?, Answer::Supported(utc_and_slip));
//! assert_eq!(store.line(6)?, "6 supported {1,3}\n");
//! # Ok(())
//! # }
//! ```
use std::fmt;

mod calls;
mod refusal;
mod set;

pub use refusal::{Fault, Refusal};
pub use set::Set;

/// No context has more bytes: one for each of 0 to A+M.
pub const CONTEXT: usize = 129;
/// No line of a listing is longer, its newline included.
pub const LONGEST_LINE: usize = 2857;
/// No listing is longer.
pub const LONGEST_LISTING: usize = 141_756;
/// No lines of stages are longer.
pub const LONGEST_STAGES: usize = 53_300;
/// No case file that is written is longer.
pub const LONGEST_CASE: usize = 1796;
/// More bytes of a case file are refused with 14 by the programs, before anything else.
pub const LONGEST_FILE: usize = 4096;
/// The bytes of a store.
pub const STORE: usize = calls::WORDS * 8;

/// What adding did.
#[derive(Clone, Copy, Debug, PartialEq, Eq)]
pub enum Added {
    Done,
    Already,
}

impl Added {
    /// Of a reply byte of a list; a byte 8 does not say which label.
    fn of(byte: u8) -> Result<Added, Refusal> {
        match byte {
            0 => Ok(Added::Done),
            1 => Ok(Added::Already),
            n => Err(Refusal::of(u32::from(n), 0)),
        }
    }
}

/// What a set is to a number, and why: the first nogood, or the first member of the label, that lies within the set.
/// A reason without assumptions says that it holds from nothing.
#[derive(Clone, Copy, Debug, PartialEq, Eq)]
pub enum Answer {
    Inconsistent(Set),
    Supported(Set),
    Unsupported,
}

/// What a set is to a number, without labels.
#[derive(Clone, Copy, Debug, PartialEq, Eq)]
pub enum Plain {
    Inconsistent,
    Supported,
    Unsupported,
}

impl Plain {
    fn of(reply: u32, value: usize) -> Result<Plain, Refusal> {
        match (reply, value) {
            (0, 0) => Ok(Plain::Unsupported),
            (0, 1) => Ok(Plain::Supported),
            (0, _) => Ok(Plain::Inconsistent),
            (n, _) => Err(Refusal::of(n, 0)),
        }
    }
}

impl fmt::Display for Answer {
    fn fmt(&self, f: &mut fmt::Formatter<'_>) -> fmt::Result {
        match self {
            Answer::Inconsistent(nogood) => write!(f, "inconsistent {nogood}"),
            Answer::Supported(member) => write!(f, "supported {member}"),
            Answer::Unsupported => f.write_str("unsupported"),
        }
    }
}

/// A store, by value: numbers alone, and no pointer inside. Two stores are equal where all their bytes are; the padding is clear.
#[derive(Clone, PartialEq, Eq)]
pub struct Store([u64; calls::WORDS]);

impl Store {
    /// A store that holds nothing. Refused: 3.
    ///
    /// ```
    /// use reasons::{Refusal, Store};
    /// assert!(Store::open(32, 96).is_ok());
    /// assert_eq!(Store::open(33, 0).err(), Some(Refusal::Counts));
    /// ```
    pub fn open(assumptions: u32, claims: u32) -> Result<Store, Refusal> {
        let kept = unsafe { calls::door_open(assumptions, claims) };
        match kept.reply {
            0 => Ok(Store(kept.store.cleaned())),
            n => Err(Refusal::of(n, kept.named)),
        }
    }

    /// The store of a case file, judged once. Refused, the first fault: 11, 12; 3, 7; 6; 4, 5, 17; 13; then 9 and 8 by stage.
    /// More than 4,096 bytes are not refused for their number here: 14 is for programs to give, before they load.
    ///
    /// ```
    /// use reasons::{Fault, Refusal, Store};
    /// let store = Store::load(&[3, 2, 1, 4, 1, 1]).unwrap();
    /// assert_eq!(store.line(4).unwrap(), "4 supported {1}\n");
    /// let fault = Store::load(&[3, 2, 1, 9, 0]).err().unwrap();
    /// assert_eq!(fault, Fault { refusal: Refusal::Number, record: 1 });
    /// assert_eq!(fault.to_string(), "refused 4 1");
    /// ```
    pub fn load(bytes: &[u8]) -> Result<Store, Fault> {
        let kept = unsafe { calls::door_load(bytes.as_ptr(), bytes.len()) };
        match kept.reply {
            0 => Ok(Store(kept.store.cleaned())),
            n => Err(Fault {
                refusal: Refusal::of(n, kept.named),
                record: kept.record,
            }),
        }
    }

    /// Adds a justification. Refused: 2, 6, 4, 5, 17, 7, then 9 and 8 by stage; the store is then as it was.
    ///
    /// ```
    /// use reasons::{Added, Refusal, Store};
    /// let mut store = Store::open(2, 1).unwrap();
    /// assert_eq!(store.add(3, &[1, 2]), Ok(Added::Done));
    /// assert_eq!(store.add(3, &[2, 1, 2]), Ok(Added::Already));
    /// assert_eq!(store.add(3, &[3]), Err(Refusal::Itself));
    /// ```
    pub fn add(&mut self, consequent: u32, supports: &[u32]) -> Result<Added, Refusal> {
        let kept = unsafe { calls::door_add(self.raw(), consequent, supports.as_ptr(), supports.len()) };
        match kept.reply {
            0 => {
                self.0 = kept.store.cleaned();
                Ok(Added::Done)
            }
            1 => Ok(Added::Already),
            n => Err(Refusal::of(n, kept.named)),
        }
    }

    /// Adds the justifications of a list in their order, each refused one passed over, and tells the reply of each. Refused: 2.
    /// `Ok` says that the list was gone through; each item has its own reply. One that is refused with 8 names no number here: `Label(0)`.
    ///
    /// ```
    /// use reasons::{Added, Refusal, Store};
    /// let mut store = Store::open(2, 1).unwrap();
    /// let told = store.add_all(&[(3, &[1]), (3, &[3]), (3, &[1, 1]), (0, &[1, 2])]).unwrap();
    /// assert_eq!(told, [Ok(Added::Done), Err(Refusal::Itself), Ok(Added::Already), Ok(Added::Done)]);
    /// assert_eq!(store.line(0).unwrap(), "0 nogood {1,2}\n");
    /// ```
    pub fn add_all(&mut self, list: &[(u32, &[u32])]) -> Result<Vec<Result<Added, Refusal>>, Refusal> {
        let items = calls::Item::all(list);
        let mut bytes = vec![0; items.len()];
        let kept = unsafe { calls::door_add_all(self.raw(), items.as_ptr(), items.len(), bytes.as_mut_ptr(), bytes.len()) };
        if kept.reply != 0 {
            return Err(Refusal::of(kept.reply, kept.named));
        }
        self.0 = kept.store.cleaned();
        Ok(bytes.into_iter().map(Added::of).collect())
    }

    /// Withdraws a justification. Refused: 2, 6, 4, 5, 17, 18, then 9 and 8 by stage; the store is then as it was.
    ///
    /// ```
    /// use reasons::{Refusal, Store};
    /// let mut store = Store::open(2, 1).unwrap();
    /// let before = store.clone();
    /// store.add(3, &[1, 2]).unwrap();
    /// assert_eq!(store.withdraw(3, &[1]), Err(Refusal::Unheld));
    /// store.withdraw(3, &[2, 1]).unwrap();
    /// assert!(store == before);
    /// ```
    pub fn withdraw(&mut self, consequent: u32, supports: &[u32]) -> Result<(), Refusal> {
        let kept = unsafe { calls::door_withdraw(self.raw(), consequent, supports.as_ptr(), supports.len()) };
        match kept.reply {
            0 => {
                self.0 = kept.store.cleaned();
                Ok(())
            }
            n => Err(Refusal::of(n, kept.named)),
        }
    }

    /// Whether the store has the right shape: one made by these calls has.
    pub fn has_right_shape(&self) -> bool {
        unsafe { calls::door_shape(self.raw()) }
    }

    /// What the set is to n, and why. Refused: 2, 4.
    ///
    /// ```
    /// use reasons::{Answer, Refusal, Set, Store};
    /// let mut store = Store::open(3, 1).unwrap();
    /// store.add(4, &[1, 2]).unwrap();
    /// store.add(0, &[2, 3]).unwrap();
    /// assert_eq!(store.question(4, Set::of(&[1, 2]).unwrap()), Ok(Answer::Supported(Set::of(&[1, 2]).unwrap())));
    /// assert_eq!(store.question(4, Set::of(&[1, 2, 3]).unwrap()), Ok(Answer::Inconsistent(Set::of(&[2, 3]).unwrap())));
    /// assert_eq!(store.question(4, Set::of(&[1]).unwrap()), Ok(Answer::Unsupported));
    /// assert_eq!(store.question(5, Set::of(&[1]).unwrap()), Err(Refusal::Number));
    /// ```
    pub fn question(&self, n: u32, set: Set) -> Result<Answer, Refusal> {
        let told = unsafe { calls::door_question(self.raw(), n, set.0) };
        match (told.reply, told.answer) {
            (0, 0) => Ok(Answer::Unsupported),
            (0, 1) => Ok(Answer::Supported(Set(told.reason))),
            (0, _) => Ok(Answer::Inconsistent(Set(told.reason))),
            (n, _) => Err(Refusal::of(n, 0)),
        }
    }

    /// A byte for each of 0 to A+M into the bytes, later ones kept: 2 inconsistent, 1 supported,
    /// 3 where the line says contradicted, else 0. Refused: 2, 4, 15.
    ///
    /// ```
    /// use reasons::{Refusal, Set, Store};
    /// let store = Store::open(2, 1).unwrap();
    /// let mut bytes = [9; 6];
    /// assert_eq!(store.context(Set::of(&[2]).unwrap(), &mut bytes[..3]), Err(Refusal::Short));
    /// assert_eq!(bytes, [9; 6]);
    /// store.context(Set::of(&[2]).unwrap(), &mut bytes).unwrap();
    /// assert_eq!(bytes, [0, 0, 1, 0, 9, 9]);
    /// ```
    pub fn context(&self, set: Set, out: &mut [u8]) -> Result<(), Refusal> {
        match unsafe { calls::door_context(self.raw(), set.0, out.as_mut_ptr(), out.len()) } {
            0 => Ok(()),
            n => Err(Refusal::of(n, 0)),
        }
    }

    /// The set at a place, from 0, of n's label; of the nogoods for n = 0. Refused: 2, 4, 16.
    pub fn member(&self, n: u32, place: usize) -> Result<Set, Refusal> {
        let told = unsafe { calls::door_member(self.raw(), n, place) };
        match told.reply {
            0 => Ok(Set(told.value as u32)),
            n => Err(Refusal::of(n, 0)),
        }
    }

    /// Every member of n's label, or of the nogoods, in listing order. Refused: 2, 4.
    ///
    /// ```
    /// use reasons::{Set, Store};
    /// let mut store = Store::open(2, 0).unwrap();
    /// store.add(1, &[2]).unwrap();
    /// assert_eq!(store.label(1).unwrap(), [Set::of(&[1]).unwrap(), Set::of(&[2]).unwrap()]);
    /// ```
    pub fn label(&self, n: u32) -> Result<Vec<Set>, Refusal> {
        let mut all = Vec::new();
        loop {
            match self.member(n, all.len()) {
                Ok(set) => all.push(set),
                Err(Refusal::Place) => return Ok(all),
                Err(other) => return Err(other),
            }
        }
    }

    /// The line of n, its newline included. Refused: 2, 4.
    pub fn line(&self, n: u32) -> Result<String, Refusal> {
        calls::text(LONGEST_LINE, |out, room| unsafe { calls::door_line(self.raw(), n, out, room) })
    }

    /// The first line of the listing. Refused: 2.
    pub fn case_line(&self) -> Result<String, Refusal> {
        calls::text(LONGEST_LINE, |out, room| unsafe { calls::door_case_line(self.raw(), out, room) })
    }

    /// The whole listing. Refused: 2.
    ///
    /// ```
    /// assert_eq!(reasons::Store::open(1, 1)?.listing()?, "case 1 1 0 0\n0 nogood\n1 supported {1}\n2 unsupported\n");
    /// # Ok::<(), reasons::Refusal>(())
    /// ```
    pub fn listing(&self) -> Result<String, Refusal> {
        calls::text(LONGEST_LISTING, |out, room| unsafe { calls::door_listing(self.raw(), out, room) })
    }

    /// The case file of what is held: each justification once, in order, each number in its shortest form. Refused: 2.
    ///
    /// ```
    /// use reasons::Store;
    /// let store = Store::load(&[2, 1, 2, 3, 3, 2, 1, 2, 3, 2, 1, 2]).unwrap();
    /// let file = store.case_file().unwrap();
    /// assert_eq!(file, [2, 1, 1, 3, 2, 1, 2]);
    /// assert!(Store::load(&file).unwrap() == store);
    /// ```
    pub fn case_file(&self) -> Result<Vec<u8>, Refusal> {
        calls::bytes(LONGEST_CASE, |out, room| unsafe { calls::door_write(self.raw(), out, room) })
    }

    /// One line a stage from 0: the stage, then every number that followed from the set by then. Refused: 2, 4.
    ///
    /// ```
    /// use reasons::{Set, Store};
    /// let mut store = Store::open(2, 2).unwrap();
    /// store.add(3, &[1]).unwrap();
    /// store.add(4, &[2, 3]).unwrap();
    /// assert_eq!(store.stages(Set::of(&[1, 2]).unwrap()).unwrap(), "0 1 2\n1 1 2 3\n2 1 2 3 4\n");
    /// ```
    pub fn stages(&self, set: Set) -> Result<String, Refusal> {
        calls::text(LONGEST_STAGES, |out, room| unsafe { calls::door_stages(self.raw(), set.0, out, room) })
    }

    /// The question without labels, from the justifications alone: the same word, and no reason. Refused: 2, 4.
    ///
    /// ```
    /// use reasons::{Plain, Set, Store};
    /// let mut store = Store::open(2, 1).unwrap();
    /// store.add(3, &[1, 2]).unwrap();
    /// assert_eq!(store.plain_question(3, Set::of(&[1, 2]).unwrap()), Ok(Plain::Supported));
    /// assert_eq!(store.plain_question(3, Set::of(&[1]).unwrap()), Ok(Plain::Unsupported));
    /// ```
    pub fn plain_question(&self, n: u32, set: Set) -> Result<Plain, Refusal> {
        let told = unsafe { calls::door_plain_question(self.raw(), n, set.0) };
        Plain::of(told.reply, told.value)
    }

    /// The context without labels: 2 inconsistent, 1 supported, 0 unsupported. Refused: 2, 4, 15.
    ///
    /// ```
    /// use reasons::{Set, Store};
    /// let mut store = Store::open(2, 1).unwrap();
    /// store.add(3, &[1]).unwrap();
    /// store.add(0, &[1]).unwrap();
    /// let (mut with, mut without) = ([9; 4], [9; 4]);
    /// store.context(Set::of(&[2]).unwrap(), &mut with).unwrap();
    /// store.plain_context(Set::of(&[2]).unwrap(), &mut without).unwrap();
    /// assert_eq!((with, without), ([0, 3, 1, 3], [0, 0, 1, 0]));
    /// ```
    pub fn plain_context(&self, set: Set, out: &mut [u8]) -> Result<(), Refusal> {
        match unsafe { calls::door_plain_context(self.raw(), set.0, out.as_mut_ptr(), out.len()) } {
            0 => Ok(()),
            n => Err(Refusal::of(n, 0)),
        }
    }

    /// The bytes, to be saved.
    ///
    /// ```
    /// use reasons::{Refusal, Set, Store};
    /// let mut store = Store::open(2, 1).unwrap();
    /// store.add(3, &[1]).unwrap();
    /// let mut saved = store.to_bytes();
    /// assert!(Store::from_bytes(&saved) == store);
    /// saved[0] = 200;
    /// let spoilt = Store::from_bytes(&saved);
    /// assert!(!spoilt.has_right_shape());
    /// assert_eq!(spoilt.question(3, Set::of(&[1]).unwrap()), Err(Refusal::Shape));
    /// ```
    pub fn to_bytes(&self) -> [u8; STORE] {
        let mut all = [0; STORE];
        for (to, word) in all.chunks_exact_mut(8).zip(self.0) {
            to.copy_from_slice(&word.to_le_bytes());
        }
        all
    }

    /// A store of any bytes: what has not the right shape is refused by every call that reads it, with 2.
    pub fn from_bytes(bytes: &[u8; STORE]) -> Store {
        let mut all = [0; calls::WORDS];
        for (to, word) in all.iter_mut().zip(bytes.chunks_exact(8)) {
            *to = u64::from_le_bytes([word[0], word[1], word[2], word[3], word[4], word[5], word[6], word[7]]);
        }
        Store(calls::Raw::of(all).cleaned())
    }

    fn raw(&self) -> calls::Raw {
        calls::Raw::of(self.0)
    }
}

impl fmt::Debug for Store {
    fn fmt(&self, f: &mut fmt::Formatter<'_>) -> fmt::Result {
        match self.case_line() {
            Ok(line) => write!(f, "Store({})", line.trim_end()),
            Err(refusal) => write!(f, "Store({refusal})"),
        }
    }
}

/// Justifications that are in no store, followed without labels: any number of items, each a consequent and its supports.
/// Every call is refused for the first fault: 3, then each item in order by 6, 4, 5, 17, then 4 for the number or the set asked.
///
/// ```
/// use reasons::{Bare, Plain, Refusal, Set};
/// # fn main() -> Result<(), Refusal> {
/// let rules = Bare::of(2, 2, &[(3, &[1]), (4, &[2, 3])]);
/// let both = Set::of(&[1, 2])?;
/// assert_eq!(rules.question(4, both)?, Plain::Supported);
/// assert_eq!(rules.context(both)?, [0, 1, 1, 1, 1]);
/// assert_eq!(rules.stages(both)?, "0 1 2\n1 1 2 3\n2 1 2 3 4\n");
/// assert_eq!(rules.question(5, both), Err(Refusal::Number));
/// assert_eq!(Bare::of(2, 2, &[(3, &[0]), (9, &[])]).stages(both), Err(Refusal::Falsity));
/// # Ok(())
/// # }
/// ```
#[derive(Clone)]
pub struct Bare {
    assumptions: u32,
    claims: u32,
    items: Vec<calls::Item>,
}

impl Bare {
    pub fn of(assumptions: u32, claims: u32, list: &[(u32, &[u32])]) -> Bare {
        Bare { assumptions, claims, items: calls::Item::all(list) }
    }

    /// What the set is to n.
    pub fn question(&self, n: u32, set: Set) -> Result<Plain, Refusal> {
        let told = self.ask(0, n, set, &mut []);
        Plain::of(told.reply, told.value)
    }

    /// A byte for each of 0 to A+M: 2 inconsistent, 1 supported, 0 unsupported.
    pub fn context(&self, set: Set) -> Result<Vec<u8>, Refusal> {
        let mut out = vec![0; CONTEXT];
        match self.ask(1, 0, set, &mut out).reply {
            0 => {
                // not refused with 3, so there are at most 128 numbers
                out.truncate(self.assumptions as usize + self.claims as usize + 1);
                Ok(out)
            }
            n => Err(Refusal::of(n, 0)),
        }
    }

    /// One line a stage from 0: the stage, then every number that followed from the set by then.
    pub fn stages(&self, set: Set) -> Result<String, Refusal> {
        let ask = |out, room| unsafe { calls::door_bare(self.asked(2, 0, set), self.items.as_ptr(), self.items.len(), out, room) };
        calls::text(LONGEST_STAGES, ask)
    }

    fn asked(&self, what: u32, number: u32, set: Set) -> calls::Asked {
        calls::Asked { assumptions: self.assumptions, claims: self.claims, what, number, set: set.0 }
    }

    fn ask(&self, what: u32, number: u32, set: Set, out: &mut [u8]) -> calls::Told {
        unsafe { calls::door_bare(self.asked(what, number, set), self.items.as_ptr(), self.items.len(), out.as_mut_ptr(), out.len()) }
    }
}

/// The line of a refusal and of a record, as the listing program prints it.
///
/// ```
/// use reasons::Refusal;
/// assert_eq!(reasons::refusal_line(Refusal::Label(14), 3), "refused 8 3\n");
/// ```
pub fn refusal_line(refusal: Refusal, record: u32) -> String {
    calls::text(30, |out, room| unsafe { calls::door_refusal(refusal.number(), record, out, room) }).expect("30 bytes always do")
}

/// What the listing program prints of the bytes of a file: the listing, or the refusal's line.
///
/// ```
/// assert_eq!(reasons::printed(&[]), "refused 11 0\n");
/// assert_eq!(reasons::printed(&[0; 4097]), "refused 14 0\n");
/// ```
pub fn printed(bytes: &[u8]) -> String {
    calls::text(LONGEST_LISTING, |out, room| unsafe { calls::door_printed(bytes.as_ptr(), bytes.len(), out, room) })
        .expect("the longest listing fits")
}

const _: () = assert!(std::mem::size_of::<Store>() == STORE && STORE == 7968);
