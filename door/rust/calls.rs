//! The proved functions, as the library has them.
use crate::Refusal;
use std::mem::MaybeUninit;

pub const WORDS: usize = 996;

/// A store as the library hands it out. 13 bytes of it are padding that no call sets, so they may be anything.
#[repr(C)]
#[derive(Clone, Copy)]
pub struct Raw([MaybeUninit<u64>; WORDS]);

impl Raw {
    pub fn of(words: [u64; WORDS]) -> Raw {
        Raw(words.map(MaybeUninit::new))
    }

    /// The same with its padding clear: bytes 2 to 7 and 7,961 to 7,967.
    pub fn cleaned(mut self) -> [u64; WORDS] {
        let bytes = self.0.as_mut_ptr().cast::<u8>();
        // Within the array; after this every byte is set: the padding here, the others by the library.
        unsafe {
            bytes.add(2).write_bytes(0, 6);
            bytes.add(7961).write_bytes(0, 7);
            self.0.map(|word| word.assume_init())
        }
    }
}

#[repr(C)]
pub struct Kept {
    pub reply: u32,
    pub named: u32,
    pub record: u32,
    pub store: Raw,
}

#[repr(C)]
pub struct Reasoned {
    pub reply: u32,
    pub answer: u32,
    pub reason: u32,
}

#[repr(C)]
pub struct Told {
    pub reply: u32,
    pub value: usize,
}

#[repr(C)]
#[derive(Clone)]
pub struct Item {
    pub consequent: u32,
    pub count: usize,
    pub supports: [u32; 4],
}

impl Item {
    /// The first four supports in their places; the count tells how many there were.
    fn of(consequent: u32, supports: &[u32]) -> Item {
        let mut places = [0; 4];
        for (place, support) in places.iter_mut().zip(supports) {
            *place = *support;
        }
        Item { consequent, count: supports.len(), supports: places }
    }

    pub fn all(list: &[(u32, &[u32])]) -> Vec<Item> {
        list.iter().map(|(consequent, supports)| Item::of(*consequent, supports)).collect()
    }
}

/// What is asked of a bare list: what is 0 for the word of a number, 1 for the context, 2 for the stages.
#[repr(C)]
pub struct Asked {
    pub assumptions: u32,
    pub claims: u32,
    pub what: u32,
    pub number: u32,
    pub set: u32,
}

/// The sizes and places of C's layout, as the header has them.
const _: () = {
    use std::mem::{offset_of, size_of};
    assert!(size_of::<Raw>() == 7968 && std::mem::align_of::<Raw>() == 8);
    assert!(size_of::<Kept>() == 7984 && offset_of!(Kept, named) == 4 && offset_of!(Kept, record) == 8 && offset_of!(Kept, store) == 16);
    assert!(size_of::<Reasoned>() == 12 && offset_of!(Reasoned, answer) == 4 && offset_of!(Reasoned, reason) == 8);
    assert!(size_of::<Told>() == 16 && offset_of!(Told, value) == 8);
    assert!(size_of::<Item>() == 32 && offset_of!(Item, count) == 8 && offset_of!(Item, supports) == 16);
    assert!(size_of::<Asked>() == 20 && offset_of!(Asked, what) == 8 && offset_of!(Asked, set) == 16);
};

#[link(name = "door", kind = "static")]
extern "C" {
    pub fn door_open(assumptions: u32, claims: u32) -> Kept;
    pub fn door_load(bytes: *const u8, length: usize) -> Kept;
    pub fn door_add(store: Raw, consequent: u32, supports: *const u32, count: usize) -> Kept;
    pub fn door_add_all(store: Raw, list: *const Item, items: usize, out: *mut u8, room: usize) -> Kept;
    pub fn door_withdraw(store: Raw, consequent: u32, supports: *const u32, count: usize) -> Kept;
    pub fn door_shape(store: Raw) -> bool;
    pub fn door_question(store: Raw, n: u32, set: u32) -> Reasoned;
    pub fn door_context(store: Raw, set: u32, out: *mut u8, room: usize) -> u32;
    pub fn door_member(store: Raw, n: u32, place: usize) -> Told;
    pub fn door_line(store: Raw, n: u32, out: *mut u8, room: usize) -> Told;
    pub fn door_case_line(store: Raw, out: *mut u8, room: usize) -> Told;
    pub fn door_listing(store: Raw, out: *mut u8, room: usize) -> Told;
    pub fn door_stages(store: Raw, set: u32, out: *mut u8, room: usize) -> Told;
    pub fn door_write(store: Raw, out: *mut u8, room: usize) -> Told;
    pub fn door_plain_question(store: Raw, n: u32, set: u32) -> Told;
    pub fn door_plain_context(store: Raw, set: u32, out: *mut u8, room: usize) -> u32;
    pub fn door_bare(asked: Asked, list: *const Item, items: usize, out: *mut u8, room: usize) -> Told;
    pub fn door_refusal(number: u32, record: u32, out: *mut u8, room: usize) -> Told;
    pub fn door_printed(bytes: *const u8, length: usize, out: *mut u8, room: usize) -> Told;
}

/// The bytes of a call that writes at most so many.
pub fn bytes(most: usize, call: impl FnOnce(*mut u8, usize) -> Told) -> Result<Vec<u8>, Refusal> {
    let mut out = vec![0; most];
    let told = call(out.as_mut_ptr(), out.len());
    match told.reply {
        0 => {
            out.truncate(told.value);
            Ok(out)
        }
        n => Err(Refusal::of(n, 0)),
    }
}

/// The same of text: letters, digits, spaces, braces, commas and newlines.
pub fn text(most: usize, call: impl FnOnce(*mut u8, usize) -> Told) -> Result<String, Refusal> {
    bytes(most, call).map(|out| String::from_utf8(out).expect("the library writes text"))
}
