//! Every refusal that a caller can get, by its name and by its number, which is that of document 01 and of the requests after it.
use reasons::{printed, refusal_line, Added, Fault, Refusal, Set, Store};

/// The refusal must have this name and this number, and is noted as got.
fn gets(met: &mut Vec<u32>, got: Refusal, want: Refusal, number: u32) {
    assert_eq!((got, got.number()), (want, number));
    met.push(number);
}

/// The refusal of a file, in this record.
fn of_file(bytes: &[u8], record: u32) -> Refusal {
    let fault: Fault = Store::load(bytes).err().expect("refused");
    assert_eq!(fault.record, record);
    fault.refusal
}

/// A file in which n follows from each of 1 to 13 alone.
fn thirteen(n: u8) -> Vec<u8> {
    let mut file = vec![13, 2, 13];
    (1..=13).for_each(|k| file.extend([n, 1, k]));
    file
}

fn main() -> Result<(), Refusal> {
    let mut met = Vec::new();
    let mut store = Store::open(13, 2)?;
    assert_eq!(store.add(15, &[1, 2])?, Added::Done);
    assert_eq!(store.add(15, &[2, 1, 2])?, Added::Already);
    let mut bytes = store.to_bytes();
    bytes[0] = 33;
    let spoilt = Store::from_bytes(&bytes);

    gets(&mut met, spoilt.question(15, Set::default()).unwrap_err(), Refusal::Shape, 2);
    gets(&mut met, Store::open(0, 97).err().expect("refused"), Refusal::Counts, 3);
    gets(&mut met, store.add(16, &[1]).unwrap_err(), Refusal::Number, 4);
    gets(&mut met, store.add(15, &[0]).unwrap_err(), Refusal::Falsity, 5);
    gets(&mut met, store.add(15, &[1; 5]).unwrap_err(), Refusal::Supports, 6);
    gets(&mut met, store.add(15, &[15]).unwrap_err(), Refusal::Itself, 17);
    gets(&mut met, store.withdraw(15, &[1]).unwrap_err(), Refusal::Unheld, 18);
    gets(&mut met, store.context(Set::default(), &mut [0]).unwrap_err(), Refusal::Short, 15);
    gets(&mut met, store.member(15, 1).unwrap_err(), Refusal::Place, 16);

    // the thirteenth member: added, loaded, and come back where a premise is withdrawn
    for k in 1..=12 {
        assert_eq!(store.add(14, &[k])?, Added::Done);
    }
    gets(&mut met, store.add(14, &[13]).unwrap_err(), Refusal::Label(14), 8);
    gets(&mut met, of_file(&thirteen(14), 13), Refusal::Label(14), 8);
    gets(&mut met, of_file(&thirteen(15), 13), Refusal::Label(15), 8);
    let mut wide = Store::open(13, 2)?;
    wide.add(15, &[])?;
    for k in 1..=13 {
        wide.add(15, &[k])?;
    }
    gets(&mut met, wide.withdraw(15, &[]).unwrap_err(), Refusal::Label(15), 8);

    let mut nogoods = Store::open(9, 0)?;
    let pairs = (1..=9).flat_map(|low| (low + 1..=9).map(move |high| [low, high]));
    let last = pairs.take(33).map(|pair| nogoods.add(0, &pair)).last().expect("33 pairs");
    gets(&mut met, last.unwrap_err(), Refusal::Nogoods, 9);
    let mut full = Store::open(32, 96)?;
    for i in 0..256 {
        full.add(33 + i % 16, &[49 + i / 16])?;
    }
    gets(&mut met, full.add(48, &[65]).unwrap_err(), Refusal::Full, 7);

    gets(&mut met, of_file(&[1, 1, 0x81, 2], 0), Refusal::Full, 7);
    gets(&mut met, of_file(&[], 0), Refusal::Ends, 11);
    gets(&mut met, of_file(&[1, 1, 1, 0x80, 0], 1), Refusal::Form, 12);
    gets(&mut met, of_file(&[1, 1, 0, 7], 0), Refusal::After, 13);
    assert_eq!(printed(&[0; 4097]), refusal_line(Refusal::Long, 0));
    assert_eq!((refusal_line(Refusal::Long, 0).as_str(), Refusal::Long.number()), ("refused 14 0\n", 14));

    met.sort_unstable();
    met.dedup();
    assert_eq!(met, [2, 3, 4, 5, 6, 7, 8, 9, 11, 12, 13, 15, 16, 17, 18]);
    Ok(())
}
