//! The sowing of README by calls: prints its listing; then asks, withdraws, and is refused.
use reasons::{Added, Answer, Bare, Plain, Refusal, Set, Store};

fn main() -> Result<(), Box<dyn std::error::Error>> {
    let rules: [(u32, &[u32]); 6] = [(0, &[2, 3]), (4, &[1]), (5, &[2]), (6, &[3, 4]), (7, &[3, 5]), (0, &[1, 2])];
    let mut store = Store::open(3, 4)?;
    for (consequent, supports) in rules {
        assert_eq!(store.add(consequent, supports)?, Added::Done);
    }
    print!("{}", store.listing()?);

    let (utc_and_slip, local_and_slip) = (Set::of(&[1, 3])?, Set::of(&[2, 3])?);
    assert_eq!(store.question(6, utc_and_slip)?, Answer::Supported(utc_and_slip));
    assert_eq!(store.question(7, local_and_slip)?, Answer::Inconsistent(local_and_slip));
    assert_eq!(store.question(7, Set::of(&[2])?)?, Answer::Unsupported);
    assert_eq!(store.label(0)?, [Set::of(&[1, 2])?, local_and_slip]);

    let bare = Bare::of(3, 4, &rules);
    assert_eq!(bare.question(6, utc_and_slip)?, Plain::Supported);
    assert_eq!(bare.stages(utc_and_slip)?, store.stages(utc_and_slip)?, "the same rules, in a store or not");

    let before = store.clone();
    assert_eq!(store.add(6, &[4, 3]), Ok(Added::Already));
    assert_eq!(store.add(9, &[]), Err(Refusal::Number));
    assert_eq!(store.withdraw(6, &[3]), Err(Refusal::Unheld));
    assert!(store == before, "a refusal changes nothing");
    store.withdraw(7, &[5, 3])?;
    assert!(store != before);
    store.add(7, &[3, 5])?;
    assert!(store == before, "withdrawn and added, byte for byte");
    Ok(())
}
