//! Buffers of a wrong length: 15 from every entry and not a byte changed.

use crate::damage::reached;
use crate::entries::Lent;
use crate::generate::stream;
use crate::pages;
use crate::tally::Tally;
use second::layout::LENGTH;
use second::model::unsound;

pub const LENGTHS: [usize; 7] = [0, 1, 32, LENGTH - 1, LENGTH + 1, 2 * LENGTH, 10_000];

pub fn compare(length: usize, seed: u64, tally: &mut Tally) -> Result<(), String> {
    let sound = reached(&stream(seed, 200));
    // sound tables over and over, so that only the length is wrong
    let bytes: Vec<u8> = (0..length).map(|i| sound[i % LENGTH]).collect();
    let mut lent = Lent::new(&bytes, seed as usize % 8);
    if lent.check() != 15 {
        return Err(format!("the check answers {}", lent.check()));
    }
    for call in 0..=255 {
        tally.add(call, 15);
        if lent.call(call, 0, 0) != unsound() {
            return Err(format!("call {:02x} is not answered 15", call));
        }
    }
    pages::of_wrong_length(&mut lent, &mut tally.pages)?;
    if lent.boot() != 15 {
        return Err("boot is not answered 15".into());
    }
    if lent.bytes() != &bytes[..] || !lent.fence_untouched() {
        return Err("a byte was changed".into());
    }
    Ok(())
}
