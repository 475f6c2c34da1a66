//! The edition of addresses that a number stands for.

use obcf_second::Edition;

pub fn edition_of(number: u32) -> Edition {
    match number {
        1 => Edition::Newer,
        _ => Edition::Older,
    }
}
