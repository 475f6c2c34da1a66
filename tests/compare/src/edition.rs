//! The edition of M17 addresses that a call goes by, as the second program
//! takes it and as a number for the library.

use obcf_second::address::{FIRST_HASH, LAST_HASH};
use obcf_second::sample::Rng;
use obcf_second::Edition;

#[derive(Clone, Copy, Debug, PartialEq)]
pub struct By {
    pub edition: Edition,
    /// 1 is the newer edition, every other number the older.
    pub number: u32,
}

/// Numbers for the older edition, but for 0.
const ODD: [u32; 6] = [2, 255, 256, 257, 1 << 31, u32::MAX];

impl By {
    pub const NEWER: By = By {
        edition: Edition::Newer,
        number: 1,
    };

    const fn older(number: u32) -> By {
        By {
            edition: Edition::Older,
            number,
        }
    }

    /// Either edition.
    pub fn any(rng: &mut Rng) -> By {
        let both = By::both(rng);
        rng.pick(&both)
    }

    /// The older edition, now and then by a number other than 0, and the newer.
    pub fn both(rng: &mut Rng) -> [By; 2] {
        let number = if rng.one_in(5) { rng.pick(&ODD) } else { 0 };
        [By::older(number), By::NEWER]
    }

    /// The older edition by each of the numbers for it here.
    pub fn every_older() -> impl Iterator<Item = By> {
        [0].into_iter().chain(ODD).map(By::older)
    }
}

/// Whether a number is a hash address, by the newer edition.
pub fn is_hash(number: u64) -> bool {
    (FIRST_HASH..=LAST_HASH).contains(&number)
}
