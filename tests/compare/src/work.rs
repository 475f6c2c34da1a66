//! The memory that is lent, made once for all cases.

use obcf_second::LONGEST;

use crate::fence::Fence;
use crate::report::Tally;

pub struct Work {
    pub file: Fence,
    pub texts: Fence,
    pub name: Fence,
    pub description: Fence,
    pub out: Fence,
    pub room: Fence,
    pub history: Fence,
    pub record: Fence,
    pub tally: Tally,
}

impl Work {
    pub fn new() -> Work {
        Work {
            file: Fence::new(LONGEST + 4_096),
            texts: Fence::new(1_024),
            name: Fence::new(1_024),
            description: Fence::new(1_024),
            out: Fence::new(1_024),
            room: Fence::new(2 * LONGEST),
            history: Fence::new(4 * LONGEST),
            record: Fence::new(1_024),
            tally: Tally::new(),
        }
    }
}
