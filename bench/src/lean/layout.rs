//! Where the parts of a valid file stand.

use obcf_second::Counts;

pub struct Layout {
    pub contacts: usize,
    pub channels: usize,
    pub banks: usize,
}

impl Layout {
    pub fn of(counts: Counts) -> Layout {
        Layout {
            contacts: counts.contacts.into(),
            channels: counts.channels.into(),
            banks: counts.banks.into(),
        }
    }

    pub fn contact_at(&self, n: usize) -> usize {
        88 + 39 * n
    }

    pub fn channel_at(&self, n: usize) -> usize {
        self.contact_at(self.contacts) + 90 * n
    }

    pub fn offset_at(&self, n: usize) -> usize {
        self.channel_at(self.channels) + 4 * n
    }

    /// The first byte after the offset table.
    pub fn bank_start(&self) -> usize {
        self.offset_at(self.banks)
    }

    /// Bank n by its offset; past the last, the file's end.
    pub fn bank_at(&self, file: &[u8], n: usize) -> usize {
        if n == self.banks {
            return file.len();
        }
        let at = self.offset_at(n);
        let offset = u32::from_le_bytes([file[at], file[at + 1], file[at + 2], file[at + 3]]);
        self.bank_start() + offset as usize
    }
}
