//! CTCSS tones (source 000, CTCSS Code Frequencies Lookup Table).

/// The frequencies in tenths of a hertz, by index.
pub const TONES: [u16; 50] = [
    670, 693, 719, 744, 770, 797, 825, 854, 885, 915, 948, 974, 1000, 1034, 1072, 1109, 1148, 1188,
    1230, 1273, 1318, 1365, 1413, 1462, 1514, 1567, 1598, 1622, 1655, 1679, 1713, 1738, 1773, 1799,
    1835, 1862, 1899, 1928, 1966, 1995, 2035, 2065, 2107, 2181, 2257, 2291, 2336, 2418, 2503, 2541,
];

const ENABLED: u8 = 0x80;

/// A tone byte: enabled or not, and an index that is kept either way.
#[derive(Clone, Copy, Debug, PartialEq, Eq)]
pub struct Tone {
    pub enabled: bool,
    pub index: u8,
}

impl Tone {
    /// Reads a tone byte; `None` where the index is not in the table,
    /// enabled or not.
    pub fn from_byte(byte: u8) -> Option<Tone> {
        let tone = Tone {
            enabled: byte & ENABLED != 0,
            index: byte & !ENABLED,
        };
        tone.tenths_of_hertz().map(|_| tone)
    }

    /// The tone byte; `None` where the index is not in the table.
    pub fn to_byte(self) -> Option<u8> {
        self.tenths_of_hertz()?;
        Some(if self.enabled {
            self.index | ENABLED
        } else {
            self.index
        })
    }

    pub fn tenths_of_hertz(self) -> Option<u16> {
        TONES.get(usize::from(self.index)).copied()
    }
}
