//! The second program's calls under C names: `second_X` for `codeplug_X` of codeplug.h, with the same parameters and answers. What the
//! caller must ensure is what codeplug.h says.

mod addresses;
mod calls;
mod edition;
mod legacy;
mod prevalidated;
mod readers;
mod refused;
mod slices;
mod writers;
