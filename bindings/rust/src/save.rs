// SPDX-License-Identifier: Apache-2.0 AND BSD-3-Clause
//! Save records: the state of a device as text, and the old form, which is moved into it and back.
//!
//! [`crate::Device::save`] writes the text of a device, and [`crate::Device::restore`] lays one on a device. The text is
//! one field a line, each ended by a newline, the last too, with decimal numbers that have no leading zeros:
//!
//! ```text
//! form=2
//! start=4294967296
//! region=268435456
//! requested=67108864
//! usable=268435456
//! plugged=20971520
//! run=0,2
//! run=5,3
//! ```
//!
//! A run has its first block and how many there are, for each longest run of plugged blocks, lowest first. One state has
//! one text, and any other text is refused: with [`Error::LaterForm`] where it begins `form=N` and a newline and N is
//! above 2, else with [`Error::BadSave`].
//!
//! The old form is a byte for each block of the region, 0 or 1 where it is plugged. It has no fields, so they are kept
//! beside it.
//!
//! ```text
//! let text = old_to_new(&fields, &old)?;
//! assert_eq!(new_to_old(text.as_bytes())?, (fields, old));
//! ```

use crate::sys::{self, SAVE_FIELDS, SAVE_MAX_OLD_BYTES, SAVE_MAX_TEXT_BYTES, SAVE_SCRATCH};
use crate::Error;

/// What a save record says beside the blocks.
#[derive(Clone, Copy, Debug, PartialEq, Eq, Hash)]
pub struct Fields {
    /// The size of a block in bytes: always [`crate::BLOCK_SIZE`], and not in the text.
    pub block_size: u64,
    /// The guest address of the region.
    pub start: u64,
    /// The region's size in bytes.
    pub region_size: u64,
    /// How many bytes the guest is asked to have.
    pub requested_size: u64,
    /// How many bytes from the start on the guest may plug.
    pub usable_size: u64,
    /// How many bytes are plugged.
    pub plugged_size: u64,
}

/// Moves the old form, a byte for each block of the region, into a text.
///
/// [`Error::BadSave`] where the bytes are of another number, one of them is above 1, no device with an alignment of
/// 128 MiB and one region has the fields, a block at or past the usable size is plugged, or the plugged size is not 4 MiB
/// times the plugged blocks.
pub fn old_to_new(fields: &Fields, old: &[u8]) -> Result<String, Error> {
    let words: [u64; SAVE_FIELDS] = [
        fields.block_size,
        fields.start,
        fields.region_size,
        fields.requested_size,
        fields.usable_size,
        fields.plugged_size,
    ];
    // The longest text is that of 1 TiB with every other block plugged. Its head has 121 bytes: 7, 27 with a start of 20
    // digits, 21, 24 and 21 with sizes of 13, and 21 with a plugged size of 12. Its 131,072 runs `run=N,1` have 7 bytes and
    // the digits of N each, which are 5, 45, 450, 4,500, 45,000 times 1 to 5 and 81,072 times 6: 1,648,381 in all. A longer
    // run takes the place of others, whose bytes are more than its digits.
    let mut text = vec![0; SAVE_MAX_TEXT_BYTES];
    let mut length = [0];
    let scratch = &mut [0; SAVE_SCRATCH];
    Error::check(sys::old_to_new(
        &words,
        old,
        scratch,
        &mut text,
        &mut length,
    ))?;
    Ok(string(text, length))
}

/// Moves a text into the fields and the old form, a byte for each block of the region.
///
/// [`Error::LaterForm`] where the text begins with the number of a later form, else [`Error::BadSave`] where it is the text
/// of no state.
pub fn new_to_old(text: &[u8]) -> Result<(Fields, Vec<u8>), Error> {
    let mut words = [0; SAVE_FIELDS];
    let mut old = vec![0; SAVE_MAX_OLD_BYTES];
    let scratch = &mut [0; SAVE_SCRATCH];
    Error::check(sys::new_to_old(text, scratch, &mut old, &mut words))?;
    let [block_size, start, region_size, requested_size, usable_size, plugged_size] = words;
    old.truncate((region_size / block_size) as usize);
    old.shrink_to_fit();
    let fields = Fields {
        block_size,
        start,
        region_size,
        requested_size,
        usable_size,
        plugged_size,
    };
    Ok((fields, old))
}

/// The text that a call has written: so many bytes of the room for it.
pub(crate) fn string(mut text: Vec<u8>, [length]: [u64; 1]) -> String {
    text.truncate(length as usize);
    text.shrink_to_fit();
    String::from_utf8(text).expect("a text is ASCII")
}
