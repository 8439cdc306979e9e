//! P3: the term fields of a term, counted in "one loop over the term's bytes,
//! without recursion".

use super::tags::Tag;

/// The number of term fields in the term that stands from `at` up to `end`. It is
/// meant for a term that was read.
///
/// In such a term the headers follow one another without gaps: behind a header and
/// its value comes the header of the next field, of whichever term it is (B3.3). So
/// no length is looked at, and nothing waits for the end of an inner term. A byte
/// that is no tag moves the loop on by a header alone, so it ends on any bytes.
pub fn count_fields(bytes: &[u8], at: usize, end: usize) -> usize {
    let up_to_end = &bytes[..end.min(bytes.len())];
    let mut place = at;
    let mut count = 0;
    while let Some(&byte) = up_to_end.get(place) {
        count += 1;
        place += 3 + Tag::from_byte(byte).map_or(0, Tag::value_bytes);
    }
    count
}
