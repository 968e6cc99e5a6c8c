//! Slips in reading a log that comes in fragments, each behind a switch that only tests can set, to see that the stored
//! logs and those that go past 2^48 tell them.

use crate::log::{Stop, FIRST_PASSED_OVER};

#[derive(Clone, Debug, Default, PartialEq, Eq)]
pub(crate) struct ReadingSlips {
    /// Where the fragments of the log begin, the first at 0.
    pub fragments: Vec<usize>,
    pub offset_in_the_fragment: bool,
    pub offset_of_32_bits: bool,
    pub value_ends_with_its_fragment: bool,
    pub wrong_field_is_long: bool,
    pub past_the_end_is_broken: bool,
}

impl ReadingSlips {
    pub fn offset(&self, offset: u64, read: usize) -> u64 {
        let in_fragment = self.fragments.iter().rfind(|&&begin| begin <= read).map(|begin| (read - begin) as u64);
        match in_fragment {
            Some(in_fragment) if self.offset_in_the_fragment => in_fragment,
            _ if self.offset_of_32_bits => u64::from(offset as u32),
            _ => offset,
        }
    }

    /// What a wrong field gives, and one that is not all there.
    pub fn stops(&self, broken: Stop, cut: Stop) -> (Stop, Stop) {
        (if self.wrong_field_is_long { cut } else { broken }, if self.past_the_end_is_broken { broken } else { cut })
    }

    /// What is passed over is forgotten with the fragment in which it began.
    pub fn value<'a>(&self, tag: u8, value: &'a [u8], begin: usize) -> &'a [u8] {
        let next = self.fragments.iter().find(|&&next| begin < next && next < begin + value.len());
        match next {
            Some(next) if self.value_ends_with_its_fragment && tag >= FIRST_PASSED_OVER => &value[..next - begin],
            _ => value,
        }
    }
}

mod tests {
    use super::*;
    use crate::engine::Engine;
    use crate::listing;
    use crate::log::{Reader, LOG_END};
    use crate::log_text;
    use crate::play::play_fields;
    use crate::slipped::{first_difference, stored};

    fn listing_of(reader: Reader) -> String {
        let (largest, reader) = reader.begin().unwrap();
        listing::text(&play_fields(Engine::fresh(largest), reader))
    }

    fn told_by(slips: ReadingSlips, text: &str, first: u64) -> [String; 2] {
        let log = log_text::bytes(text).unwrap();
        let mut slipped = Reader::new(&log, first);
        slipped.slips = slips;
        first_difference(&listing_of(Reader::new(&log, first)), &listing_of(slipped))
    }

    /// What is told if another byte is taken for the first that is past.
    fn told_by_end(end: u64, text: &str, first: u64) -> [String; 2] {
        let log = log_text::bytes(text).unwrap();
        first_difference(&listing_of(Reader::new(&log, first)), &listing_of(Reader::up_to(end, &log, first)))
    }

    /// L has bytes 0 to 4, the serve 5 to 7, the wrong field 8 and 9.
    const WRONG: &str = "largest 100\nserve\nraw 0700\n";

    #[test]
    fn an_offset_in_the_fragment_is_too_small() {
        let slips =
            ReadingSlips { offset_in_the_fragment: true, fragments: vec![0, 16, 28], ..ReadingSlips::default() };
        assert_eq!(told_by(slips, stored!("broken-middle"), 0), ["broken 29", "broken 1"]);
    }

    #[test]
    fn an_offset_of_32_bits_begins_anew() {
        let slips = ReadingSlips { offset_of_32_bits: true, ..ReadingSlips::default() };
        assert_eq!(told_by(slips.clone(), WRONG, (1 << 32) - 8), ["broken 4294967296", "broken 0"]);
        assert_eq!(told_by(slips, WRONG, LOG_END - 9), ["broken 281474976710655", "broken 4294967295"]);
    }

    #[test]
    fn a_value_that_ends_with_its_fragment_is_played() {
        let slips =
            ReadingSlips { value_ends_with_its_fragment: true, fragments: vec![0, 105], ..ReadingSlips::default() };
        assert_eq!(told_by(slips.clone(), stored!("passed-over"), 0), ["end 3 100 0", "out - 1"]);
        assert_eq!(told_by(slips, stored!("passed-over-largest"), 0), ["in 1 0", "broken 105"]);
    }

    #[test]
    fn a_wrong_field_is_told_though_the_log_goes_past_the_end() {
        let slips = ReadingSlips { wrong_field_is_long: true, ..ReadingSlips::default() };
        assert_eq!(told_by(slips, WRONG, LOG_END - 9), ["broken 281474976710655", "long"]);
    }

    #[test]
    fn a_field_that_goes_past_the_end_is_not_broken() {
        let slips = ReadingSlips { past_the_end_is_broken: true, ..ReadingSlips::default() };
        assert_eq!(told_by(slips.clone(), WRONG, LOG_END - 8), ["long", "broken 281474976710656"]);
        assert_eq!(told_by(slips, WRONG, LOG_END - 7), ["long", "broken 281474976710654"]);
    }

    #[test]
    fn the_end_is_at_2_to_the_48_and_not_beside_it() {
        let whole = "largest 100\nserve\n";
        assert_eq!(told_by_end(LOG_END - 1, whole, LOG_END - 8), ["out - 1", "long"]);
        assert_eq!(told_by_end(LOG_END + 1, whole, LOG_END - 7), ["long", "out - 1"]);
        assert_eq!(told_by_end(LOG_END - 1, WRONG, LOG_END - 9), ["broken 281474976710655", "long"]);
        assert_eq!(told_by_end(LOG_END + 1, WRONG, LOG_END - 8), ["long", "broken 281474976710656"]);
    }
}
