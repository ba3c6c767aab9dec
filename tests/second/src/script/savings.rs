//! Sheets with a saving: an SMNCC below zero that the other operating costs make up for, one next
//! to the greatest that they do, and one past it.

use super::*;

/// Words of SMNCC next to the ends of its range, to 0 and to the change of sign.
pub(crate) const SMNCC_EDGES: [u32; 9] = [
    4_194_967_295,
    4_194_967_296,
    4_294_967_295,
    0,
    1,
    100_000_000,
    100_000_001,
    2_147_483_647,
    2_147_483_648,
];

impl Dated {
    /// Operating costs without SMNCC, by an index that has not moved.
    pub(super) fn operating(&mut self, four: [u32; 4]) {
        self.fields[12..16].copy_from_slice(&four);
        self.fields[31] = self.fields[24];
    }

    /// The lowest of the operating costs without SMNCC, or 0 if one of them is too high.
    fn room(&self) -> u32 {
        let common: &[u32; COMMON_FIELDS] = self.fields.first_chunk().expect("96 fields");
        let lowest = operating_costs(common).map(|four| four.into_iter().min());
        match lowest {
            Ok(Some(oc)) => (oc - self.value(SMNCC)) as u32,
            _ => 0,
        }
    }
}

impl Writer {
    /// A saving of any sort on a sheet whose fields are within their ranges.
    pub(super) fn saving(&mut self, dated: &mut Dated) {
        match self.random.below(8) {
            0..=3 => self.some_saving(dated),
            4 => self.brink_of_saving(dated),
            5 => self.one_low(dated),
            6 => self.smncc_at_an_edge(dated),
            _ => {
                let saving = self.random.between(dated.room(), MONEY);
                dated.set_value(SMNCC, -i64::from(saving));
            }
        }
    }

    /// The greatest saving that leaves no OC below zero. A sheet without room for one is given
    /// operating costs, alike for the four.
    fn room(&mut self, dated: &mut Dated) -> u32 {
        if dated.room() == 0 {
            let cost = self.random.pick(&[1, 1_000, 1_000_000, MONEY]);
            dated.operating([self.random.between(1, cost); 4]);
        }
        dated.room()
    }

    /// A saving that leaves no OC below zero.
    pub(super) fn some_saving(&mut self, dated: &mut Dated) {
        let room = self.room(dated);
        let saving = match self.random.below(3) {
            0 => self.random.any_size(room),
            1 => room,
            _ => self.random.between(0, room),
        };
        dated.set_value(SMNCC, -i64::from(saving));
    }

    /// The lowest OC is -1, 0 or 1.
    fn brink_of_saving(&mut self, dated: &mut Dated) {
        let room = i64::from(self.room(dated));
        let lowest = self.random.pick(&[-1, 0, 1]);
        dated.set_value(SMNCC, lowest - room);
    }

    /// One OC of the four is below the others, and it alone is below zero or next to it. They
    /// take their turns.
    fn one_low(&mut self, dated: &mut Dated) {
        self.low = (self.low + 1) % 4;
        let cost = self.random.any_size(MONEY / 2);
        let more = 1 + self.random.any_size(1_000_000);
        let mut four = [cost + more; 4];
        four[self.low] = cost;
        dated.operating(four);
        let past = self.random.between(1, more);
        let past = self.random.pick(&[0, 1, past, more]);
        dated.set_value(SMNCC, -i64::from(cost + past));
    }

    fn smncc_at_an_edge(&mut self, dated: &mut Dated) {
        let word = self.random.pick(&SMNCC_EDGES);
        dated.fields[SMNCC] = word;
        if dated.value(SMNCC) == field_range(SMNCC).0 && self.random.one_in(2) {
            // Just made up for.
            dated.operating([MONEY; 4]);
        }
    }
}
