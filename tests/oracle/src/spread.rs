//! How often the earliest start of a listed record differs from its other times. Where they are
//! equal, one given instead of the other would not be noticed.

use std::fmt::{self, Display, Formatter};

use crate::image::Record;

#[derive(Clone, Default, Debug)]
pub struct Spread {
    records: u64,
    /// Those whose earliest start is not the start, not the drawn start, not the effective start,
    /// and none of the three.
    apart: [u64; 4],
}

impl Spread {
    pub fn count_all(&mut self, records: &[Record]) {
        records.iter().for_each(|record| self.count(record));
    }

    fn count(&mut self, record: &Record) {
        let Record {
            entry,
            earliest_start,
        } = record;
        let start = u64::from(entry.event.start);
        let times = [start, entry.event.drawn_start(), entry.effective_start];
        let [a, b, c] = times.map(|time| time != *earliest_start);
        self.records += 1;
        for (sum, apart) in self.apart.iter_mut().zip([a, b, c, a && b && c]) {
            *sum += u64::from(apart);
        }
    }

    fn percentages(&self) -> [u64; 4] {
        self.apart.map(|part| 100 * part / self.records.max(1))
    }

    /// At least one record in twenty tells each time apart, and one all three.
    pub fn is_wide(&self) -> bool {
        self.percentages().iter().all(|&part| part >= 5)
    }
}

impl Display for Spread {
    fn fmt(&self, f: &mut Formatter) -> fmt::Result {
        let [start, drawn, effective, all] = self.percentages();
        write!(f, "listed records: {}; earliest start", self.records)?;
        write!(
            f,
            " not the start {start} %, not the drawn start {drawn} %,"
        )?;
        write!(
            f,
            " not the effective start {effective} %, none of them {all} %"
        )
    }
}
