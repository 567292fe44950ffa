//! Single calls with arguments that are refused.

use super::columns::columns;
use super::journal_calls::{Maker, MAX_FUNDS, MAX_SHARED};

impl Maker {
    /// A call that is refused, most often.
    pub fn refused(&mut self) -> String {
        let (paths, day) = (self.paths(), self.day);
        match self.chance.below(24) {
            0 => format!("deposit {} cash 5", self.chance.pick(&[32, 33, u32::MAX])),
            1 => format!("withdraw {} letter 5", self.chance.pick(&[32, u32::MAX])),
            2 => format!("pay {} 5", self.chance.pick(&[32, u32::MAX])),
            3 => format!("default {}", self.chance.pick(&[32, u32::MAX])),
            4 => format!("deposit {} cash {}", self.chance.below(32), self.chance.pick(&[0, MAX_FUNDS + 1, u64::MAX])),
            5 => format!("withdraw {} cash {}", self.chance.below(32), self.chance.pick(&[0, MAX_FUNDS + 1, u64::MAX])),
            6 => format!("rent {}", self.chance.pick(&[0, MAX_FUNDS + 1, u64::MAX])),
            7 => format!("pay {} {}", self.chance.below(32), self.chance.pick(&[0, 1, u64::MAX])),
            8 => format!("default {}", self.chance.below(32)),
            9 => format!("open S 1 2{}", self.quantities(paths - 1)),
            10 => format!("open L 5 4{}", self.quantities(paths)),
            11 => format!("open S {}{}", self.chance.pick(&["65536 65536", "0 65536"]), self.quantities(paths)),
            12 => format!("open L 5 9{} 10000 1 1 1", self.quantities(paths - 1)),
            13 => format!("open S 5 9{} 1 1 1 10000", self.quantities(paths - 1)),
            14 => format!("retire {}", self.chance.pick(&[65_536, u32::MAX])),
            15 => format!("payout {} priced{}", self.chance.pick(&[65_536, u32::MAX]), self.prices(9)),
            16 => format!("payout {day} failed{}", self.prices(1_000_001)),
            17 => format!("payout {day} priced{}", self.prices(1_000_001)),
            18 => self.chance.pick(&["fresh", "fresh X 16", "fresh X 1 M 4294967295"]).to_string(),
            19 => self.fresh(17),
            20 => self.open(),
            21 => "round".to_string() + &" 1".repeat(self.chance.pick(&[4_096, 4_097, 5_000])),
            22 => self.bad_total(),
            _ => self.pay(),
        }
    }

    fn bad_total(&mut self) -> String {
        let total = self.chance.pick(&[0, MAX_SHARED as u64 + 1, u64::MAX]);
        format!("disburse {total} {}", columns(&mut self.chance))
    }
}
