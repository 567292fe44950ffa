//! The refusal numbers.

pub const SHORT_BUFFER: u32 = 1;
pub const UNSOUND: u32 = 2;
pub const BIDDER: u32 = 10;
pub const AMOUNT: u32 = 11;
pub const WITHDRAWAL: u32 = 12;
pub const PAYMENT: u32 = 13;
pub const BAD_BID: u32 = 14;
pub const SECOND_BID: u32 = 15;
pub const STAMP: u32 = 16;
pub const STAGE: u32 = 20;
pub const DAY: u32 = 21;
pub const LONG_LIST: u32 = 22;
pub const REGISTER_FULL: u32 = 23;
pub const NOTHING_DUE: u32 = 24;
pub const QUANTITY: u32 = 25;
pub const PRICE: u32 = 30;
pub const ACCOUNT: u32 = 31;
pub const TOTAL: u32 = 32;
pub const COLUMNS: u32 = 33;
pub const FORM: u32 = 40;

/// Refuses with `number` unless `fine`.
pub fn unless(fine: bool, number: u32) -> Result<(), u32> {
    if fine {
        Ok(())
    } else {
        Err(number)
    }
}
