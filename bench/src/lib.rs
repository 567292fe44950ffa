//! A second engine for transmission rights auctions and the clearing
//! account, written from the specification alone, as a peer of the proved
//! engine: to compare with it on random sheets and journals (`compare`), and
//! to time against it (`speed`). `lp` holds rounds of the proved engine
//! against a solver of linear programs.

pub mod auction;
pub mod awards;
pub mod bids;
pub mod calls;
pub mod chance;
pub mod journal_lines;
pub mod journals;
pub mod market;
pub mod money;
pub mod proved;
pub mod refusal;
pub mod register;
pub mod settlement;
pub mod sheets;
pub mod text;
pub mod work;
pub mod year;
