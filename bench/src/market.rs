//! The book: paths, bidders, clearing account, entry count and stage.

use crate::refusal::{self, unless};

pub const RELEASE: u32 = 1;
pub const RULES: u32 = 1;

pub const MAX_PATHS: usize = 16;
pub const ZONES: usize = 16;
pub const BIDDERS: usize = 32;
pub const MAX_ENTRIES: usize = 1_024;
pub const MAX_MW: u32 = 9_999;
pub const MAX_DAY: u32 = 65_535;
pub const MAX_STEP: u32 = 3;
/// Most of cash and applied cash together, and most of a letter.
pub const MAX_FUNDS: u64 = 1_000_000_000_000;
pub const MAX_OWED: u64 = 100_000_000_000_000;
/// Most that a bidder may owe when round 2 starts.
pub const MAX_OWED_BETWEEN: u64 = 20_000_000_000_000;
pub const MAX_ACCOUNT: i64 = 1_000_000_000_000_000;

#[derive(Clone, Copy, Debug, PartialEq, Eq)]
pub enum Direction {
    /// Out of Ontario, `X`.
    Export,
    /// Into Ontario, `M`.
    Import,
}

#[derive(Clone, Copy, Debug, PartialEq, Eq)]
pub enum Kind {
    Short,
    Long,
}

impl Kind {
    pub fn rounds(self) -> u32 {
        match self {
            Kind::Short => 1,
            Kind::Long => 2,
        }
    }
}

/// First and last day, both included.
#[derive(Clone, Copy, Debug, PartialEq, Eq)]
pub struct Period {
    pub first: u32,
    pub last: u32,
}

impl Period {
    pub fn is_sound(self) -> bool {
        self.first <= self.last && self.last <= MAX_DAY
    }

    pub fn meets(self, other: Period) -> bool {
        self.first <= other.last && other.first <= self.last
    }

    pub fn has(self, day: u32) -> bool {
        (self.first..=self.last).contains(&day)
    }
}

#[derive(Clone, Copy, Debug, PartialEq, Eq)]
pub enum Stage {
    Idle,
    Open {
        kind: Kind,
        round: u32,
        period: Period,
    },
}

#[derive(Clone, Copy, Debug, PartialEq, Eq)]
pub struct Path {
    pub direction: Direction,
    pub zone: u32,
    pub offer: u32,
    pub sold: u32,
}

impl Path {
    fn is_sound(&self) -> bool {
        self.zone < ZONES as u32 && self.sold <= self.offer && self.offer <= MAX_MW
    }
}

#[derive(Clone, Copy, Debug, Default, PartialEq, Eq)]
pub struct Bidder {
    pub cash: u64,
    pub applied: u64,
    pub letter: u64,
    pub hold: u64,
    pub owed: u64,
    pub step: u32,
}

impl Bidder {
    pub fn value(&self) -> u64 {
        self.applied + self.owed
    }

    fn has_value(&self) -> bool {
        self.applied > 0 || self.owed > 0
    }

    fn is_sound(&self) -> bool {
        self.cash.saturating_add(self.applied) <= MAX_FUNDS
            && self.letter <= MAX_FUNDS
            && self.hold <= self.letter
            && self.owed <= MAX_OWED
            && self.step <= MAX_STEP
    }
}

#[derive(Clone, Debug, PartialEq, Eq)]
pub struct Book {
    pub paths: Vec<Path>,
    pub bidders: [Bidder; BIDDERS],
    pub account: i64,
    pub entries: usize,
    pub stage: Stage,
}

impl Book {
    /// A fresh book with these directions and zones.
    pub fn fresh(paths: &[(Direction, u32)]) -> Result<Book, u32> {
        let sound = (1..=MAX_PATHS).contains(&paths.len())
            && paths.iter().all(|&(_, zone)| zone < ZONES as u32);
        unless(sound, refusal::QUANTITY)?;
        let path = |&(direction, zone): &(Direction, u32)| Path {
            direction,
            zone,
            offer: 0,
            sold: 0,
        };
        Ok(Book {
            paths: paths.iter().map(path).collect(),
            bidders: [Bidder::default(); BIDDERS],
            account: 0,
            entries: 0,
            stage: Stage::Idle,
        })
    }

    /// Refuses a book that is not sound.
    pub fn check(&self) -> Result<(), u32> {
        let sound = (1..=MAX_PATHS).contains(&self.paths.len())
            && self.paths.iter().all(Path::is_sound)
            && self.entries <= MAX_ENTRIES
            && self.bidders.iter().all(Bidder::is_sound)
            && (-MAX_ACCOUNT..=MAX_ACCOUNT).contains(&self.account)
            && self.stage_is_sound();
        unless(sound, refusal::UNSOUND)
    }

    fn stage_is_sound(&self) -> bool {
        let Stage::Open { kind, round, period } = self.stage else {
            return true;
        };
        period.is_sound()
            && match round {
                1 => self.paths.iter().all(|path| path.sold == 0) && !self.any_value(),
                2 => kind == Kind::Long && self.bidders.iter().all(|b| b.owed <= MAX_OWED_BETWEEN),
                _ => false,
            }
    }

    pub fn any_value(&self) -> bool {
        self.bidders.iter().any(Bidder::has_value)
    }

    /// Refuses unless the stage is idle.
    pub fn need_idle(&self) -> Result<(), u32> {
        unless(self.stage == Stage::Idle, refusal::STAGE)
    }

    /// The account after a gain, refused where it would pass its limit.
    pub fn account_with(&self, gain: u64) -> Result<i64, u32> {
        let account = self.account + gain as i64;
        unless(account <= MAX_ACCOUNT, refusal::ACCOUNT)?;
        Ok(account)
    }
}

/// The place of a bidder in the book, refused over 31.
pub fn bidder_place(bidder: u32) -> Result<usize, u32> {
    unless((bidder as usize) < BIDDERS, refusal::BIDDER)?;
    Ok(bidder as usize)
}
