//! The transmission rights auction engine: the functions of libtra_engine.a, safe to call.
//!
//! The exported functions take any numbers and any bytes, and test all that they need themselves. What they cannot test is what a
//! Rust reference already is: a true length, an aligned address, and buffers that do not overlap.

/// A refusal that the calling program causes: 1 for a short buffer, 2 for words that are no book.
pub type Refusal = u32;

/// Room for any output of a sheet, and for any reply to a line.
pub const OUT_BYTES: usize = 65_536;
/// The words of a book.
pub const BOOK_WORDS: usize = 263;
/// The words of the register: 1,024 entries of six.
pub const REGISTER_WORDS: usize = 6_144;
/// Room for the words of a line.
pub const ROOM_WORDS: usize = 32_768;

/// The exported functions themselves. A slice passes as its address and its length. Nothing checks these lines against the
/// library, so they stand beside `tra.h` and say the same.
mod exported {
    extern "C" {
        pub fn tra_release() -> u32;
        pub fn tra_rules() -> u32;
        pub fn tra_sheet(sheet: *const u8, sheet_bytes: usize, out: *mut u8, out_bytes: usize, used: *mut usize) -> u32;
        pub fn tra_line(
            book: *mut u64,
            book_words: usize,
            account: *mut i64,
            entries: *mut u32,
            entry_words: usize,
            line: *const u8,
            line_bytes: usize,
            room: *mut u32,
            room_words: usize,
            out: *mut u8,
            out_bytes: usize,
            used: *mut usize,
        ) -> u32;
    }
}

/// The engine's release.
pub fn release() -> u32 {
    // SAFETY: it takes nothing.
    unsafe { exported::tra_release() }
}

/// The edition of its rules.
pub fn rules() -> u32 {
    // SAFETY: it takes nothing.
    unsafe { exported::tra_rules() }
}

/// What a function answered: how many bytes it wrote, or the refusal's number. A length that is past the buffer is no answer of
/// the engine's.
fn written(number: u32, used: usize, room: usize) -> Result<usize, Refusal> {
    match number {
        0 => {
            assert!(used <= room);
            Ok(used)
        }
        refusal => Err(refusal),
    }
}

/// The output of a sheet, to the front of `out`, which has [`OUT_BYTES`] bytes or more; how many bytes it has.
pub fn sheet(sheet: &[u8], out: &mut [u8]) -> Result<usize, Refusal> {
    let mut used = 0;
    // SAFETY: both slices and the number are lent for the call alone, with their own lengths, and only `out` and `used` are
    // written.
    let number = unsafe { exported::tra_sheet(sheet.as_ptr(), sheet.len(), out.as_mut_ptr(), out.len(), &mut used) };
    written(number, used, out.len())
}

/// The state of a journal, in memory that the caller keeps and may store: the book's words, the account, and the register.
pub struct State<'a> {
    pub book: &'a mut [u64],
    pub account: &'a mut i64,
    pub entries: &'a mut [u32],
}

/// One line of a journal, without its byte 10, made on a state; the reply goes to the front of `out`, and how many bytes it has
/// is returned. `room` is for the words of the line.
pub fn line(state: State, line: &[u8], room: &mut [u32], out: &mut [u8]) -> Result<usize, Refusal> {
    let mut used = 0;
    // SAFETY: every slice and number is lent for the call alone, with its own length, and no two of those that are written
    // overlap, since they are lent exclusively.
    let number = unsafe {
        exported::tra_line(
            state.book.as_mut_ptr(),
            state.book.len(),
            state.account,
            state.entries.as_mut_ptr(),
            state.entries.len(),
            line.as_ptr(),
            line.len(),
            room.as_mut_ptr(),
            room.len(),
            out.as_mut_ptr(),
            out.len(),
            &mut used,
        )
    };
    written(number, used, out.len())
}

/// A journal with its own memory: a book and a register, and room for a line and its reply.
pub struct Journal {
    book: Vec<u64>,
    account: i64,
    entries: Vec<u32>,
    room: Vec<u32>,
    out: Vec<u8>,
}

impl Default for Journal {
    fn default() -> Journal {
        Journal::new()
    }
}

impl Clone for Journal {
    /// A journal in the same state.
    fn clone(&self) -> Journal {
        let mut journal = Journal::new();
        journal.clone_from(self);
        journal
    }

    /// Takes the state of another journal into this one's memory.
    fn clone_from(&mut self, other: &Journal) {
        self.book.copy_from_slice(&other.book);
        self.account = other.account;
        self.entries.copy_from_slice(&other.entries);
    }
}

impl Journal {
    /// A journal before its first line.
    pub fn new() -> Journal {
        Journal {
            book: vec![0; BOOK_WORDS],
            account: 0,
            entries: vec![0; REGISTER_WORDS],
            room: vec![0; ROOM_WORDS],
            out: vec![0; OUT_BYTES],
        }
    }

    /// One line, without its byte 10, and the reply to it, with its own.
    pub fn line(&mut self, line: &[u8]) -> &[u8] {
        let state = State { book: &mut self.book, account: &mut self.account, entries: &mut self.entries };
        let used = self::line(state, line, &mut self.room, &mut self.out).expect("a journal's own memory is as long as stated");
        &self.out[..used]
    }

    /// The words of the book, as `tra.h` lists them.
    pub fn book(&self) -> &[u64] {
        &self.book
    }

    /// The clearing account.
    pub fn account(&self) -> i64 {
        self.account
    }

    /// The words of the register; the book's second word is how many entries count.
    pub fn entries(&self) -> &[u32] {
        &self.entries
    }
}

#[cfg(test)]
mod tests {
    use super::*;

    #[test]
    fn short_buffers_are_refused_and_left() {
        let mut out = vec![7; OUT_BYTES - 1];
        assert_eq!(sheet(b"TRA S 1 2\n", &mut out), Err(1));
        assert!(out.iter().all(|&byte| byte == 7));
    }

    #[test]
    fn each_lent_buffer_of_a_line_is_tested() {
        let full = [BOOK_WORDS, REGISTER_WORDS, ROOM_WORDS, OUT_BYTES];
        for short in 0..full.len() {
            let size = |k: usize| full[k] - usize::from(k == short);
            let (mut book, mut account) = (vec![0; size(0)], 5);
            let (mut entries, mut room, mut out) = (vec![1; size(1)], vec![2; size(2)], vec![3; size(3)]);
            let state = State { book: &mut book, account: &mut account, entries: &mut entries };
            assert_eq!(line(state, b"fresh X 1", &mut room, &mut out), Err(1));
            assert!(book.iter().all(|&word| word == 0) && account == 5);
            assert!(entries.iter().all(|&word| word == 1) && room.iter().all(|&word| word == 2));
            assert!(out.iter().all(|&byte| byte == 3));
        }
    }

    #[test]
    fn words_that_are_no_book_are_refused_and_left() {
        let mut sound = Journal::new();
        assert_eq!(sound.line(b"fresh X 1"), b"= ok\n");
        // a direction, a zone and a stage that no book has, and a day beside an idle stage
        for (place, word) in [(7, 2), (8, 1 << 32), (2, 2), (5, 1)] {
            let mut book = sound.book.clone();
            book[place] = word;
            let before = book.clone();
            let (mut account, mut entries, mut room, mut out) = (0, vec![0; REGISTER_WORDS], vec![0; ROOM_WORDS], vec![0; OUT_BYTES]);
            let state = State { book: &mut book, account: &mut account, entries: &mut entries };
            assert_eq!(line(state, b"rent 5", &mut room, &mut out), Err(2));
            assert_eq!((book, account), (before, 0));
        }
    }

    #[test]
    fn an_unsound_book_gets_the_rules_refusal() {
        let mut journal = Journal::new();
        journal.line(b"fresh X 1");
        journal.account = i64::MIN;
        assert_eq!(journal.line(b"rent 5"), b"= refused 2\n");
        assert_eq!(journal.account, i64::MIN);
    }

    #[test]
    fn a_call_before_a_book_is_refused() {
        let mut journal = Journal::new();
        assert_eq!(journal.line(b"rent 5"), b"= refused 40\n");
        assert_eq!(journal.line(&[b'9'; 70_000]), b"= refused 40\n");
        assert!(journal.book().iter().all(|&word| word == 0));
    }
}
