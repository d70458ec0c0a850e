//! Rows between guard words.

const GUARD: usize = 6;

pub struct Fenced {
    pub words: Vec<u64>,
    before: usize,
    pub len: usize,
    null: bool,
}

pub fn guard_word(at: usize) -> u64 {
    0xfeed_5afe_0000_0000 ^ (at as u64).wrapping_mul(0x0101_0101_0101)
}

impl Fenced {
    pub fn around(row: &[u64], shift: usize, null: bool) -> Fenced {
        let before = GUARD + shift;
        let mut words: Vec<u64> = Vec::with_capacity(before + row.len() + GUARD);
        words.extend((0..before).map(guard_word));
        words.extend_from_slice(row);
        words.extend((words.len()..words.len() + GUARD).map(guard_word));
        Fenced { words, before, len: row.len(), null: null && row.is_empty() }
    }

    pub fn pointer(&mut self) -> *mut u64 {
        if self.null {
            return std::ptr::null_mut();
        }
        self.words[self.before..].as_mut_ptr()
    }

    pub fn row(&self) -> &[u64] {
        &self.words[self.before..self.before + self.len]
    }

    pub fn first_bad_guard(&self) -> Option<usize> {
        let after = self.before + self.len;
        (0..self.before).chain(after..self.words.len()).find(|&at| self.words[at] != guard_word(at))
    }
}
