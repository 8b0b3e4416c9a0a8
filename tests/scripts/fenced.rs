//! Memory to lend, with a fence on both sides that shows writes outside.

use crate::machine::Answer;

pub const FENCE_WORD: u64 = 0xfe4c_e000_0000_fe4c;
pub const FENCE_ANSWER: Answer = Answer { code: FENCE_WORD, first: FENCE_WORD, second: FENCE_WORD };

const WIDTH: usize = 4;

pub struct Fenced<T> {
    elements: Vec<T>,
    fence: T,
}

impl<T: Copy + PartialEq> Fenced<T> {
    pub fn new(content: &[T], fence: T) -> Fenced<T> {
        let fences = [fence; WIDTH];
        Fenced { elements: [&fences, content, &fences].concat(), fence }
    }

    /// The pointer to the content, never null, and its length.
    pub fn lend(&mut self) -> (*mut T, usize) {
        (self.elements.as_mut_ptr().wrapping_add(WIDTH), self.elements.len() - 2 * WIDTH)
    }

    pub fn content(&self) -> &[T] {
        &self.elements[WIDTH..self.elements.len() - WIDTH]
    }

    pub fn intact(&self) -> bool {
        let (before, rest) = self.elements.split_at(WIDTH);
        let after = &rest[rest.len() - WIDTH..];
        before.iter().chain(after).all(|&element| element == self.fence)
    }
}
