//! Segments about the borders of words: the library keeps one bit for each byte of a node, in words
//! of 64.

use super::below;
use model::{listed, words::*};

pub const WORD: usize = 64;
const WORDS: usize = NODE_BYTES / WORD;
/// Lengths about one word and two, the least and the greatest.
pub const LENGTHS: [usize; 10] = [1, 2, 63, 64, 65, 127, 128, 129, 4095, 4096];

listed! {
    /// Where a byte lies: the first of a word, the last of one, or the second.
    pub enum Beside { At, Before, After }
}

impl Beside {
    /// Such a byte of a word.
    pub fn byte_of(&self, word: usize) -> usize {
        word * WORD
            + match self {
                Beside::At => 0,
                Beside::Before => WORD - 1,
                Beside::After => 1,
            }
    }
}

/// One of the lengths, of `most` bytes at most.
fn length(random: &mut Random, most: usize) -> usize {
    let fitting: Vec<usize> = LENGTHS.into_iter().filter(|length| *length <= most).collect();
    *random.pick(&fitting).expect("one byte always fits")
}

/// An extent that begins about the border of a word.
pub fn extent(random: &mut Random) -> Extent {
    let base = Beside::ALL[below(random, Beside::ALL.len())].byte_of(below(random, WORDS));
    let length = length(random, NODE_BYTES - base);
    Extent { base, length }
}

/// Two that share one byte: the last of the first is the first of the second.
pub fn sharing_a_byte(random: &mut Random, beside: Beside) -> [Extent; 2] {
    let shared = beside.byte_of(below(random, WORDS));
    let before = length(random, shared + 1);
    let first = Extent { base: shared + 1 - before, length: before };
    let second = Extent { base: shared, length: length(random, NODE_BYTES - shared) };
    [first, second]
}

/// One of three words or more, and one in a word of it that is neither its first nor its last.
pub fn one_inside(random: &mut Random) -> [Extent; 2] {
    let first = below(random, WORDS - 2);
    let last = first + 2 + below(random, WORDS - 2 - first);
    let from = first * WORD + below(random, WORD);
    let to = last * WORD + 1 + below(random, WORD);
    let outer = Extent { base: from, length: to - from };
    let word = (first + 1 + below(random, last - first - 1)) * WORD;
    let inner = match random.below(3) {
        0 => Extent { base: word, length: WORD },
        1 => Extent { base: word + WORD - 1, length: 1 },
        _ => Extent { base: word + below(random, WORD), length: 1 },
    };
    [outer, inner]
}
