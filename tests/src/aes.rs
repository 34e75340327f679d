//! AES-128 encryption of one block (FIPS 197), a column of the state being one 32-bit word.
//!
//! A round is sixteen look-ups: each table joins the substitution of a byte with what mixing the
//! columns makes of it. All tables are worked out while compiling, from powers of the element 3;
//! none is typed in.

/// Bytes of a block, and of a key.
pub const BLOCK_BYTES: usize = 16;
pub type Block = [u8; BLOCK_BYTES];

const ROUNDS: usize = 10;
const COLUMNS: usize = 4;
/// How many elements the field has besides zero; the powers of 3 run through all of them.
const GROUP_ORDER: usize = 255;
/// The field's polynomial without its leading term.
const REDUCTION: u8 = 0x1b;
const AFFINE_CONSTANT: u8 = 0x63;

/// The state, or a round key.
pub type State = [u32; COLUMNS];

const SUBSTITUTION: [u8; 256] = substitution();
const MIXED: [[u32; 256]; COLUMNS] = mixed();

const fn double(element: u8) -> u8 {
    let carried = element >> 7;
    (element << 1) ^ (carried * REDUCTION)
}

/// `powers[i]` is 3 to the i; `logs` is its inverse, apart from `logs[0]`, which means nothing.
const fn powers_and_logs() -> ([u8; 256], [u8; 256]) {
    let mut powers = [1; 256];
    let mut logs = [0; 256];
    let mut i = 1;
    while i < GROUP_ORDER {
        powers[i] = powers[i - 1] ^ double(powers[i - 1]);
        logs[powers[i] as usize] = i as u8;
        i += 1;
    }
    (powers, logs)
}

const fn affine(element: u8) -> u8 {
    element
        ^ element.rotate_left(1)
        ^ element.rotate_left(2)
        ^ element.rotate_left(3)
        ^ element.rotate_left(4)
        ^ AFFINE_CONSTANT
}

const fn substitution() -> [u8; 256] {
    let (powers, logs) = powers_and_logs();
    let mut table = [affine(0); 256];
    let mut element = 1;
    while element < 256 {
        table[element] = affine(powers[GROUP_ORDER - logs[element] as usize]);
        element += 1;
    }
    table
}

/// Table r holds, for a byte of row r, the column that substituting and mixing turn it into.
const fn mixed() -> [[u32; 256]; COLUMNS] {
    let mut tables = [[0; 256]; COLUMNS];
    let mut byte = 0;
    while byte < 256 {
        let once = SUBSTITUTION[byte];
        let twice = double(once);
        let column = u32::from_be_bytes([twice, once, once, twice ^ once]);
        let mut row = 0;
        while row < COLUMNS {
            tables[row][byte] = column.rotate_right(8 * row as u32);
            row += 1;
        }
        byte += 1;
    }
    tables
}

/// Byte `row` of a column, counted from the top.
fn byte_of(column: u32, row: usize) -> usize {
    (column >> (24 - 8 * row) & 0xff) as usize
}

fn substitute_word(word: u32) -> u32 {
    u32::from_be_bytes(word.to_be_bytes().map(|byte| SUBSTITUTION[byte as usize]))
}

fn words(block: &Block) -> State {
    std::array::from_fn(|column| {
        let at = 4 * column;
        u32::from_be_bytes([block[at], block[at + 1], block[at + 2], block[at + 3]])
    })
}

fn bytes(state: &State) -> Block {
    std::array::from_fn(|at| state[at / 4].to_be_bytes()[at % 4])
}

/// The round key that follows `key`.
fn next_key(key: &State, round_constant: u8) -> State {
    let mut next = *key;
    next[0] ^= substitute_word(key[3].rotate_left(8)) ^ (u32::from(round_constant) << 24);
    next[1] ^= next[0];
    next[2] ^= next[1];
    next[3] ^= next[2];
    next
}

/// The round keys in order, the key itself first.
pub fn expand_key(key: &Block) -> [State; ROUNDS + 1] {
    let mut keys = [words(key); ROUNDS + 1];
    let mut round_constant = 1;
    for round in 1..=ROUNDS {
        keys[round] = next_key(&keys[round - 1], round_constant);
        round_constant = double(round_constant);
    }
    keys
}

/// The byte that shifting the rows brings into row `row` of column `column`.
fn shifted(state: &State, column: usize, row: usize) -> usize {
    byte_of(state[(column + row) % COLUMNS], row)
}

fn round(state: &State, key: &State) -> State {
    std::array::from_fn(|column| {
        MIXED[0][shifted(state, column, 0)]
            ^ MIXED[1][shifted(state, column, 1)]
            ^ MIXED[2][shifted(state, column, 2)]
            ^ MIXED[3][shifted(state, column, 3)]
            ^ key[column]
    })
}

/// The last round mixes no columns.
fn last_round(state: &State, key: &State) -> State {
    std::array::from_fn(|column| {
        let substituted = std::array::from_fn(|row| SUBSTITUTION[shifted(state, column, row)]);
        u32::from_be_bytes(substituted) ^ key[column]
    })
}

/// Encrypts `block` under `key`.
pub fn encrypt(key: &Block, block: &Block) -> Block {
    let keys = expand_key(key);
    let plain = words(block);
    let mut state = std::array::from_fn(|column| plain[column] ^ keys[0][column]);
    for key in &keys[1..ROUNDS] {
        state = round(&state, key);
    }
    bytes(&last_round(&state, &keys[ROUNDS]))
}

#[cfg(test)]
mod tests {
    use super::*;

    fn block(text: &str) -> Block {
        crate::hexadecimal::decode(text).unwrap().try_into().unwrap()
    }

    #[test]
    fn substitution_as_printed() {
        assert_eq!(SUBSTITUTION[0x00], 0x63);
        assert_eq!(SUBSTITUTION[0x01], 0x7c);
        assert_eq!(SUBSTITUTION[0x53], 0xed);
        assert_eq!(SUBSTITUTION[0xff], 0x16);
        let mut sorted = SUBSTITUTION;
        sorted.sort_unstable();
        assert!((0..=255).eq(sorted), "the table is a permutation");
    }

    #[test]
    fn appendix_a_1_key_expansion() {
        let schedule = expand_key(&block("2b7e151628aed2a6abf7158809cf4f3c"));
        let printed = [
            0x2b7e1516, 0x28aed2a6, 0xabf71588, 0x09cf4f3c, 0xa0fafe17, 0x88542cb1, 0x23a33939, 0x2a6c7605, 0xf2c295f2,
            0x7a96b943, 0x5935807a, 0x7359f67f, 0x3d80477d, 0x4716fe3e, 0x1e237e44, 0x6d7a883b, 0xef44a541, 0xa8525b7f,
            0xb671253b, 0xdb0bad00, 0xd4d1c6f8, 0x7c839d87, 0xcaf2b8bc, 0x11f915bc, 0x6d88a37a, 0x110b3efd, 0xdbf98641,
            0xca0093fd, 0x4e54f70e, 0x5f5fc9f3, 0x84a64fb2, 0x4ea6dc4f, 0xead27321, 0xb58dbad2, 0x312bf560, 0x7f8d292f,
            0xac7766f3, 0x19fadc21, 0x28d12941, 0x575c006e, 0xd014f9a8, 0xc9ee2589, 0xe13f0cc8, 0xb6630ca6,
        ];
        assert_eq!(schedule.as_flattened(), printed);
    }

    #[test]
    fn appendix_b_cipher() {
        let key = block("2b7e151628aed2a6abf7158809cf4f3c");
        let plain = block("3243f6a8885a308d313198a2e0370734");
        assert_eq!(encrypt(&key, &plain), block("3925841d02dc09fbdc118597196a0b32"));
    }

    #[test]
    fn appendix_c_1_cipher() {
        let key = block("000102030405060708090a0b0c0d0e0f");
        let plain = block("00112233445566778899aabbccddeeff");
        assert_eq!(encrypt(&key, &plain), block("69c4e0d86a7b0430d8cdb78070b4c55a"));
    }
}
