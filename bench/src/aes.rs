//! The text of crates/field and crates/aes in Rust, function by function: what the measurements compare with.
//! The substitution table is read from the proved source, so that its numbers stand once in the repository.

pub type Tables = [u8; 256];

const SBOX: Tables = read_table(include_bytes!("../../crates/field/src/table.rt"));

/// The numbers that stand as `0x..` in the text.
const fn read_table(text: &[u8]) -> Tables {
    let mut table = [0u8; 256];
    let mut filled = 0;
    let mut at = 0;
    while at + 3 < text.len() {
        if text[at] == b'0' && text[at + 1] == b'x' {
            table[filled] = nibble(text[at + 2]) * 16 + nibble(text[at + 3]);
            filled += 1;
        }
        at += 1;
    }
    assert!(filled == 256);
    table
}

const fn nibble(digit: u8) -> u8 {
    if digit < b'a' {
        digit - b'0'
    } else {
        digit - b'a' + 10
    }
}

fn doubled(b: u8) -> u8 {
    (b << 1) ^ ((b >> 7) * 0x1b)
}

fn round_constant(round: usize) -> u8 {
    match round {
        1 => 0x01,
        2 => 0x02,
        3 => 0x04,
        4 => 0x08,
        5 => 0x10,
        6 => 0x20,
        7 => 0x40,
        8 => 0x80,
        9 => 0x1b,
        _ => 0x36,
    }
}

fn substitute(tables: &Tables, b: u8) -> u8 {
    let x = b as usize;
    tables[x]
}

fn sub_bytes(tables: &Tables, s: [u8; 16]) -> [u8; 16] {
    let mut r = [0u8; 16];
    for i in 0..16usize {
        r[i] = substitute(tables, s[i]);
    }
    r
}

fn shift_rows(s: [u8; 16]) -> [u8; 16] {
    [
        s[0], s[5], s[10], s[15], s[4], s[9], s[14], s[3], s[8], s[13], s[2], s[7], s[12], s[1],
        s[6], s[11],
    ]
}

fn mix(a: u8, b: u8, c: u8, d: u8) -> u8 {
    (doubled(a) ^ (doubled(b) ^ b)) ^ (c ^ d)
}

fn mix_column(a: u8, b: u8, c: u8, d: u8) -> [u8; 4] {
    [
        mix(a, b, c, d),
        mix(b, c, d, a),
        mix(c, d, a, b),
        mix(d, a, b, c),
    ]
}

fn mix_columns(s: [u8; 16]) -> [u8; 16] {
    let a = mix_column(s[0], s[1], s[2], s[3]);
    let b = mix_column(s[4], s[5], s[6], s[7]);
    let c = mix_column(s[8], s[9], s[10], s[11]);
    let d = mix_column(s[12], s[13], s[14], s[15]);
    [
        a[0], a[1], a[2], a[3], b[0], b[1], b[2], b[3], c[0], c[1], c[2], c[3], d[0], d[1], d[2],
        d[3],
    ]
}

fn add_round_key(s: [u8; 16], k: [u8; 16]) -> [u8; 16] {
    let mut r = [0u8; 16];
    for i in 0..16usize {
        r[i] = s[i] ^ k[i];
    }
    r
}

fn next_round_key(tables: &Tables, k: [u8; 16], round: usize) -> [u8; 16] {
    let mut r = [0u8; 16];
    r[0] = k[0] ^ (substitute(tables, k[13]) ^ round_constant(round));
    r[1] = k[1] ^ substitute(tables, k[14]);
    r[2] = k[2] ^ substitute(tables, k[15]);
    r[3] = k[3] ^ substitute(tables, k[12]);
    for i in 4..16usize {
        r[i] = k[i] ^ r[i - 4];
    }
    r
}

pub fn tables() -> Tables {
    SBOX
}

pub fn encrypt_with(tables: &Tables, key: [u8; 16], block: [u8; 16]) -> [u8; 16] {
    let mut k = key;
    let mut s = add_round_key(block, k);
    for i in 0..9usize {
        let next = next_round_key(tables, k, i + 1);
        let t = add_round_key(mix_columns(shift_rows(sub_bytes(tables, s))), next);
        k = next;
        s = t;
    }
    add_round_key(
        shift_rows(sub_bytes(tables, s)),
        next_round_key(tables, k, 10),
    )
}

pub fn encrypt(key: [u8; 16], block: [u8; 16]) -> [u8; 16] {
    let t = tables();
    encrypt_with(&t, key, block)
}
