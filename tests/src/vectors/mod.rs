//! The published handles, registers and cuts: texts that a laboratory can check with a program of its own.
//! `docs/vectors/README.md` explains the lines.

pub mod cuts;
mod refused;
pub mod registers;
mod tables;

use crate::{hexadecimal::encode, words::*};
use tables::{Pair, Path, TABLES, WIDE_PATHS_OF_EIGHT};

const HEADER: &str = "\
# Handles for checking a program that weakens, reduces, joins or validates them. README.md beside
# this file explains the lines. Counts and numbers are decimal, the rest is hexadecimal.
";

struct Cluster {
    name: &'static str,
    width: Width,
    node: u16,
    local: u8,
    read: Password,
    write: Password,
}

const fn cluster(name: &'static str, width: Width, node: u16, local: u8, read: u128, write: Password) -> Cluster {
    Cluster { name, width, node, local, read: read.to_be_bytes(), write }
}

const EIGHTS: [Cluster; 4] = [
    cluster("a", Width::Eight, 0, 2, 0x11111111_11111111_11111111_11111111, [0x22; 16]),
    cluster("b", Width::Eight, 3, 7, 0x00010203_04050607_08090a0b_0c0d0e0f, *b"sixteen  letters"),
    cluster("c", Width::Eight, 1, 0, 0, [0xff; 16]),
    // The key of FIPS 197, appendix B, and the outcome there.
    cluster("d", Width::Eight, 2, 5, 0x2b7e1516_28aed2a6_abf71588_09cf4f3c, OUTCOME),
];
const OUTCOME: Password = 0x3925841d_02dc09fb_dc118597_196a0b32_u128.to_be_bytes();

const OTHERS: [Cluster; 2] = [
    cluster("e, of four segments", Width::Four, 0, 4, 0xa0a1a2a3_a4a5a6a7_a8a9aaab_acadaeaf, [0x5a; 16]),
    cluster(
        "f, of sixteen segments",
        Width::Sixteen,
        0,
        5,
        0x0f1e2d3c_4b5a6978_8796a5b4_c3d2e1f0,
        *b"full of segments",
    ),
];

const PARAMETERS: [u16; 8] = [0x00, 0x01, 0x20, 0x7f, 0x80, 0xf3, 0xfe, 0xff];
const WIDE_PARAMETERS: [u16; 8] = [0x0000, 0x000e, 0x00ff, 0x0100, 0x0102, 0x7fff, 0xfffe, 0xffff];

/// The whole text: what concerns handles of 23 bytes alone, and what concerns those of 21 and of 27 bytes, masks with
/// bits above the width, and 25.
pub fn text() -> String {
    let [first, ..] = &EIGHTS;
    let others = |of: fn(&Cluster) -> String| OTHERS.iter().map(of).collect::<String>();
    [
        HEADER.to_string(),
        "\n# Conversion by itself.\n".to_string(),
        conversions(&EIGHTS, &PARAMETERS),
        EIGHTS.iter().map(families).collect(),
        refused::apart(first),
        refused::validations(first),
        "\n# Conversion by itself, with parameters of sixteen bits.\n".to_string(),
        conversions(&OTHERS, &WIDE_PARAMETERS),
        others(|cluster| families(cluster) + &refused::spent(cluster)),
        masks_of_sixteen_bits(first),
        others(|cluster| refused::apart(cluster) + &refused::validations(cluster)),
        refused::other_widths(first),
        others(refused::other_widths),
        refused::no_length(first),
    ]
    .concat()
}

/// As many hexadecimal digits as the parameters and masks of these widths have.
fn digits(width: Width, number: u16) -> String {
    match width == Width::Eight && number <= width.flat() {
        true => format!("{number:02x}"),
        false => format!("{number:04x}"),
    }
}

fn hex(handle: Handle) -> String {
    encode(&handle.to_bytes())
}

fn conversions(clusters: &[Cluster], parameters: &[u16]) -> String {
    let pairs = clusters.iter().flat_map(|cluster| parameters.iter().map(move |parameter| (cluster, *parameter)));
    let line = |(cluster, parameter): (&Cluster, u16)| {
        let outcome = encode(&convert(&cluster.read, parameter));
        let (password, parameter) = (encode(&cluster.read), digits(cluster.width, parameter));
        format!("conversion password={password} parameter={parameter} outcome={outcome}\n")
    };
    pairs.map(line).collect()
}

/// What all handles made from one primary handle have in common.
struct Family<'a> {
    cluster: &'a Cluster,
    mode: &'static str,
    primary: &'a Password,
}

/// That of each mode.
fn both_modes(cluster: &Cluster) -> [Family<'_>; 2] {
    let family = |mode, primary| Family { cluster, mode, primary };
    [family("read", &cluster.read), family("write", &cluster.write)]
}

/// The primary handle of each mode and all that is made from it.
fn families(cluster: &Cluster) -> String {
    let Cluster { name, width, node, local, .. } = cluster;
    let table = &TABLES[*width as usize];
    let text = both_modes(cluster).map(|family| {
        let (mode, secret, handle) = (family.mode, family.secret(), family.handle());
        let (bytes, count) = (hex(handle), handle.selector.count());
        let weakened: String = table.paths.iter().map(|masks| family.weakenings(masks)).collect();
        let joined: String = table.joined.iter().map(|pair| family.joining(pair)).collect();
        let whole: String = table.whole.iter().map(|pair| family.pair("whole", family.both(pair), WHOLE)).collect();
        format!(
            "\n# Cluster {name}, to {mode}.\n\
            primary {secret} node={node:04x} local={local:02x} handle={bytes} count={count}\n\
            {weakened}# Joined.\n{joined}{whole}"
        )
    });
    text.concat()
}

fn masks_of_sixteen_bits(cluster: &Cluster) -> String {
    let of = |family: Family| WIDE_PATHS_OF_EIGHT.map(|masks| family.weakenings(masks)).concat();
    format!("\n# Masks of sixteen bits, cluster {}.\n{}", cluster.name, both_modes(cluster).map(of).concat())
}

impl Family<'_> {
    fn handle(&self) -> Handle {
        Handle::primary(self.cluster.width, self.cluster.node, self.cluster.local, *self.primary)
    }

    fn secret(&self) -> String {
        format!("mode={} primary={}", self.mode, encode(self.primary))
    }

    /// The handle with these subselectors.
    fn converted(&self, selector: Selector) -> Handle {
        Handle::converted(self.cluster.node, self.cluster.local, self.primary, selector)
    }

    /// Each weakening, and each of its outcomes reduced.
    fn weakenings(&self, masks: Path) -> String {
        let mut handle = self.handle();
        let all: Vec<String> = masks.iter().map(|mask| digits(handle.width(), *mask)).collect();
        let between = if all.iter().all(|digits| digits.len() == 2) { "" } else { " " };
        let mut text = format!("# Masks {}.\n", all.join(between));
        for (mask, shown) in masks.iter().zip(&all) {
            let Some(weaker) = handle.weaken(*mask) else {
                return text + &refused::weakening(&handle, *mask);
            };
            let secret = self.secret();
            text += &outcome(&format!("weakened {secret} mask={shown}"), handle, weaker);
            text += &outcome(&format!("reduced {secret}"), weaker, weaker.reduce(self.primary));
            handle = weaker;
        }
        text
    }

    /// The two handles that these masks make from the primary one.
    fn both(&self, (first, second): &Pair) -> [Handle; 2] {
        let weaken = |handle: Handle, mask: &u16| handle.weaken(*mask).expect("some are left");
        [first, second].map(|masks| masks.iter().fold(self.handle(), weaken))
    }

    fn joining(&self, pair: &Pair) -> String {
        let [one, two] = self.both(pair);
        let new = one.join(&two, self.primary);
        let (secret, count) = (self.secret(), new.selector.count());
        format!("joined {secret} one={} two={} new={} count={count}\n", hex(one), hex(two), hex(new))
    }

    /// Two handles that are not joined.
    fn pair(&self, kind: &str, [one, two]: [Handle; 2], number: u8) -> String {
        format!("{kind} {} one={} two={} number={number}\n", self.secret(), hex(one), hex(two))
    }
}

fn outcome(what: &str, old: Handle, new: Handle) -> String {
    format!("{what} old={} new={} count={}\n", hex(old), hex(new), new.selector.count())
}
