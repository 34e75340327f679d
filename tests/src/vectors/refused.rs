//! What is refused, beside the pairs that are all of the width; and validation by itself.

use super::{both_modes, digits, hex, Cluster, Family};
use crate::{cuts::step, hexadecimal::encode, words::*};

/// A weakening that is refused: its kind is the number's word.
pub fn weakening(old: &Handle, mask: u16) -> String {
    let number = step(*old, mask).expect_err("it is refused");
    let kind = word(number).expect("the number is of the table");
    format!("{kind} old={} mask={} number={number}\n", hex(*old), digits(old.width(), mask))
}

/// No subselector is flat, and two segments are referenced, so that at any width something can be excluded.
pub fn spent(cluster: &Cluster) -> String {
    let [first, second] = [cluster.width.flat() - 0b0001, 0b1100];
    let selector = Selector::new(cluster.width, [first, second, first, second]);
    let lines =
        |family: Family| [0xfff7, 0x0004, 0x0003].map(|mask| weakening(&family.converted(selector), mask)).concat();
    format!("\n# No subselector is flat, cluster {}.\n{}", cluster.name, both_modes(cluster).map(lines).concat())
}

/// Two handles with equal passwords, of two clusters that have the same primary one: another node, another local
/// number, or both.
pub fn apart(cluster: &Cluster) -> String {
    let mut text = format!("\n# Apart, cluster {} and others.\n", cluster.name);
    let Cluster { node, local, .. } = *cluster;
    for (node, local) in [(node + 1, local), (node, local + 1), (node + 3, local - 2)] {
        for family in both_modes(cluster) {
            let one = family.handle().weaken(0x1818).expect("all are flat");
            text += &family.pair("apart", [one, Handle { node, local, ..one }], APART);
        }
    }
    text
}

/// Handles of one active cluster with the number that validating them gives in each mode.
pub fn validations(cluster: &Cluster) -> String {
    let mut text = format!("\n# Validation by itself, cluster {}.\n", cluster.name);
    for handle in right_and_wrong(cluster) {
        for family in both_modes(cluster) {
            let number = match (handle.selector.is_gapped(), handle.is_made_from(family.primary)) {
                (true, _) => GAPPED,
                (_, true) => DONE,
                (_, false) => VIOLATED_PROTECTION,
            };
            text += &format!("validation {} handle={} number={number}\n", family.secret(), hex(handle));
        }
    }
    text
}

/// Four handles that open something; then some made from them by changing one part.
fn right_and_wrong(cluster: &Cluster) -> Vec<Handle> {
    let [reader, writer] = both_modes(cluster).map(|family| family.handle());
    // Without the last segment and segment 1, and then with two others alone, or one where there are but four.
    let flat = cluster.width.flat();
    let (without, two) = ((flat >> 1) & !0b0010, (flat - (flat >> 2)) >> 2);
    let weaker = reader.weaken(without).and_then(|handle| handle.weaken(two));
    let weaker = weaker.expect("two subselectors are flat");
    let mut handles = vec![reader, writer, weaker, weaker.reduce(&cluster.read)];

    let [first, second, ..] = weaker.selector.subselectors;
    let selectors = [
        [second, first, flat, flat],
        [first, flat, flat, flat],
        [weaker.selector.referenced(), flat, flat, flat],
        [flat; SUBSELECTORS],
        [first, flat, second, flat],
        [flat, first, second, flat],
    ];
    for subselectors in selectors {
        handles.push(Handle { selector: Selector::new(cluster.width, subselectors), ..weaker });
    }
    let mut flipped = weaker;
    flipped.password[PASSWORD_BYTES - 1] ^= 1;
    handles.extend([flipped, Handle { password: convert(&cluster.read, flat), ..reader }]);
    handles
}

/// Validation where the handle's length does not tell the cluster's width.
fn of_no_width(family: &Family, handle: &[u8]) -> String {
    let (secret, width, handle) = (family.secret(), family.cluster.width.segments(), encode(handle));
    format!("validation {secret} width={width} handle={handle} number={LENGTH}\n")
}

fn not_joined(family: &Family, [one, two]: [&HandleBytes; 2]) -> String {
    let (secret, width) = (family.secret(), family.cluster.width.segments());
    format!("length {secret} width={width} one={} two={} number={LENGTH}\n", encode(one), encode(two))
}

/// Handles of the other widths with the cluster's passwords: none validates, and none is joined with one that does.
pub fn other_widths(cluster: &Cluster) -> String {
    let mut text = format!("\n# Handles of other widths, cluster {}.\n", cluster.name);
    for width in Width::ALL.into_iter().filter(|width| *width != cluster.width) {
        for family in both_modes(cluster) {
            let right = family.handle().weaken(1).expect("all are flat").to_bytes();
            let wrong = Handle { selector: Selector::primary(width), ..family.handle() };
            let weaker = wrong.weaken(6).expect("all are flat").to_bytes();
            // The same four numbers as a handle that would validate has.
            let same = family.converted(Selector::new(width, [0b0110; 4])).to_bytes();
            for handle in [&wrong.to_bytes(), &weaker, &same] {
                text += &of_no_width(&family, handle);
            }
            for pair in [[&right, &weaker], [&weaker, &right], [&weaker, &weaker]] {
                text += &not_joined(&family, pair);
            }
        }
    }
    text
}

/// Bytes of lengths that no handle has: the primary handle cut, and with zeros after it.
pub fn no_length(cluster: &Cluster) -> String {
    let mut text = "\n# Lengths that no handle has.\n".to_string();
    let [family, _] = both_modes(cluster);
    let weaker = family.handle().weaken(1).expect("all are flat").to_bytes();
    for length in [1, 19, 20, 22, 24, 25, 26, 28, 32] {
        let mut bytes = family.handle().to_bytes();
        bytes.resize(length, 0);
        text += &format!("length old={} mask=00ff number={LENGTH}\n", encode(&bytes));
        text += &of_no_width(&family, &bytes);
        text += &not_joined(&family, [&bytes, &weaker]);
        text += &not_joined(&family, [&weaker, &bytes]);
    }
    text
}
