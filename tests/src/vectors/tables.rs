//! What is done to the primary handles of each width.

/// Masks that a handle is weakened by, one after the other. One that is refused is the last.
pub type Path = &'static [u16];
/// The masks that two handles are made with from the primary one, each going on from the one before.
pub type Pair = (Path, Path);

pub struct Table {
    pub paths: &'static [Path],
    /// Handles that share no segment, in either order; others that share none, with one to four subselectors not flat;
    /// some that share segments; one inside the other; and a handle with itself.
    pub joined: &'static [Pair],
    /// All of the width: by two handles that share none, by two that share some, by the primary one beside another, and
    /// by the primary one twice.
    pub whole: &'static [Pair],
}

/// One for each width. Some masks of the first have bits at or above the width: all of them, one, or no others. The
/// first two pairs of width 8 are as segments 0 to 2 and 3 to 4.
pub const TABLES: [Table; 3] = [
    Table {
        paths: &[
            &[0xfffe, 0x000c, 0x0018, 0xfff0],
            &[0x000e, 0x000d, 0x000b],
            &[0xffff, 0x0004, 0x000f, 0xfffb],
            &[0x0000],
            &[0xfff0],
            &[0x0005, 0xaaa1],
        ],
        joined: &[
            (&[0x0001], &[0x0006]),
            (&[0x0006], &[0x0001]),
            (&[0x000e, 0x000c, 0x0008], &[0x0001]),
            (&[0x0003], &[0x0006]),
            (&[0x0007], &[0x000e, 0x0006]),
            (&[0x0007], &[0x0007, 0x0003]),
            (&[0x000e, 0x000c], &[0x000e, 0x000c]),
        ],
        whole: &[
            (&[0x0003], &[0x000c]),
            (&[0x000e], &[0x0007, 0x0003]),
            (&[], &[0x0004]),
            (&[0x000e, 0x000c], &[]),
            (&[], &[]),
        ],
    },
    Table {
        paths: &[
            &[0x7f, 0x3f, 0x0f, 0x01, 0x00],
            &[0xfe, 0xfd, 0xfb, 0xf7, 0xef],
            &[0xfe, 0x7d, 0x70],
            &[0xfe, 0x7d, 0xf3],
            &[0xff, 0x20, 0xff, 0xdf],
            &[0x00],
            &[0xaa, 0x0f, 0x08],
        ],
        joined: &[
            (&[0x07], &[0x18]),
            (&[0x18], &[0x07]),
            (&[0x0f], &[0x70]),
            (&[0x7f, 0x3f, 0x0f, 0x01], &[0x80]),
            (&[0x0f], &[0x7e, 0x3c]),
            (&[0xfe, 0x7d, 0x70], &[0xaa, 0x0f, 0x08]),
            (&[0x7e], &[0x7e, 0x18]),
            (&[0xfe, 0xfd, 0xfb, 0xf7], &[0x80]),
            (&[0xfe, 0x7d, 0x70], &[0xfe, 0x7d, 0x70]),
        ],
        whole: &[
            (&[0x0f], &[0xf0]),
            (&[0xfe, 0x7e], &[0xf7, 0xf1]),
            (&[], &[0x18]),
            (&[0xfe, 0x7d, 0x70], &[]),
            (&[], &[]),
        ],
    },
    Table {
        paths: &[
            &[0x7fff, 0x3fff, 0x00ff, 0x0001, 0x0000],
            &[0xfffe, 0xfffd, 0xfffb, 0xfff7, 0xffef],
            &[0xfffe, 0x7ffd, 0x0ff0],
            &[0xffff, 0x0100, 0xffff, 0xfeff],
            &[0x0000],
            &[0x00ff, 0xff01],
            &[0x5555, 0x0ff0, 0x0100],
        ],
        joined: &[
            (&[0x0007], &[0x8000]),
            (&[0x8000], &[0x0007]),
            (&[0x00ff], &[0x7f00]),
            (&[0x7fff, 0x3fff, 0x0fff, 0x0001], &[0x8000]),
            (&[0x0fff], &[0x7ffe, 0x3ffc]),
            (&[0xfffe, 0x7ffd, 0x0ff0], &[0xaaaa, 0x0f0f, 0x0800]),
            (&[0x7ffe], &[0x7ffe, 0x1800]),
            (&[0xfffe, 0x7ffd, 0x0ff0], &[0xfffe, 0x7ffd, 0x0ff0]),
        ],
        whole: &[
            (&[0x00ff], &[0xff00]),
            (&[0xfffe, 0x7ffe], &[0xf7ff, 0xf001]),
            (&[], &[0x1800]),
            (&[0xfffe, 0x7ffd, 0x0ff0], &[]),
            (&[], &[]),
        ],
    },
];

/// Masks of sixteen bits for handles of width 8.
pub const WIDE_PATHS_OF_EIGHT: [Path; 3] = [&[0xff7f, 0xab3f, 0x010f, 0x8000], &[0xffff, 0x0120, 0xff00], &[0x8000]];
