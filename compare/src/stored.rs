//! Stored rules close to the caps of the rooms, at them, and over each.

/// A rule file with its counts of macrostates and transitions.
pub type Stored = (&'static [u8], usize, usize);

/// Rules of several components and sixteen letters whose tables nearly fill
/// both rooms.
pub const LARGE: [Stored; 3] = [
    (
        include_bytes!("../../bench/cap_62_s16.rule"),
        64_179,
        1_048_546,
    ),
    (
        include_bytes!("../../bench/trans_1_0.rule"),
        58_914,
        896_021,
    ),
    (include_bytes!("../../bench/tsJ_3_0.rule"), 60_578, 900_235),
];

/// Rules that fill the room of the macrostates, and that of the transitions,
/// to the last element.
pub const FULL: [Stored; 2] = [
    (include_bytes!("../data/m65536_s1.rule"), 65_536, 64_275),
    (include_bytes!("../data/t1048576.rule"), 64_179, 1_048_576),
];

/// Rules with one macrostate more, and with one transition more, than room
/// counts, however long the slices are.
pub const OVER: [Stored; 2] = [
    (include_bytes!("../data/m65537_s1.rule"), 65_537, 61_419),
    (include_bytes!("../data/t1048577.rule"), 64_179, 1_048_577),
];

/// Rules with their counts, and the counts of what matters of them.
pub const TRIMMED: [(Stored, (usize, usize)); 3] = [
    (LARGE[2], (2, 32)),
    (
        (
            include_bytes!("../../bench/trans_1_1.rule"),
            59_437,
            831_710,
        ),
        (29_899, 438_932),
    ),
    // Letters of the one before, of which more matters.
    (
        (include_bytes!("../data/kept_30235.bin"), 59_437, 596_070),
        (30_235, 312_585),
    ),
];
