//! The lent tables: a row's columns and ranges, and the specification's lengths, which follow from the row's width.

pub const ROW_WIDTH: usize = 16;
pub const MOST_OBJECTS: usize = 128;
pub const MOST_BLOCKS: usize = 8;

/// The object count and the doubt stand before the retained rows.
pub const COUNT: usize = 0;
pub const DOUBT: usize = 1;
pub const RETAINED_HEAD: usize = 2;

pub const START_LENGTH: usize = MOST_OBJECTS * ROW_WIDTH;
pub const RETAINED_LENGTH: usize = RETAINED_HEAD + START_LENGTH;
pub const BLOCKS_LENGTH: usize = START_LENGTH * MOST_BLOCKS;
pub const TIMINGS_LENGTH: usize = 2 * MOST_BLOCKS;

/// In samples.
pub const FRAME_LENGTH: u32 = 1536;

/// The places of a row's numbers. The picture is all from x to before the mark, which stands last.
pub const KIND: usize = 0;
pub const ACTIVE: usize = 1;
pub const GAIN: usize = 2;
pub const PRIORITY: usize = 3;
pub const X: usize = 4;
pub const Y: usize = 5;
pub const Z: usize = 6;
pub const WIDTH: usize = 7;
pub const DEPTH: usize = 8;
pub const HEIGHT: usize = 9;
pub const SCREEN: usize = 10;
pub const LOCK: usize = 11;
pub const ZONE: usize = 12;
pub const ELEVATION: usize = 13;
pub const DISTANCE: usize = 14;
pub const MARK: usize = ROW_WIDTH - 1;

/// A mark has a bit for each group of the picture, which is set where the group is settled.
pub const POSITION_BIT: i16 = 1;
pub const ZONE_BIT: i16 = 2;
pub const SIZE_BIT: i16 = 4;
pub const SCREEN_BIT: i16 = 8;
pub const LOCK_BIT: i16 = 16;
pub const GROUP_BITS: [i16; 5] = [POSITION_BIT, ZONE_BIT, SIZE_BIT, SCREEN_BIT, LOCK_BIT];

pub const NONE_SETTLED: i16 = 0;
pub const ALL_SETTLED: i16 = 31;

/// The bit of the group that a column of the picture belongs to.
pub fn group_bit(column: usize) -> i16 {
    match column {
        X | Y | Z | DISTANCE => POSITION_BIT,
        ZONE | ELEVATION => ZONE_BIT,
        WIDTH | DEPTH | HEIGHT => SIZE_BIT,
        SCREEN => SCREEN_BIT,
        LOCK => LOCK_BIT,
        _ => panic!("column {column} is none of the picture"),
    }
}

/// The names of a row's numbers.
pub const COLUMNS: [&str; ROW_WIDTH] = [
    "kind",
    "active",
    "gain",
    "priority",
    "x",
    "y",
    "z",
    "width",
    "depth",
    "height",
    "screen",
    "lock",
    "zone",
    "elevation",
    "distance",
    "mark",
];

pub const DYNAMIC: i16 = 3;
pub const SILENCE: i16 = -128;
pub const LOWEST_GAIN: i16 = -49;
pub const HIGHEST_GAIN: i16 = 15;

/// x and y from 0, z to either side, sizes, zone and priority from 0.
pub const SIDE_LIMIT: i16 = 62;
pub const HEIGHT_LIMIT: i16 = 15;
pub const SIZE_LIMIT: i16 = 31;
pub const ZONE_LIMIT: i16 = 5;
pub const PRIORITY_LIMIT: i16 = 32;

/// The distance of an object at infinity, and the largest.
pub const INFINITY: i16 = 17;

/// The smallest and the largest number of each column.
pub const RANGES: [(i16, i16); ROW_WIDTH] = [
    (0, DYNAMIC),
    (0, 1),
    (SILENCE, HIGHEST_GAIN),
    (0, PRIORITY_LIMIT),
    (0, SIDE_LIMIT),
    (0, SIDE_LIMIT),
    (-HEIGHT_LIMIT, HEIGHT_LIMIT),
    (0, SIZE_LIMIT),
    (0, SIZE_LIMIT),
    (0, SIZE_LIMIT),
    (0, 1),
    (0, 1),
    (0, ZONE_LIMIT),
    (0, 1),
    (0, INFINITY),
    (NONE_SETTLED, ALL_SETTLED),
];

/// The default picture.
pub const MIDDLE: i16 = 31;
pub const DEFAULT_PICTURE: [i16; MARK - X] = [MIDDLE, MIDDLE, 0, 0, 0, 0, 0, 0, 0, 1, 0];
