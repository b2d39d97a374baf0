//! The names of tiles, and the list of them that each ZERO has.

use std::sync::LazyLock;

/// A name of a tile or of all of ZA, and the 64-bit tiles that it holds, as a mask.
pub type Name = (&'static str, u8);

/// Every name; the last begins all the others, so that a reader must try it after them.
pub const NAMES: [Name; 15] = [
    ("za0.h", 0b0101_0101),
    ("za1.h", 0b1010_1010),
    ("za0.s", 0b0001_0001),
    ("za1.s", 0b0010_0010),
    ("za2.s", 0b0100_0100),
    ("za3.s", 0b1000_1000),
    ("za0.d", 0b0000_0001),
    ("za1.d", 0b0000_0010),
    ("za2.d", 0b0000_0100),
    ("za3.d", 0b0000_1000),
    ("za4.d", 0b0001_0000),
    ("za5.d", 0b0010_0000),
    ("za6.d", 0b0100_0000),
    ("za7.d", 0b1000_0000),
    ("za", 0b1111_1111),
];

/// The shortest list of names that hold the tiles of a mask and no others, in the order of their lowest tiles.
pub fn shortest(mask: u8) -> &'static [Name] {
    /// Found by trying every list, so that no rule for the shortest one has to be believed.
    static LISTS: LazyLock<Vec<Vec<Name>>> = LazyLock::new(|| {
        let mut lists = vec![NAMES.to_vec(); 256];
        for chosen in 0..1 << NAMES.len() {
            let names = (0..).zip(NAMES).filter(|(place, _)| chosen >> place & 1 == 1);
            let mut list: Vec<Name> = names.map(|(_, name)| name).collect();
            list.sort_by_key(|(_, tiles)| tiles.trailing_zeros());
            let held = list.iter().fold(0, |held, (_, tiles)| held | tiles);
            let shortest = &mut lists[usize::from(held)];
            if list.len() < shortest.len() {
                *shortest = list;
            }
        }
        lists
    });
    &LISTS[usize::from(mask)]
}
