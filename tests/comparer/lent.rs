//! The memory that is lent to the calls.

use archive::Buffer;

/// All that the calls are lent.
#[derive(Clone, PartialEq)]
pub struct Lent {
    pub image: Buffer<u8>,
    pub table: Buffer<u32>,
    pub guards: Buffer<u32>,
    pub area: Buffer<u32>,
    pub list: Buffer<u32>,
    pub fresh: Buffer<u8>,
    pub sheet: Buffer<u8>,
    pub out: Buffer<u8>,
}

impl Lent {
    /// What differs first: the buffer's name and the place in it.
    pub fn first_difference(&self, other: &Lent) -> Option<(&'static str, isize)> {
        let places = [
            ("image", self.image.first_difference(&other.image)),
            ("table", self.table.first_difference(&other.table)),
            ("guards", self.guards.first_difference(&other.guards)),
            ("area", self.area.first_difference(&other.area)),
            ("list", self.list.first_difference(&other.list)),
            ("fresh", self.fresh.first_difference(&other.fresh)),
            ("sheet", self.sheet.first_difference(&other.sheet)),
            ("out", self.out.first_difference(&other.out)),
        ];
        places.into_iter().find_map(|(name, place)| Some((name, place?)))
    }
}
