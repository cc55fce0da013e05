//! The next image.
//! Document 01, "The steps"; its checks go 1 to 3, 41 to 44, 5, 14, 6, 7, 9, 21 to 23, 61 to 64,
//! 11, 10.

use crate::area::{self, CARRIED};
use crate::image::{self, first_offset, Image, PROGRAMS};
use crate::refusal::{self, Refusal};
use crate::Count;

/// "The carried programs in number order, then the fresh image's programs, with the fresh image's
/// rule byte." The output beyond the image is untouched.
pub fn next_image(
    image: &[u8],
    table: &[u32],
    guards: &[u32],
    area: &[u32],
    fresh: &[u8],
    out: &mut [u8],
) -> Count {
    Count::of(next_image_checked(image, table, guards, area, fresh, out))
}

fn next_image_checked(
    image: &[u8],
    table: &[u32],
    guards: &[u32],
    area: &[u32],
    fresh: &[u8],
    out: &mut [u8],
) -> Result<usize, Refusal> {
    let image = area::check(image, table, guards, area)?;
    area::check_settled(area, table.len())?;
    let fresh = Image::check(fresh).map_err(Refusal::of_fresh)?;
    let next = || {
        let carried = area::states(area, table.len()).enumerate().filter(|&(_, state)| state == CARRIED);
        let carried_programs = carried.map(|(number, _)| image.program(number));
        carried_programs.chain(fresh.programs())
    };
    let count = next().count();
    if count > PROGRAMS {
        return Err(refusal::TOO_MANY);
    }
    let length = first_offset(count) + next().map(<[u8]>::len).sum::<usize>();
    if out.len() < length {
        return Err(refusal::TOO_SHORT);
    }
    image::write(&mut out[..length], count, fresh.rule_byte(), next());
    Ok(length)
}
