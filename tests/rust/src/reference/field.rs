//! One field: sections 1, 3, 4, 5 and 7 together.
use super::grid::{self, Grid};
use super::identification::{self, Identification};
use super::packing::{self, Packing};
use super::product::{self, Product};
use super::{refuse_if, Outcome};

pub struct FieldRead {
    pub identification: Identification,
    pub grid: Grid,
    pub product: Product,
    pub packing: Packing,
}

/// The first refusal of sections 1, 3, 4, 5 (with 14) and 7.
pub fn read(sections: [&[u8]; 5]) -> Outcome<FieldRead> {
    let [one, three, four, five, seven] = sections;
    let identification = identification::read(one)?;
    let grid = grid::read(three)?;
    let product = product::read(four)?;
    let packing = packing::read(five)?;
    refuse_if(packing.values != grid.points, 14, 5)?;
    packing::look_at_data(seven, &packing)?;
    Ok(FieldRead {
        identification,
        grid,
        product,
        packing,
    })
}
