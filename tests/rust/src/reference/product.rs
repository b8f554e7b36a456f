//! Section 4.
use super::head::{look_at_head, look_at_total, look_up, HEAD};
use super::identification::MONTH_TO_SECOND;
use super::table::{self, block, octet, shifted, span, Block, Field, Record, Rule};
use super::{refuse_if, Outcome};

const SECTION: u8 = 4;
const SHORTEST: usize = 9;
pub const NV_AT: usize = 6;
pub const TEMPLATE_AT: usize = 8;
pub const RANGE_OCTETS: usize = 12;
const COORDINATE_OCTETS: usize = 4;

const FRONT: &[Field] = &[
    span(NV_AT, 7, "NV", Rule::Raw),
    span(TEMPLATE_AT, 9, "template", Rule::Raw),
];
const PARAMETER: &[Field] = &[
    octet(10, "parameter category", Rule::Raw),
    octet(11, "parameter number", Rule::Raw),
];
/// As in 4.0; the aerosol part of 4.46 moves it.
const PROCESS_AND_SURFACES: &[Field] = &[
    octet(12, "type of generating process", Rule::Raw),
    octet(13, "background process", Rule::Raw),
    octet(14, "generating process identifier", Rule::Raw),
    span(15, 16, "cut-off hours", Rule::OrMissing),
    octet(17, "cut-off minutes", Rule::Raw),
    octet(18, "unit of time range", Rule::Raw),
    span(19, 22, "forecast time", Rule::Signed),
    octet(23, "first surface, type", Rule::Raw),
    octet(24, "first surface, scale factor", Rule::SignedOrMissing),
    span(25, 28, "first surface, value", Rule::SignedOrMissing),
    octet(29, "second surface, type", Rule::Raw),
    octet(30, "second surface, scale factor", Rule::SignedOrMissing),
    span(31, 34, "second surface, value", Rule::SignedOrMissing),
];
const ENSEMBLE: &[Field] = &[
    octet(35, "type of ensemble forecast", Rule::Raw),
    octet(36, "perturbation number", Rule::Raw),
    octet(37, "number of forecasts", Rule::Raw),
];
const CLUSTER: &[Field] = &[
    octet(35, "derived forecast", Rule::Raw),
    octet(36, "number of forecasts", Rule::Raw),
    octet(37, "cluster identifier", Rule::Raw),
    octet(38, "cluster of the high resolution control", Rule::Raw),
    octet(39, "cluster of the low resolution control", Rule::Raw),
    octet(40, "number of clusters", Rule::Raw),
    octet(41, "clustering method", Rule::Raw),
    span(42, 45, "latitude of the central point", Rule::Raw),
    span(46, 49, "longitude of the central point", Rule::Raw),
    span(50, 53, "radius", Rule::Raw),
    octet(54, "Nc", Rule::Raw),
    octet(55, "standard deviation, scale factor", Rule::Raw),
    span(56, 59, "standard deviation, value", Rule::Raw),
    octet(60, "distance, scale factor", Rule::Raw),
    span(61, 64, "distance, value", Rule::Raw),
];
const PROBABILITY: &[Field] = &[
    octet(35, "forecast probability number", Rule::Raw),
    octet(36, "number of forecast probabilities", Rule::Raw),
    octet(37, "probability type", Rule::Raw),
    octet(38, "lower limit, scale factor", Rule::SignedOrMissing),
    span(39, 42, "lower limit, value", Rule::SignedOrMissing),
    octet(43, "upper limit, scale factor", Rule::SignedOrMissing),
    span(44, 47, "upper limit, value", Rule::SignedOrMissing),
];
const AEROSOL: &[Field] = &[
    span(12, 13, "aerosol type", Rule::Raw),
    octet(14, "type of interval of sizes", Rule::Raw),
    octet(15, "first size, scale factor", Rule::SignedOrMissing),
    span(16, 19, "first size, value", Rule::SignedOrMissing),
    octet(20, "second size, scale factor", Rule::SignedOrMissing),
    span(21, 24, "second size, value", Rule::SignedOrMissing),
];
const AEROSOL_OCTETS: usize = 13;

/// The end of the interval, n and the missing count as 4.8 has them, in three tables: the time is section 1's, 22 octets
/// further on.
const END_YEAR: &[Field] = &[span(35, 36, "end, year", Rule::Unsigned)];
const MONTH_SHIFT: usize = 22;
const RANGES: &[Field] = &[
    octet(42, "n", Rule::Raw),
    span(43, 46, "missing count", Rule::Raw),
];

const fn end_year(shift: usize) -> Block {
    shifted(shift, END_YEAR)
}

const fn month_to_second(shift: usize) -> Block {
    shifted(shift + MONTH_SHIFT, MONTH_TO_SECOND)
}

const fn ranges(shift: usize) -> Block {
    shifted(shift, RANGES)
}

/// A row of the document's table: octets without ranges, members and coordinates, and where n and Nc stand.
pub struct Template {
    pub number: u64,
    pub octets: usize,
    pub n_at: Option<usize>,
    pub nc_at: Option<usize>,
    pub blocks: &'static [Block],
}

impl Template {
    /// With n = 1 and no members.
    pub fn smallest(&self) -> usize {
        self.octets + self.n_at.map_or(0, |_| RANGE_OCTETS)
    }
}

const fn template(
    number: u64,
    octets: usize,
    n_at: Option<usize>,
    nc_at: Option<usize>,
    blocks: &'static [Block],
) -> Template {
    Template {
        number,
        octets,
        n_at,
        nc_at,
        blocks,
    }
}

const HEAD_BLOCK: Block = block(HEAD);
const FRONT_BLOCK: Block = block(FRONT);
const PARAMETER_BLOCK: Block = block(PARAMETER);
const PLAIN: Block = block(PROCESS_AND_SURFACES);

pub const TEMPLATES: &[Template] = &[
    template(
        0,
        34,
        None,
        None,
        &[HEAD_BLOCK, FRONT_BLOCK, PARAMETER_BLOCK, PLAIN],
    ),
    template(
        1,
        37,
        None,
        None,
        &[
            HEAD_BLOCK,
            FRONT_BLOCK,
            PARAMETER_BLOCK,
            PLAIN,
            block(ENSEMBLE),
        ],
    ),
    template(
        4,
        64,
        None,
        Some(54),
        &[
            HEAD_BLOCK,
            FRONT_BLOCK,
            PARAMETER_BLOCK,
            PLAIN,
            block(CLUSTER),
        ],
    ),
    template(
        5,
        47,
        None,
        None,
        &[
            HEAD_BLOCK,
            FRONT_BLOCK,
            PARAMETER_BLOCK,
            PLAIN,
            block(PROBABILITY),
        ],
    ),
    template(
        8,
        46,
        Some(42),
        None,
        &[
            HEAD_BLOCK,
            FRONT_BLOCK,
            PARAMETER_BLOCK,
            PLAIN,
            end_year(0),
            month_to_second(0),
            ranges(0),
        ],
    ),
    template(
        9,
        59,
        Some(55),
        None,
        &[
            HEAD_BLOCK,
            FRONT_BLOCK,
            PARAMETER_BLOCK,
            PLAIN,
            block(PROBABILITY),
            end_year(13),
            month_to_second(13),
            ranges(13),
        ],
    ),
    template(
        11,
        49,
        Some(45),
        None,
        &[
            HEAD_BLOCK,
            FRONT_BLOCK,
            PARAMETER_BLOCK,
            PLAIN,
            block(ENSEMBLE),
            end_year(3),
            month_to_second(3),
            ranges(3),
        ],
    ),
    template(
        14,
        76,
        Some(72),
        Some(54),
        &[
            HEAD_BLOCK,
            FRONT_BLOCK,
            PARAMETER_BLOCK,
            PLAIN,
            block(CLUSTER),
            end_year(30),
            month_to_second(30),
            ranges(30),
        ],
    ),
    template(
        46,
        59,
        Some(55),
        None,
        &[
            HEAD_BLOCK,
            FRONT_BLOCK,
            PARAMETER_BLOCK,
            block(AEROSOL),
            shifted(AEROSOL_OCTETS, PROCESS_AND_SURFACES),
            end_year(13),
            month_to_second(13),
            ranges(13),
        ],
    ),
];

/// What stands behind the fields, in this order.
#[derive(Clone, Copy, Debug, PartialEq, Eq)]
pub struct Tail {
    /// The octets in front of it.
    pub after: usize,
    pub n: usize,
    pub members: usize,
    pub coordinates: usize,
}

impl Tail {
    /// First octet and length of the k-th time range; k is below n.
    pub fn range(&self, k: usize) -> (usize, usize) {
        (self.after + RANGE_OCTETS * k, RANGE_OCTETS)
    }

    pub fn members(&self) -> (usize, usize) {
        (self.after + RANGE_OCTETS * self.n, self.members)
    }

    pub fn coordinates(&self) -> (usize, usize) {
        let (after, members) = self.members();
        (after + members, COORDINATE_OCTETS * self.coordinates)
    }

    pub fn total(&self) -> usize {
        let (after, octets) = self.coordinates();
        after + octets
    }
}

pub struct Product {
    pub record: Record,
    pub tail: Tail,
}

fn tail_of(record: &Record, template: &Template) -> Tail {
    let count = |at: Option<usize>| at.map_or(0, |at| record.number(at) as usize);
    Tail {
        after: template.octets,
        n: count(template.n_at),
        members: count(template.nc_at),
        coordinates: count(Some(NV_AT)),
    }
}

pub fn read(s: &[u8]) -> Outcome<Product> {
    look_at_head(s, SECTION)?;
    refuse_if(s.len() < SHORTEST, 5, SECTION)?;
    let template = look_up(s, SECTION, TEMPLATE_AT, TEMPLATES, |template| {
        (template.number, template.smallest())
    })?;
    let record = table::read(s, SECTION, template.blocks)?;
    let tail = tail_of(&record, template);
    refuse_if(template.n_at.is_some() && tail.n == 0, 9, SECTION)?;
    look_at_total(s, SECTION, tail.total() as u64)?;
    Ok(Product { record, tail })
}

#[cfg(test)]
mod tests {
    use super::*;
    use crate::examples::section4 as section;

    /// Number and place of the refusal; zeros for none.
    fn refusal(s: &[u8]) -> (u8, u32) {
        let refused = read(s).err();
        refused.map_or((0, 0), |refusal| (refusal.number, refusal.place))
    }

    #[test]
    fn tables_end_where_the_document_says() {
        for template in TEMPLATES {
            assert_eq!(table::end_of(template.blocks), Some(template.octets));
        }
    }

    #[test]
    fn counts_stand_where_the_document_says() {
        for template in TEMPLATES {
            let named = |name| {
                table::rows(template.blocks)
                    .find(|field| field.name == name)
                    .map(|field| field.first)
            };
            assert_eq!((named("n"), named("Nc")), (template.n_at, template.nc_at));
        }
    }

    #[test]
    fn smallest_totals() {
        let smallest: Vec<usize> = TEMPLATES.iter().map(Template::smallest).collect();
        assert_eq!(smallest, [34, 37, 64, 47, 58, 71, 61, 88, 71]);
    }

    #[test]
    fn totals_of_the_document() {
        assert_eq!(refusal(&section(8, 78, 2, 2, 0)), (0, 0));
        assert_eq!(refusal(&section(8, 77, 2, 2, 0)), (11, 78));
        assert_eq!(refusal(&section(8, 79, 2, 2, 0)), (21, 79));
        assert_eq!(refusal(&section(11, 61, 0, 1, 0)), (0, 0));
        assert_eq!(refusal(&section(11, 58, 0, 1, 0)), (7, 0));
        assert_eq!(refusal(&section(14, 93, 0, 1, 5)), (0, 0));
        assert_eq!(refusal(&section(4, 64, 0, 0, 0)), (0, 0));
    }

    #[test]
    fn no_ranges() {
        assert_eq!(refusal(&section(8, 58, 0, 0, 0)), (9, 0));
        // Of the wrong length too, but a bad field comes first.
        let mut s = section(8, 60, 0, 0, 0);
        assert_eq!(refusal(&s), (9, 0));
        s[40] = 60;
        assert_eq!(
            read(&s)
                .err()
                .map(|refusal| (refusal.number, refusal.place)),
            Some((8, 41))
        );
    }
}
