//! Messages read by an independent decoder: where their fields' sections stand, the rows of these by the keys that it gives, the parts and the
//! coded numbers.
//!
//! `cases/collect` took them over. Where the decoder differs from document 01, document 01 is right, and what the decoder gives is read
//! again here: it takes the scaled values of surfaces, limits and sizes, the year beside an offset and the longitude of the southern pole
//! as unsigned, and it has one name for the scale factor and the value of the cluster's distance, which are taken from the octets. It has
//! cut-off minutes of 255 as missing, which are raw here. Template 4.67, which three messages have, is not listed, so that their section 4
//! is refused with 6, and with it the message. The messages with offset rows, `ec_3_…_offset`, are made by `cases/offset_rows`.
use super::answer::{list, lists, row, written};
use super::{Asked, Cases};
use crate::generate::messages::framed;
use crate::reference::listing::CONTENTS;
use crate::reference::message::{MOST_FIELDS, NO_BIT_MAP, SECTION_0};
use crate::reference::octets::{number, signed};
use std::collections::BTreeMap;
use Told::{Key, Number, Octets, OrOnes, Signed};

const CORPUS: &str = include_str!("../../../../cases/corpus.txt");

/// A value of a row by the decoder.
enum Told {
    /// The key's, as the decoder has it.
    Key(&'static str),
    /// The key's by sign and magnitude in so many octets, also where the decoder has it as unsigned.
    Signed(&'static str, usize),
    /// The key's, of one octet that is never missing.
    OrOnes(&'static str),
    /// No key's: the octets of section 4 themselves.
    Octets(usize, usize),
    Number(i64),
}

/// A row in the order of docs/VALUES.md, block by block.
type Block = &'static [Told];

/// The lengths of the sections.
const LENGTHS: [&str; 5] = [
    "section1Length",
    "section3Length",
    "section4Length",
    "section5Length",
    "section7Length",
];

const ORIGIN: Block = &[
    Key(LENGTHS[0]),
    Number(1),
    Key("centre"),
    Key("subCentre"),
    Key("tablesVersion"),
    Key("localTablesVersion"),
    Key("significanceOfReferenceTime"),
];
const YEAR: Block = &[Key("year")];
const YEAR_BESIDE_OFFSET: Block = &[Signed("year", 2)];
const MONTH_TO_TYPE: Block = &[
    Key("month"),
    Key("day"),
    Key("hour"),
    Key("minute"),
    Key("second"),
    Key("productionStatusOfProcessedData"),
    Key("typeOfProcessedData"),
];
const CALENDAR_TEMPLATE: &str = "calendarIdentificationTemplateNumber";
const CALENDAR: &str = "typeOfCalendar";
const OFFSET: &str = "numberOfTensOfThousandsOfYearsOfOffset";

const GRID: Block = &[
    Key(LENGTHS[1]),
    Number(3),
    Key("sourceOfGridDefinition"),
    Key(POINTS),
    Key(LIST_WIDTH),
    Key("interpretationOfNumberOfPoints"),
    Key(GRID_TEMPLATE),
    Key("shapeOfTheEarth"),
    Key("scaleFactorOfRadiusOfSphericalEarth"),
    Key("scaledValueOfRadiusOfSphericalEarth"),
    Key("scaleFactorOfEarthMajorAxis"),
    Key("scaledValueOfEarthMajorAxis"),
    Key("scaleFactorOfEarthMinorAxis"),
    Key("scaledValueOfEarthMinorAxis"),
    Key("Ni"),
    Key("Nj"),
    Key("basicAngleOfTheInitialProductionDomain"),
    Key("subdivisionsOfBasicAngle"),
    Key("latitudeOfFirstGridPoint"),
    Key("longitudeOfFirstGridPoint"),
    Key("resolutionAndComponentFlags"),
    Key("latitudeOfLastGridPoint"),
    Key("longitudeOfLastGridPoint"),
    Key("iDirectionIncrement"),
    Key("jDirectionIncrement"),
    Key("scanningMode"),
];
const POINTS: &str = "numberOfDataPoints";
const LIST_WIDTH: &str = "numberOfOctectsForNumberOfPoints";
const GRID_TEMPLATE: &str = "gridDefinitionTemplateNumber";
const ROTATION: Block = &[
    Key("latitudeOfSouthernPole"),
    Signed("longitudeOfSouthernPole", 4),
    Key("angleOfRotation"),
];
const STRETCHING: Block = &[
    Key("latitudeOfThePoleOfStretching"),
    Key("longitudeOfThePoleOfStretching"),
    Key("stretchingFactorScaled"),
];

const PARAMETER: Block = &[
    Key(LENGTHS[2]),
    Number(4),
    Key("NV"),
    Key(PRODUCT_TEMPLATE),
    Key("parameterCategory"),
    Key("parameterNumber"),
];
const PRODUCT_TEMPLATE: &str = "productDefinitionTemplateNumber";
const AEROSOL: Block = &[
    Key("aerosolType"),
    Key("typeOfSizeInterval"),
    Key("scaleFactorOfFirstSize"),
    Signed("scaledValueOfFirstSize", 4),
    Key("scaleFactorOfSecondSize"),
    Signed("scaledValueOfSecondSize", 4),
];
const PROCESS_AND_SURFACES: Block = &[
    Key("typeOfGeneratingProcess"),
    Key("backgroundProcess"),
    Key("generatingProcessIdentifier"),
    Key("hoursAfterDataCutoff"),
    OrOnes("minutesAfterDataCutoff"),
    Key("indicatorOfUnitOfTimeRange"),
    Key("forecastTime"),
    Key("typeOfFirstFixedSurface"),
    Key("scaleFactorOfFirstFixedSurface"),
    Signed("scaledValueOfFirstFixedSurface", 4),
    Key("typeOfSecondFixedSurface"),
    Key("scaleFactorOfSecondFixedSurface"),
    Signed("scaledValueOfSecondFixedSurface", 4),
];
const ENSEMBLE: Block = &[
    Key("typeOfEnsembleForecast"),
    Key("perturbationNumber"),
    Key("numberOfForecastsInEnsemble"),
];
const CLUSTER: Block = &[
    Key("derivedForecast"),
    Key("numberOfForecastsInEnsemble"),
    Key("clusterIdentifier"),
    Key("numberOfClusterHighResolution"),
    Key("numberOfClusterLowResolution"),
    Key("totalNumberOfClusters"),
    Key("clusteringMethod"),
    Key("latitudeOfCentralPointInClusterDomain"),
    Key("longitudeOfCentralPointInClusterDomain"),
    Key("radiusOfClusterDomain"),
    Key("numberOfForecastsInTheCluster"),
    Key("scaleFactorOfStandardDeviation"),
    Key("scaledValueOfStandardDeviation"),
    Octets(60, 60),
    Octets(61, 64),
];
const PROBABILITY: Block = &[
    Key("forecastProbabilityNumber"),
    Key("totalNumberOfForecastProbabilities"),
    Key("probabilityType"),
    Key("scaleFactorOfLowerLimit"),
    Signed("scaledValueOfLowerLimit", 4),
    Key("scaleFactorOfUpperLimit"),
    Signed("scaledValueOfUpperLimit", 4),
];
const INTERVAL: Block = &[
    Key("yearOfEndOfOverallTimeInterval"),
    Key("monthOfEndOfOverallTimeInterval"),
    Key("dayOfEndOfOverallTimeInterval"),
    Key("hourOfEndOfOverallTimeInterval"),
    Key("minuteOfEndOfOverallTimeInterval"),
    Key("secondOfEndOfOverallTimeInterval"),
    Key("numberOfTimeRange"),
    Key("numberOfMissingInStatisticalProcess"),
];
/// A time range's octets by the decoder's lists.
const RANGE: [(&str, usize); 6] = [
    ("typeOfStatisticalProcessing", 1),
    ("typeOfTimeIncrement", 1),
    ("indicatorOfUnitForTimeRange", 1),
    ("lengthOfTimeRange", 4),
    ("indicatorOfUnitForTimeIncrement", 1),
    ("timeIncrement", 4),
];

const PACKING: Block = &[
    Key(LENGTHS[3]),
    Number(5),
    Key("numberOfValues"),
    Key("dataRepresentationTemplateNumber"),
    Key("referenceValue"),
    Key("binaryScaleFactor"),
    Key("decimalScaleFactor"),
    Key(BITS),
    Key("typeOfOriginalFieldValues"),
];
const BITS: &str = "bitsPerValue";
const DATA: Block = &[Key(LENGTHS[4]), Number(7)];

/// A field as the decoder has it; a key whose value is missing is `None`.
#[derive(Default)]
pub struct Field {
    /// The first octet of each section in the message.
    firsts: Vec<usize>,
    sections: Vec<Vec<u8>>,
    keys: BTreeMap<&'static str, Option<i64>>,
    lists: BTreeMap<&'static str, Vec<u32>>,
}

/// A message as the decoder has it.
#[derive(Default)]
pub struct Message {
    name: &'static str,
    decoder: &'static str,
    octets: Vec<u8>,
    pub fields: Vec<Field>,
}

fn octets_of(hex: &str) -> Vec<u8> {
    let pairs = (0..hex.len()).step_by(2);
    let octet = |at| u8::from_str_radix(&hex[at..at + 2], 16);
    pairs.map(|at| octet(at).expect("two digits")).collect()
}

pub fn messages() -> Vec<Message> {
    let mut messages: Vec<Message> = vec![];
    for line in CORPUS.lines() {
        let (word, rest) = line.split_once(' ').expect("a word and more");
        if word == "message" {
            messages.push(Message::default());
        }
        let message = messages.last_mut().expect("a message comes first");
        message.take(word, rest);
    }
    messages
}

impl Message {
    /// A line of the corpus.
    fn take(&mut self, word: &str, rest: &'static str) {
        match word {
            "message" => self.name = rest,
            "decoder" => self.decoder = rest,
            "octets" => self.octets = octets_of(rest),
            "field" => self.fields.push(Field::default()),
            _ => {
                let field = self.fields.last_mut().expect("a field comes first");
                field.take(word, rest, &self.octets);
            }
        }
    }

    /// What is asked of the message and of its fields' sections, and what the decoder's answers tell of each.
    pub fn answers(&self) -> Vec<(Asked, String)> {
        let fields = (1..).zip(&self.fields);
        let lines = fields.map(|(number, field)| field.line(number, &field.firsts));
        let told = told(&self.fields, lines.collect());
        let mut answers = vec![(Asked::Message(self.octets.clone()), told)];
        answers.extend(self.fields.iter().flat_map(|field| field.answers()));
        answers
    }
}

/// What is printed of a message of these fields, whose lines these are.
fn told(fields: &[Field], lines: String) -> String {
    match fields.iter().all(|field| field.has_listed_template()) {
        true => format!("{CONTENTS}{lines}fields {}\n", fields.len()),
        false => "refused 6 4 0\n".to_string(),
    }
}

impl Field {
    /// A line of the corpus, of a field of the message that has these octets.
    fn take(&mut self, word: &str, rest: &'static str, message: &[u8]) {
        let (name, values) = rest.split_once(' ').unwrap_or((rest, ""));
        match word {
            "section" => {
                let number = |word: &str| -> usize { word.parse().expect("a number") };
                let (first, length) = (number(name), number(values));
                self.firsts.push(first);
                self.sections.push(message[first - 1..][..length].to_vec());
            }
            "key" => {
                let is_missing = values == "missing";
                let number = (!is_missing).then(|| values.parse().expect("a number"));
                self.keys.insert(name, number);
            }
            "list" => {
                let numbers = values.split_whitespace();
                let numbers = numbers.map(|number| number.parse().expect("a number"));
                self.lists.insert(name, numbers.collect());
            }
            _ => panic!("{word}"),
        }
    }

    fn has(&self, key: &str) -> bool {
        self.keys.contains_key(key)
    }

    fn number(&self, key: &str) -> i64 {
        self.keys[key].expect("never missing")
    }

    fn list(&self, name: &str) -> &[u32] {
        self.lists.get(name).map_or(&[], |numbers| numbers)
    }

    fn value(&self, told: &Told) -> i64 {
        match *told {
            Key(key) => self.keys[key].unwrap_or(i64::MIN),
            Signed(key, octets) => {
                let again = |told: i64| u64::try_from(told).map_or(told, |raw| signed(raw, octets));
                self.keys[key].map_or(i64::MIN, again)
            }
            OrOnes(key) => self.keys[key].unwrap_or(255),
            Octets(first, last) => number(&self.sections[2], first, last) as i64,
            Number(number) => number,
        }
    }

    fn values(&self, blocks: &[Block]) -> Vec<i64> {
        let told = blocks.iter().copied().flatten();
        told.map(|told| self.value(told)).collect()
    }

    fn section1(&self) -> Vec<i64> {
        let year = if self.has(OFFSET) {
            YEAR_BESIDE_OFFSET
        } else {
            YEAR
        };
        let mut values = self.values(&[ORIGIN, year, MONTH_TO_TYPE]);
        for key in [CALENDAR_TEMPLATE, CALENDAR, OFFSET] {
            if self.has(key) {
                values.push(self.number(key));
            }
        }
        values.push(self.real_year());
        values
    }

    fn real_year(&self) -> i64 {
        match self.has(OFFSET) {
            true => self.value(&YEAR_BESIDE_OFFSET[0]) + 10_000 * self.number(OFFSET),
            false => self.number("year"),
        }
    }

    /// The blocks of which the decoder has this key, behind those that are always there.
    fn with_those_that_are_there(&self, first: Block, others: &[(&str, Block)]) -> Vec<i64> {
        let there = others.iter().filter(|(key, _)| self.has(key));
        let blocks: Vec<Block> = there.map(|&(_, block)| block).collect();
        self.values(&[&[first], &blocks[..]].concat())
    }

    fn section3(&self) -> String {
        let poles = [
            ("angleOfRotation", ROTATION),
            ("stretchingFactorScaled", STRETCHING),
        ];
        let values = self.with_those_that_are_there(GRID, &poles);
        let width = self.number(LIST_WIDTH) as usize;
        let listed = self.list("pl").iter();
        let octets = listed.flat_map(|number| number.to_be_bytes()[4 - width..].to_vec());
        row(&values) + &list(&octets.collect::<Vec<u8>>())
    }

    fn range(&self, at: usize) -> Vec<u8> {
        let octets = |(name, size): (&str, usize)| {
            let number = self.list(name)[at].to_be_bytes();
            number[4 - size..].to_vec()
        };
        RANGE.map(octets).concat()
    }

    fn section4(&self) -> String {
        if !self.has_listed_template() {
            return "refused 6 4 0".to_string() + &lists(&[], &[], &[]);
        }
        let parts = [
            ("aerosolType", AEROSOL),
            (PRODUCT_TEMPLATE, PROCESS_AND_SURFACES),
            ("typeOfEnsembleForecast", ENSEMBLE),
            ("clusterIdentifier", CLUSTER),
            ("probabilityType", PROBABILITY),
            ("numberOfTimeRange", INTERVAL),
        ];
        let values = self.with_those_that_are_there(PARAMETER, &parts);
        let count = self.list("lengthOfTimeRange").len();
        let ranges: Vec<Vec<u8>> = (0..count).map(|at| self.range(at)).collect();
        let ranges: Vec<&[u8]> = ranges.iter().map(|range| &range[..]).collect();
        let members = self.list("ensembleForecastNumbers").iter();
        let members: Vec<u8> = members.map(|&member| member as u8).collect();
        let coordinates = self.list("coordinates").iter();
        let coordinates = coordinates.flat_map(|bits| bits.to_be_bytes());
        row(&values) + &lists(&ranges, &members, &coordinates.collect::<Vec<u8>>())
    }

    fn has_listed_template(&self) -> bool {
        self.number(PRODUCT_TEMPLATE) != 67
    }

    /// Whether the decoder has another number of points than Ni x Nj, without a list.
    pub fn has_offset_rows(&self) -> bool {
        let product = self.keys["Ni"].zip(self.keys["Nj"]).map(|(ni, nj)| ni * nj);
        self.number(LIST_WIDTH) == 0 && product != Some(self.number(POINTS))
    }

    /// The sections, one behind the other.
    pub fn body(&self) -> Vec<u8> {
        self.sections.concat()
    }

    /// Real year to second.
    fn time(&self) -> String {
        let keys = ["month", "day", "hour", "minute", "second"];
        let later = keys.map(|key| format!(" {}", self.number(key)));
        self.real_year().to_string() + &later.concat()
    }

    /// The line of the listing, where the field is filed to this slot and no issue is named; none where it is refused.
    pub fn listed(&self, slot: u64) -> Option<String> {
        let gregorian = !self.has(CALENDAR) || self.number(CALENDAR) == 0;
        let (time, template) = (self.time(), self.number(PRODUCT_TEMPLATE));
        let filed = self.has_listed_template() && gregorian;
        filed.then(|| format!("{slot} {time} 0 {template}\n"))
    }

    /// The line of a message's contents, where the field has this number and its sections begin at these octets.
    fn line(&self, number: usize, firsts: &[usize]) -> String {
        let keys = [GRID_TEMPLATE, PRODUCT_TEMPLATE, POINTS, BITS];
        let numbers = keys.map(|key| format!(" {}", self.number(key))).concat();
        let spans = firsts.iter().zip(LENGTHS);
        let spans = spans.map(|(first, length)| format!(" {first} {}", self.number(length)));
        let spans: String = spans.collect();
        format!("{number} {}{numbers}{spans}\n", self.time())
    }

    /// What is asked of each section, and the line that the decoder's answers tell.
    pub fn answers(&self) -> [(Asked, String); 5] {
        let section = |number, at: usize| Asked::Section(number, self.sections[at].clone());
        let coded = self.list("coded");
        let (five, seven) = (self.sections[3].clone(), self.sections[4].clone());
        let unpacked = row(&self.values(&[DATA])) + &written(coded);
        [
            (section(1, 0), row(&self.section1())),
            (section(3, 1), self.section3()),
            (section(4, 2), self.section4()),
            (section(5, 3), row(&self.values(&[PACKING]))),
            (Asked::Unpacking(five, seven, coded.len()), unpacked),
        ]
    }
}

/// Fields of one section 1 in one message, each with a section 3 where another one is in force, and what the decoder's answers tell of it.
fn in_one_message(fields: &[Field]) -> (Asked, String) {
    let (mut sections, mut lines): (Vec<Vec<u8>>, String) = Default::default();
    let mut in_force: [&[u8]; 5] = Default::default();
    let mut firsts = [0; 5];
    for (number, field) in (1..).zip(fields) {
        for (at, section) in field.sections.iter().enumerate() {
            // Sections 1 and 3 may stay in force.
            if at < 2 && in_force[at] == section {
                continue;
            }
            if at == 4 {
                sections.push(NO_BIT_MAP.to_vec());
            }
            (in_force[at], firsts[at]) = (section, SECTION_0 + sections.concat().len() + 1);
            sections.push(section.clone());
        }
        lines += &field.line(number, &firsts);
    }
    (Asked::Message(framed(&sections)), told(fields, lines))
}

/// Messages of as many fields as one may have, gathered from those that have the section 1 which most have.
pub fn gathered() -> Vec<(Asked, String)> {
    let fields = messages().into_iter().flat_map(|message| message.fields);
    let fields: Vec<Field> = fields.filter(Field::has_listed_template).collect();
    let with_one = |one: &[u8]| {
        fields
            .iter()
            .filter(|field| field.sections[0] == one)
            .count()
    };
    let ones = fields.iter().map(|field| field.sections[0].clone());
    let most = ones.max_by_key(|one| with_one(one)).expect("a field");
    let fields = fields.into_iter().filter(|field| field.sections[0] == most);
    let fields: Vec<Field> = fields.collect();
    fields.chunks(MOST_FIELDS).map(in_one_message).collect()
}

pub fn add(cases: &mut Cases) {
    cases.begin("");
    for message in messages() {
        let shows = format!("{}, as {} reads it", message.name, message.decoder);
        for (asked, printed) in message.answers() {
            cases.push(&shows, asked, printed);
        }
    }
    for (asked, printed) in gathered() {
        let shows = "fields of several of these messages in one";
        cases.push(shows, asked, printed);
    }
}
