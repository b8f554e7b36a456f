//! docs/VALUES.md against the reference: index, octets, name and kind of each value of each template, the counts, and a slot's values.
use skogmund_tests::examples::{four_by_three, section1, section4, section5, section7};
use skogmund_tests::reference::head::HEAD;
use skogmund_tests::reference::shelf::Card;
use skogmund_tests::reference::table::{block, rows, Block, Field, Rule};
use skogmund_tests::reference::{grid, identification, packing, product};
use std::collections::BTreeMap;

const DOCUMENT: &str = include_str!("../../../docs/VALUES.md");

/// A value's index and octets as a cell has them, its name and its kind.
#[derive(Clone, Debug, PartialEq, Eq)]
struct Value {
    cell: String,
    name: String,
    kind: String,
}

impl Value {
    fn index(&self) -> usize {
        let index = self.cell.split(':').next().expect("an index");
        index.parse().expect("a number")
    }
}

#[derive(Debug, Default, PartialEq, Eq)]
struct Template {
    count: usize,
    values: Vec<Value>,
}

type Templates = BTreeMap<String, Template>;

// ---- as the document has it

/// The cells of a table's header and of its rows.
struct Table<'a> {
    header: Vec<&'a str>,
    rows: Vec<Vec<&'a str>>,
}

fn cells(line: &str) -> Vec<&str> {
    let inside = line.trim_matches('|').split('|');
    inside.map(str::trim).collect()
}

fn tables(text: &str) -> Vec<Table<'_>> {
    let paragraphs = text.split("\n\n").map(str::trim);
    let of_rows = paragraphs.filter(|paragraph| paragraph.starts_with('|'));
    of_rows
        .map(|table| Table {
            header: cells(table.lines().next().expect("a header")),
            rows: table.lines().skip(2).map(cells).collect(),
        })
        .collect()
}

/// The templates of each column behind name and kind; "all" are those that no other column has.
fn columns<'a>(header: &[&'a str], all: &[&'a str]) -> Vec<Vec<&'a str>> {
    let named = |cell: &&'a str| cell.split(", ").collect::<Vec<_>>();
    let columns: Vec<Vec<&str>> = header[2..].iter().map(named).collect();
    let elsewhere = columns.concat();
    let others = all.iter().filter(|template| !elsewhere.contains(template));
    let others: Vec<&str> = others.copied().collect();
    let or_others = |column: Vec<&'a str>| match column[0].starts_with("all") {
        true => others.clone(),
        false => column,
    };
    columns.into_iter().map(or_others).collect()
}

fn add_counts(templates: &mut Templates, table: &Table) {
    for (template, count) in table.header[1..].iter().zip(&table.rows[0][1..]) {
        let values = vec![];
        let count = count.parse().expect("a count");
        templates.insert(template.to_string(), Template { count, values });
    }
}

fn add_values(templates: &mut Templates, table: &Table, all: &[&str]) {
    let columns = columns(&table.header, all);
    for row in &table.rows {
        assert_eq!(row.len(), table.header.len(), "{row:?}");
        for (column, cell) in columns.iter().zip(&row[2..]) {
            for template in column.iter().filter(|_| !cell.is_empty()) {
                let listed = templates.get_mut(*template).expect("a count came first");
                listed.values.push(Value {
                    cell: cell.to_string(),
                    name: row[0].trim_start_matches("end, ").to_string(),
                    kind: row[1].to_string(),
                });
            }
        }
    }
}

fn in_document() -> Templates {
    let mut templates = Templates::new();
    for section in DOCUMENT.split("\n## Section ").skip(1) {
        let tables = tables(section);
        let all = &tables[0].header[1..];
        add_counts(&mut templates, &tables[0]);
        let of_values = tables[1..].iter().filter(|one| one.header[0] == "field");
        of_values.for_each(|table| add_values(&mut templates, table, all));
    }
    for listed in templates.values_mut() {
        listed.values.sort_by_key(Value::index);
    }
    templates
}

// ---- as the reference has it

fn kind(rule: Rule) -> &'static str {
    match rule {
        Rule::Raw | Rule::Unsigned | Rule::Within(..) | Rule::OneOf(_) => "unsigned",
        Rule::OrMissing | Rule::CountOrMissing => "unsigned or missing",
        Rule::Signed | Rule::SignedAll => "signed",
        Rule::SignedOrMissing => "signed or missing",
    }
}

fn value(index: usize, field: Field) -> Value {
    let octets = match field.octets() {
        1 => field.first.to_string(),
        _ => format!("{}-{}", field.first, field.last),
    };
    Value {
        cell: format!("{index}: {octets}"),
        name: field.name.trim_start_matches("end, ").to_string(),
        kind: kind(field.rule).to_string(),
    }
}

fn values(blocks: &[Block]) -> Vec<Value> {
    let fields = rows(blocks).enumerate();
    fields.map(|(at, field)| value(at + 1, field)).collect()
}

/// Section 1 ends with the real year, which has no octets.
fn values_with_year(form: &identification::Form) -> Vec<Value> {
    let mut values = values(form.blocks);
    values.push(Value {
        cell: (values.len() + 1).to_string(),
        name: "real year".to_string(),
        kind: "signed".to_string(),
    });
    values
}

fn in_reference() -> Templates {
    let name = |section, number| format!("{section}.{number}");
    let without = &identification::WITHOUT_TEMPLATE;
    let mut all = vec![
        ("no template".to_string(), values_with_year(without)),
        (name(7, 0), values(&[block(HEAD)])),
    ];
    for form in identification::WITH_TEMPLATE {
        let number = form.template.expect("all have one");
        all.push((name(1, number), values_with_year(form)));
    }
    let grids = grid::TEMPLATES.iter();
    all.extend(grids.map(|one| (name(3, one.number), values(one.blocks))));
    let products = product::TEMPLATES.iter();
    all.extend(products.map(|one| (name(4, one.number), values(one.blocks))));
    let packings = packing::TEMPLATES.iter();
    all.extend(packings.map(|one| (name(5, one.number), values(one.blocks))));
    let counted = all.into_iter().map(|(name, values)| {
        let count = values.len();
        (name, Template { count, values })
    });
    counted.collect()
}

// ---- compared

#[test]
fn values_of_sections() {
    let (document, mut reference) = (in_document(), in_reference());
    for (template, listed) in document {
        let owed = reference.remove(&template);
        assert_eq!(Some(listed), owed, "{template}");
    }
    assert!(reference.is_empty(), "not in the document: {reference:?}");
}

/// Name and value of what a card takes from section 1, and of the issue.
fn named_values(one: &[u8], issue: u32) -> BTreeMap<&'static str, i64> {
    let read = identification::read(one).expect("accepted");
    let fields = rows(identification::WITHOUT_TEMPLATE.blocks);
    let mut named: BTreeMap<_, _> = fields.map(|field| field.name).zip(read.values()).collect();
    named.insert("real year", read.real_year);
    named.insert("issue", i64::from(issue));
    named
}

#[test]
fn values_of_a_slot() {
    let (one, mut four) = (section1([7, 0xe8], 3, &[]), section4(0, 34, 0, 0, 0));
    for at in 10..=34 {
        four[at - 1] = at as u8;
    }
    let (three, five, seven) = (four_by_three(12), section5(12, 0), section7(&[]));
    let sections: [&[u8]; 5] = [&one, &three, &four, &five, &seven];
    let card = Card::to_file(7, Some(40), sections).expect("accepted");
    let (named, values) = (named_values(&one, 40), card.values());
    let slot = tables(DOCUMENT).pop().expect("the last table");
    let (octets, times) = slot.rows.split_last().expect("rows");
    for (at, row) in times.iter().enumerate() {
        assert_eq!(row[0], (at + 1).to_string());
        assert_eq!(values[at], named[row[1]], "{}", row[1]);
    }
    assert_eq!(octets[0], "8-34");
    assert!(octets[1].starts_with("octets 8-34 of section 4"));
    let octets_8_to_34: Vec<i64> = four[7..34].iter().map(|&octet| octet.into()).collect();
    assert_eq!((times.len(), &values[7..]), (7, &octets_8_to_34[..]));
}
