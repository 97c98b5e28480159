//! The scaler settings that the chip's data sheet prints, against what the check gives, and the list
//! of their differences in docs/PRINTED-ROWS.md against what this test finds.

use std::collections::BTreeMap;

use thymeflask_tests::library::{self, FIELDS_BYTES, REQUEST_BYTES};

const ROWS: &str = include_str!("../data/scaler-rows.tsv");
const PAGE: &str = include_str!("../../docs/PRINTED-ROWS.md");

/// The printed fields in the order of their columns, and the place of each among the 17 numbers.
const FIELDS: [(&str, usize); 9] = [
    ("FAL", 3),
    ("LAL", 4),
    ("PCL", 5),
    ("YINC", 13),
    ("YSKIP", 16),
    ("YOFSO", 8),
    ("YOFSE", 9),
    ("YIWGTO", 14),
    ("YIWGTE", 15),
];
const YSKIP: usize = 4;
const YOFSO: usize = 5;

type Numbers = [i64; FIELDS.len()];

/// A printed row.
struct Row {
    table: i64,
    standard: i64,
    in_pix: i64,
    in_lin: i64,
    out_pix: i64,
    lines: i64,
    offset: i64,
    printed: Numbers,
}

/// A printed row with what the check says of its picture: the computed numbers, or a refusal's reply.
struct Answered {
    row: Row,
    answer: Result<Numbers, u32>,
}

fn row(line: &str) -> Row {
    let cells: Vec<&str> = line.split('\t').collect();
    assert_eq!(cells.len(), 8 + FIELDS.len(), "columns of {line:?}");
    let number = |column: usize| -> i64 { cells[column].parse().expect(line) };
    // Column 4 names the filter: what it means is in YSKIP.
    Row {
        table: number(0),
        standard: number(1),
        in_pix: number(2),
        in_lin: number(3),
        out_pix: number(5),
        lines: number(6),
        offset: number(7),
        printed: std::array::from_fn(|field| number(8 + field)),
    }
}

/// InPpl and XOFS, which the tables do not print.
fn unprinted(in_pix: i64) -> (i64, i64) {
    match in_pix {
        640 => (800, 80),
        800 => (1024, 200),
        _ => panic!("no printed source is {in_pix} wide"),
    }
}

fn request(row: &Row) -> [u8; REQUEST_BYTES] {
    let (in_ppl, xofs) = unprinted(row.in_pix);
    let numbers = [
        row.in_pix,
        row.in_lin,
        in_ppl,
        row.out_pix,
        row.lines,
        row.printed[YSKIP],
        xofs,
        row.printed[YOFSO],
    ];
    let mut bytes = [0; REQUEST_BYTES];
    bytes[0] = u8::try_from(row.standard).expect("a standard");
    for (place, &number) in numbers.iter().enumerate() {
        let low_first = u16::try_from(number).expect("16 bits").to_le_bytes();
        bytes[1 + 2 * place..3 + 2 * place].copy_from_slice(&low_first);
    }
    bytes[17] = i8::try_from(row.offset).expect("an offset").to_le_bytes()[0];
    bytes
}

fn ask(row: &Row) -> Result<Numbers, u32> {
    let mut fields = [0; FIELDS_BYTES];
    match library::check(&request(row), &mut fields) {
        0 => Ok(FIELDS.map(|(_, place)| {
            let bytes = [0, 1, 2, 3].map(|byte| fields[4 * place + byte]);
            i64::from(u32::from_le_bytes(bytes))
        })),
        reply => Err(reply),
    }
}

fn answered_rows() -> Vec<Answered> {
    let lines = ROWS.lines().filter(|line| !line.starts_with('#'));
    let rows = lines.map(row);
    rows.map(|row| Answered {
        answer: ask(&row),
        row,
    })
    .collect()
}

/// Each field that differs in a row: its name, the printed and the computed number.
fn differences(one: &Answered) -> Vec<(&'static str, i64, i64)> {
    let Ok(computed) = one.answer else {
        return Vec::new();
    };
    let printed = one.row.printed;
    (0..FIELDS.len())
        .filter(|&field| printed[field] != computed[field])
        .map(|field| (FIELDS[field].0, printed[field], computed[field]))
        .collect()
}

/// The lines of the page's table under a heading, without the title line and the rule below it.
fn page_table(heading: &str) -> Vec<String> {
    let title = format!("\n## {heading}\n");
    let section = PAGE.split(&title).nth(1).expect(heading);
    let section = section.split("\n## ").next().expect(heading);
    let lines = section.lines().filter(|line| line.starts_with('|'));
    lines.skip(2).map(String::from).collect()
}

/// The same with each line that names several offsets taken apart, a line for each.
fn page_table_by_offset(heading: &str) -> Vec<String> {
    let mut lines = Vec::new();
    for line in page_table(heading) {
        let cells: Vec<&str> = line.split('|').collect();
        assert!(cells.len() > 4, "{line:?} has no offsets");
        for offset in cells[3].split_whitespace() {
            let offset = format!(" {offset} ");
            let mut single = cells.clone();
            single[3] = &offset;
            lines.push(single.join("|"));
        }
    }
    lines
}

/// The two have the same lines, in any order, each as often.
fn compare(heading: &str, mut found: Vec<String>, mut listed: Vec<String>) {
    found.sort();
    listed.sort();
    let missing: Vec<_> = found.iter().filter(|l| !listed.contains(l)).collect();
    let wrong: Vec<_> = listed.iter().filter(|l| !found.contains(l)).collect();
    assert!(
        found == listed,
        "{heading}: {} lines found, {} listed; found and not listed: {missing:#?}; \
         listed and not found: {wrong:#?}",
        found.len(),
        listed.len(),
    );
}

#[test]
fn every_differing_field_is_listed() {
    let mut found = Vec::new();
    for one in answered_rows() {
        let row = &one.row;
        for (field, printed, computed) in differences(&one) {
            found.push(format!(
                "| {} | {} | {} | {field} | {printed} | {computed} |",
                row.table, row.lines, row.offset
            ));
        }
    }
    let heading = "Rows that differ";
    compare(heading, found, page_table_by_offset(heading));
}

#[test]
fn every_refused_row_is_listed() {
    let mut found = Vec::new();
    for Answered { row, answer } in answered_rows() {
        if let Err(reply) = answer {
            found.push(format!(
                "| {} | {} | {} | {reply} |",
                row.table, row.lines, row.offset
            ));
        }
    }
    let heading = "Rows that are refused";
    compare(heading, found, page_table_by_offset(heading));
}

#[test]
fn the_rows_of_each_table_are_counted() {
    // Rows, those that agree, those that differ, those that are refused.
    let mut tables: BTreeMap<i64, [usize; 4]> = BTreeMap::new();
    let mut all = [0; 4];
    for one in answered_rows() {
        let kind = match one.answer {
            Err(_) => 3,
            Ok(_) if differences(&one).is_empty() => 1,
            Ok(_) => 2,
        };
        for counts in [tables.entry(one.row.table).or_default(), &mut all] {
            counts[0] += 1;
            counts[kind] += 1;
        }
    }
    let line = |name: &str, [rows, agree, differ, refused]: [usize; 4]| {
        format!("| {name} | {rows} | {agree} | {differ} | {refused} |")
    };
    let mut found: Vec<String> = tables
        .iter()
        .map(|(table, &counts)| line(&table.to_string(), counts))
        .collect();
    found.push(line("all", all));
    let heading = "Rows that agree, differ and are refused";
    compare(heading, found, page_table(heading));
}

#[test]
fn the_differences_of_each_field_are_counted() {
    let rows = answered_rows();
    let all: Vec<_> = rows.iter().flat_map(differences).collect();
    let found = FIELDS.map(|(name, _)| {
        let of_field = all.iter().filter(|(field, _, _)| *field == name);
        let sizes: Vec<i64> = of_field.map(|(_, p, c)| p - c).collect();
        let least = sizes.iter().min().unwrap_or(&0);
        let most = sizes.iter().max().unwrap_or(&0);
        format!("| {name} | {} | {least} | {most} |", sizes.len())
    });
    let heading = "Fields that differ";
    compare(heading, found.to_vec(), page_table(heading));
}
