//! From the rows of a file to the order of a table: by their labels, or as they come.

use super::entries::{Entries, ReadBy};
use super::fault::Faults;
use super::labels::Labels;
use super::number::Number;
use super::rows::{Label, Row, Rows};
use super::words::counted;

/// The numbers as they come, where no row with numbers has a label.
pub fn by_position<T: Number>(rows: Rows<T>, mut faults: Faults) -> Result<Entries<T>, Faults> {
    for row in rows.rows.iter().filter(|row| row.label != Label::None) {
        faults.add(Some(row.line), || "a label stands alone here; it belongs behind the parts of its set".to_string());
    }
    faults.none()?;
    let lines = (0..rows.rows.len()).flat_map(|row| rows.places(row).map(move |_| row)).map(|row| rows.rows[row].line);
    let lines = lines.collect();
    Ok(Entries { numbers: rows.numbers, read_by: ReadBy::Position, lines, last_line: rows.last_line })
}

/// Whether a row with numbers has a label, right or wrong.
pub fn is_labelled<T: Number>(rows: &Rows<T>) -> bool {
    (0..rows.rows.len()).any(|row| rows.rows[row].label != Label::None && !rows.places(row).is_empty())
}

/// The numbers of each row at the place of its set. Each row counts by itself, and each set needs one.
pub fn by_labels<T: Number>(
    rows: Rows<T>,
    labels: &Labels,
    d: Option<u64>,
    mut faults: Faults,
) -> Result<Entries<T>, Faults> {
    let row_of = rows_by_set(&rows, labels, &mut faults);
    for (place, row) in rows.rows.iter().enumerate() {
        let numbers = &rows.numbers[rows.places(place)];
        match row.label {
            Label::None if !row.spoiled => faults.add(Some(row.line), || without_label::<T>(numbers.len())),
            Label::Of(set) if !row.spoiled => hold_count(row, set, numbers, labels, &mut faults),
            _ => {}
        }
    }
    if !faults.is_empty() {
        add_odd_sums(&rows, labels, d, &mut faults);
        return Err(faults);
    }
    let mut numbers = Vec::with_capacity(rows.numbers.len());
    let mut lines = Vec::with_capacity(rows.numbers.len());
    for row in row_of.into_iter().flatten() {
        let places = rows.places(row);
        lines.resize(lines.len() + places.len(), rows.rows[row].line);
        numbers.extend_from_slice(&rows.numbers[places]);
    }
    Ok(Entries { numbers, read_by: ReadBy::Labels, lines, last_line: rows.last_line })
}

/// The row of each set, with a fault for each set that has none or several.
fn rows_by_set<T: Number>(rows: &Rows<T>, labels: &Labels, faults: &mut Faults) -> Vec<Option<usize>> {
    let mut row_of = vec![None; labels.sets().len()];
    let mut doubled = vec![false; labels.sets().len()];
    for (place, row) in rows.rows.iter().enumerate() {
        let Label::Of(set) = row.label else { continue };
        let Some(first) = row_of[set] else {
            row_of[set] = Some(place);
            continue;
        };
        let first: &Row = &rows.rows[first];
        let also = |line: usize| format!("{} stands in line {line} too", labels.label(set));
        if !doubled[set] {
            faults.add(Some(first.line), || also(row.line));
        }
        faults.add(Some(row.line), || also(first.line));
        doubled[set] = true;
    }
    // Where no label is of this game, that alone is told.
    if row_of.iter().any(Option::is_some) {
        for set in (0..row_of.len()).filter(|&set| row_of[set].is_none()) {
            faults.add(None, || format!("no line has the label {}", labels.label(set)));
        }
    }
    row_of
}

fn without_label<T: Number>(count: usize) -> String {
    let numbers = counted(count, T::NAME);
    format!("{numbers} without a label; where one line has its set's label behind a #, each needs it")
}

fn hold_count<T: Number>(row: &Row, set: usize, numbers: &[T], labels: &Labels, faults: &mut Faults) {
    let needed = labels.sets()[set].legal.len();
    if numbers.len() != needed {
        let has = counted(numbers.len(), T::NAME);
        let sentence = || format!("{} has {has} and needs {needed} ({})", labels.words(set), labels.actions(set));
        faults.add(Some(row.line), sentence);
    }
}

/// Beside other faults, the rows that do not add up.
fn add_odd_sums<T: Number>(rows: &Rows<T>, labels: &Labels, d: Option<u64>, faults: &mut Faults) {
    for (place, row) in rows.rows.iter().enumerate() {
        let Label::Of(set) = row.label else { continue };
        let numbers = &rows.numbers[rows.places(place)];
        if row.spoiled || numbers.len() != labels.sets()[set].legal.len() {
            continue;
        }
        if let Some(odd) = T::odd_sum(numbers, d) {
            faults.add(Some(row.line), || format!("{} {}", labels.words(set), odd.sentence));
        }
    }
}
