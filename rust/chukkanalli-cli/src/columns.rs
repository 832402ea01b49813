//! Rows of cells in columns.

/// Where the text of a cell stands in its column.
#[derive(Clone, Copy, Debug, PartialEq, Eq)]
pub enum Side {
    Left,
    Right,
}

/// The rows as lines, each column as wide as its widest cell, two blanks between columns and none at a line's end.
pub fn lines<const N: usize>(sides: [Side; N], rows: &[[String; N]]) -> String {
    let widths: [usize; N] =
        std::array::from_fn(|column| rows.iter().map(|row| width(&row[column])).max().unwrap_or(0));
    let mut text = String::new();
    for row in rows {
        let mut line = String::new();
        for ((cell, side), total) in row.iter().zip(sides).zip(widths) {
            let blanks = " ".repeat(total - width(cell));
            match side {
                Side::Left => line += &format!("{cell}{blanks}  "),
                Side::Right => line += &format!("{blanks}{cell}  "),
            }
        }
        text += line.trim_end();
        text.push('\n');
    }
    text
}

fn width(cell: &str) -> usize {
    cell.chars().count()
}

#[cfg(test)]
mod tests {
    use super::*;

    #[test]
    fn columns_are_as_wide_as_their_widest_cell() {
        let rows =
            [["", "units", "name"], ["worth", "6", "ä"], ["best value", "12", ""]].map(|row| row.map(str::to_string));
        let text = lines([Side::Left, Side::Right, Side::Left], &rows);
        assert_eq!(text, "            units  name\nworth           6  ä\nbest value     12\n");
        assert_eq!(lines([Side::Left], &[]), "");
    }
}
