//! The page as text: its tables and its blocks, each line with its number.

use model::words::bytes_of_hex;

/// What is wrong, and on which line of the page.
pub struct Wrong {
    pub line: usize,
    pub what: String,
}

pub type Checked<T> = Result<T, Wrong>;

pub fn wrong<T>(line: usize, what: impl Into<String>) -> Checked<T> {
    Err(Wrong { line, what: what.into() })
}

/// Wrong where the two differ.
pub fn same<T: PartialEq + std::fmt::Display>(line: usize, what: &str, page: T, found: T) -> Checked<()> {
    if page == found {
        Ok(())
    } else {
        wrong(line, format!("{what}: the page has {page}, but it is {found}"))
    }
}

/// Wrong where a value inside a range is refused, or one outside is not.
pub fn in_range(line: usize, value: i64, inside: bool, refused: bool) -> Checked<()> {
    if inside != refused {
        Ok(())
    } else {
        wrong(line, format!("{value} is {}", if inside { "refused" } else { "taken" }))
    }
}

pub struct Page(String);

/// A row of a table: its cells by the names of their columns.
pub struct Row<'a> {
    pub line: usize,
    cells: Vec<(&'a str, &'a str)>,
}

/// Bytes of a layout, and of each row that it counts: 0 where it counts none.
#[derive(Clone, Copy)]
pub struct Size {
    pub fixed: usize,
    pub row: usize,
}

/// A line of a block, and the comment behind it.
pub struct BlockLine<'a> {
    pub line: usize,
    pub text: &'a str,
    pub comment: &'a str,
}

fn cells(line: &str) -> impl Iterator<Item = &str> {
    line.trim().trim_matches('|').split('|').map(|cell| cell.trim().trim_matches('`'))
}

/// Below 0 it has the sign − in front, no hyphen: that stands between the ends of a range.
pub fn number_of(text: &str) -> Option<i64> {
    let (sign, digits) = text.strip_prefix('−').map_or((1, text), |digits| (-1, digits));
    let number: Option<u32> = digits.replace(',', "").parse().ok();
    number.map(|number| sign * i64::from(number))
}

impl Page {
    pub fn new(text: String) -> Page {
        Page(text)
    }

    /// The lines with their numbers.
    pub fn lines(&self) -> impl Iterator<Item = (usize, &str)> {
        self.0.lines().enumerate().map(|(k, text)| (k + 1, text))
    }

    /// The table under the heading whose first column has this name.
    pub fn table(&self, heading: &str, column: &str) -> Checked<Vec<Row<'_>>> {
        let Some((top, _)) = self.lines().find(|(_, text)| text.trim_start_matches('#').trim() == heading) else {
            return wrong(1, format!("no heading '{heading}'"));
        };
        let section = || self.lines().skip(top).take_while(|(_, text)| !text.starts_with('#'));
        let is_head = |text: &str| text.starts_with('|') && cells(text).next() == Some(column);
        let Some((head_line, head)) = section().find(|(_, text)| is_head(text)) else {
            return wrong(top, format!("no table that begins with '{column}'"));
        };
        let below = section().skip_while(|(line, _)| *line < head_line + 2);
        let rows: Vec<Row> = below
            .take_while(|(_, text)| text.starts_with('|'))
            .map(|(line, text)| Row { line, cells: cells(head).zip(cells(text)).collect() })
            .collect();
        if rows.is_empty() {
            wrong(head_line, "a table without rows")
        } else {
            Ok(rows)
        }
    }

    /// The block with this word behind its opening marks.
    pub fn block(&self, word: &str) -> Checked<Vec<BlockLine<'_>>> {
        let opening = format!("```{word}");
        let Some((top, _)) = self.lines().find(|(_, text)| **text == opening) else {
            return wrong(1, format!("no block '{word}'"));
        };
        let inside = self.lines().skip(top).take_while(|(_, text)| *text != "```");
        let lines: Vec<BlockLine> = inside
            .map(|(line, text)| (line, text.split_once('#').unwrap_or((text, ""))))
            .map(|(line, (text, comment))| BlockLine { line, text: text.trim(), comment: comment.trim() })
            .filter(|line| !line.text.is_empty())
            .collect();
        if lines.is_empty() {
            wrong(top, format!("the block '{word}' is empty"))
        } else {
            Ok(lines)
        }
    }
}

impl Size {
    pub fn with(&self, rows: usize) -> usize {
        self.fixed + self.row * rows
    }
}

impl<'a> Row<'a> {
    pub fn text(&self, column: &str) -> Checked<&'a str> {
        let cell = self.cells.iter().find(|(name, _)| *name == column);
        cell.map_or_else(|| wrong(self.line, format!("no column '{column}'")), |&(_, text)| Ok(text))
    }

    pub fn number(&self, column: &str) -> Checked<i64> {
        let text = self.text(column)?;
        number_of(text).map_or_else(|| wrong(self.line, format!("{column} '{text}' is no number")), Ok)
    }

    /// A number from 0 to `most`.
    pub fn number_to(&self, column: &str, most: i64) -> Checked<usize> {
        match self.number(column)? {
            number if !(0..=most).contains(&number) => wrong(self.line, format!("{column} {number} is too much")),
            number => Ok(number as usize),
        }
    }

    /// A number with nothing behind it or `each`, for what stands in every row of a layout.
    pub fn each(&self, column: &str) -> Checked<(usize, bool)> {
        let text = self.text(column)?;
        let (number, each) = text.strip_suffix(" each").map_or((text, false), |number| (number, true));
        match number_of(number).map(usize::try_from) {
            Some(Ok(number)) => Ok((number, each)),
            _ => wrong(self.line, format!("{column} '{text}' is no number")),
        }
    }

    /// A cell such as 25, or 18 + 16 × count.
    pub fn size(&self, column: &str) -> Checked<Size> {
        let text = self.text(column)?;
        let (fixed, row) = text.strip_suffix(" × count").and_then(|text| text.split_once(" + ")).unwrap_or((text, "0"));
        match (fixed.parse(), row.parse()) {
            (Ok(fixed), Ok(row)) => Ok(Size { fixed, row }),
            _ => wrong(self.line, format!("{column} '{text}' is no size")),
        }
    }

    /// The width of a field in bytes.
    pub fn width(&self) -> Checked<usize> {
        self.number_to("Width", 4)
    }

    /// The two ends of a cell such as 0-31.
    pub fn ends(&self, column: &str) -> Checked<(&'a str, &'a str)> {
        let text = self.text(column)?;
        text.split_once('-').map_or_else(|| wrong(self.line, format!("{column} '{text}' is no range")), Ok)
    }

    pub fn range(&self, column: &str) -> Checked<(i64, i64)> {
        match self.ends(column).map(|(low, high)| (number_of(low), number_of(high)))? {
            (Some(low), Some(high)) => Ok((low, high)),
            _ => wrong(self.line, format!("{column} '{}' is no range", self.text(column)?)),
        }
    }
}

impl BlockLine<'_> {
    /// Its first word and the rest.
    pub fn split(&self) -> (&str, &str) {
        let (word, rest) = self.text.split_once(' ').unwrap_or((self.text, ""));
        (word, rest.trim())
    }
}

/// The bytes that hexadecimal digits with blanks between them stand for.
pub fn hex_bytes(line: usize, text: &str) -> Checked<Vec<u8>> {
    bytes_of_hex(&text.replace(' ', "")).map_or_else(|| wrong(line, format!("'{text}' is not hexadecimal")), Ok)
}

/// In two's complement where it is below 0.
pub fn put(number: i64, width: usize, to: &mut Vec<u8>) {
    to.extend(&number.to_be_bytes()[8 - width..]);
}

/// The ends of a range, and what lies next to them so far as so many bits hold it: each with whether it is inside. A
/// range that begins below 0 is one of signed numbers.
pub fn bounds(line: usize, low: i64, high: i64, bits: usize) -> Checked<Vec<(i64, bool)>> {
    let least = if low < 0 { (-1 << bits) / 2 } else { 0 };
    let most = least + (1 << bits) - 1;
    if low > high || low < least || high > most {
        return wrong(line, format!("{low} to {high} is no range of numbers up to {most}"));
    }
    let mut values = vec![(low, true), (high, true)];
    if low > least {
        values.push((low - 1, false));
    }
    if high < most {
        values.push((high + 1, false));
    }
    Ok(values)
}
