// The lines of a paper in words, without comments and empty lines, and what one line may hold: a word
// alone, a word with its value, or a row of numbers.

use crate::numbers::{quoted, read, whole};
use crate::rules::{may_be, Fault};
use crate::vocabulary::{choice, named, Names, Word};

/// A line that says something: its number, its first part and the others.
pub struct Line<'a> {
    pub number: usize,
    pub first: &'a str,
    others: Vec<&'a str>,
}

/// Parts are parted by spaces and tabs; # begins a comment.
pub fn lines(text: &str) -> Vec<Line<'_>> {
    let numbered = (1..).zip(text.lines());
    let said = numbered.filter_map(|(number, line)| {
        let said = line.split('#').next()?;
        let mut parts = said.split([' ', '\t']).filter(|part| !part.is_empty());
        Some(Line {
            number,
            first: parts.next()?,
            others: parts.collect(),
        })
    });
    said.collect()
}

/// '1 row', '2 rows'.
pub fn counted(count: usize, what: &str) -> String {
    let end = if count == 1 { "" } else { "s" };
    format!("{count} {what}{end}")
}

impl Line<'_> {
    pub fn fault(&self, why: String) -> Fault {
        Fault {
            line: self.number,
            why,
        }
    }

    /// A word without a value.
    pub fn alone(&self) -> Result<(), Fault> {
        match self.others.first() {
            None => Ok(()),
            Some(more) => Err(self.more(more)),
        }
    }

    /// The value of a word, and nothing behind it. `what` says what it should be.
    fn value(&self, what: &str) -> Result<&str, Fault> {
        match self.others[..] {
            [value] => Ok(value),
            [] => Err(self.fault(format!(
                "expected {what} after '{}', found the end of the line",
                self.first
            ))),
            [_, more, ..] => Err(self.more(more)),
        }
    }

    fn more(&self, more: &str) -> Fault {
        let found = quoted(more);
        self.fault(format!("expected the end of the line, found {found}"))
    }

    /// A word with a number, as its bits.
    pub fn bits(&self) -> Result<u64, Fault> {
        read(self.value("a number")?).map_err(|why| self.fault(why))
    }

    /// A word with a whole number that a file takes.
    pub fn size(&self, word: Word) -> Result<usize, Fault> {
        let value = self.value("a whole number")?;
        let number = whole(value).map_err(|why| self.fault(why))?;
        may_be(word, number, value).map_err(|why| self.fault(why))?;
        Ok(number)
    }

    /// A word with one of these names.
    pub fn one_of<T: Copy>(&self, names: &Names<T>) -> Result<T, Fault> {
        let expected = choice(names);
        let value = self.value(&expected)?;
        named(names, value)
            .ok_or_else(|| self.fault(format!("expected {expected}, found {}", quoted(value))))
    }

    /// A row of so many numbers, as their bits.
    pub fn row(&self, columns: usize) -> Result<Vec<u64>, Fault> {
        let parts = [&[self.first], &self.others[..]].concat();
        let numbers: Result<Vec<u64>, String> = parts.into_iter().map(read).collect();
        let row = numbers.map_err(|why| self.fault(why))?;
        if row.len() != columns {
            let expected = counted(columns, "number");
            return Err(self.fault(format!("expected {expected}, found {}", row.len())));
        }
        Ok(row)
    }
}
