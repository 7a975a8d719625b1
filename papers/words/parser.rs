// The parser of a paper in words: a word on each line, with its value, and below 'returns' and 'given'
// their rows. It stops at the first thing that is wrong.

use crate::lines::{counted, lines, Line};
use crate::numbers::{quoted, read};
use crate::record::{Estimate, Record, Shrinkage};
use crate::rules::{may_come, record, Draft, Fault};
use crate::vocabulary::{choice, name, named, Word, QUESTIONS, TARGETS, WORDS};
use std::iter::Peekable;
use std::vec::IntoIter;

pub fn parse(text: &str) -> Result<Record, Fault> {
    let mut parser = Parser {
        lines: lines(text).into_iter().peekable(),
        draft: Draft::default(),
        end: text.lines().count().max(1),
    };
    while let Some(line) = parser.lines.next() {
        parser.entry(&line)?;
    }
    record(parser.draft, parser.end)
}

struct Parser<'a> {
    /// Those that are left.
    lines: Peekable<IntoIter<Line<'a>>>,
    draft: Draft,
    /// The number of the last line.
    end: usize,
}

impl Parser<'_> {
    /// A word with what belongs to it.
    fn entry(&mut self, line: &Line) -> Result<(), Fault> {
        let known = named(WORDS, line.first);
        let word = known.ok_or_else(|| line.fault(self.no_word(line.first)))?;
        may_come(word, &self.draft).map_err(|why| line.fault(why))?;
        match word {
            Word::Assets => self.draft.assets = Some(line.size(word)?),
            Word::Periods => self.draft.periods = Some(line.size(word)?),
            Word::Returns => self.draft.returns = Some(self.rows(word, line)?),
            Word::Regularization => self.draft.regularization = Some(line.bits()?),
            Word::Shrink | Word::LedoitWolf => self.draft.shrinkage = Some(shrinkage(word, line)?),
            Word::Limit => self.draft.limit = Some(line.size(word)?),
            Word::Question => self.draft.question = Some(line.one_of(QUESTIONS)?),
            _ => self.draft.estimate = Some(self.estimate(word, line)?),
        }
        self.draft.said.push((word, line.number));
        Ok(())
    }

    fn estimate(&mut self, word: Word, line: &Line) -> Result<Estimate, Fault> {
        Ok(match word {
            Word::HalfLife => Estimate::HalfLife(line.bits()?),
            Word::DecayFactor => Estimate::DecayFactor(line.bits()?),
            Word::Threshold => Estimate::Threshold(line.bits()?),
            Word::Given => Estimate::Given(self.rows(word, line)?),
            _ => {
                line.alone()?;
                Estimate::Semi
            }
        })
    }

    /// The rows below the word on `line`, one after another.
    fn rows(&mut self, word: Word, line: &Line) -> Result<Vec<u64>, Fault> {
        line.alone()?;
        let (rows, columns) = self.shape(word);
        let mut numbers = Vec::new();
        for row in 0..rows {
            let next = self
                .lines
                .next_if(|next| named(WORDS, next.first).is_none());
            let next = next.ok_or_else(|| self.too_few(word, rows, row))?;
            numbers.extend(next.row(columns)?);
        }
        Ok(numbers)
    }

    /// Rows and columns of 'returns' or 'given'. Without assets there are no rows.
    fn shape(&self, word: Word) -> (usize, usize) {
        let assets = self.draft.assets.unwrap_or(0);
        let periods = self.draft.periods.unwrap_or(0);
        match word {
            _ if assets == 0 => (0, 0),
            Word::Returns => (periods, assets),
            _ => (assets, assets),
        }
    }

    fn too_few(&mut self, word: Word, rows: usize, found: usize) -> Fault {
        let (line, then) = match self.lines.peek() {
            Some(next) => (next.number, quoted(next.first)),
            None => (self.end, "the end of the paper".to_string()),
        };
        let (rows, word) = (counted(rows, "row"), name(WORDS, word));
        let why = format!("expected {rows} below '{word}', found {found}, then {then}");
        Fault { line, why }
    }

    /// What is said of something else where a word should be.
    fn no_word(&self, found: &str) -> String {
        match self.draft.said.last() {
            Some(&(word @ (Word::Returns | Word::Given), _)) if read(found).is_ok() => {
                let (rows, word) = (counted(self.shape(word).0, "row"), name(WORDS, word));
                format!("expected {rows} below '{word}', found more")
            }
            _ => format!("expected {}, found {}", choice(WORDS), quoted(found)),
        }
    }
}

fn shrinkage(word: Word, line: &Line) -> Result<Shrinkage, Fault> {
    Ok(match word {
        Word::Shrink => Shrinkage::Fixed(line.bits()?),
        _ => Shrinkage::LedoitWolf(line.one_of(TARGETS)?),
    })
}
