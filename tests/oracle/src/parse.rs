//! Refusals 1 to 5 and 21: from words to what they say, each word tested for 2, then 4, then 3, then 5, then 21.

use crate::limits;
use crate::refusal::{self, Refusal};
use crate::syntax::{Change, Class, Condition, Event, Row, Rows, Sheet, Table, Test, Variable};
use crate::word::{self, field, kind};
use std::ops::Range;

/// What the words say, and for each table the part of the words it takes up.
#[derive(Clone, Debug, PartialEq, Eq)]
pub struct Parsed {
    pub sheet: Sheet,
    pub parts: Vec<Range<usize>>,
}

pub fn parse(words: &[u32]) -> Result<Parsed, Refusal> {
    if words.is_empty() || words.len() > limits::WORDS {
        return Err(refusal::length(words.len()));
    }
    let mut reader = Reader { words, at: 0, sheet: Sheet::default() };
    let mut parts = Vec::new();
    while reader.kind_here() == Some(word::VARIABLE) {
        reader.variable()?;
    }
    while reader.kind_here() == Some(word::TABLE) {
        let first = reader.at;
        reader.table()?;
        parts.push(first..reader.at);
    }
    while reader.at < words.len() {
        reader.assertion()?;
    }
    Ok(Parsed { sheet: reader.sheet, parts })
}

struct Reader<'a> {
    words: &'a [u32],
    at: usize,
    sheet: Sheet,
}

impl Reader<'_> {
    fn kind_here(&self) -> Option<u32> {
        self.words.get(self.at).map(|&word| kind(word))
    }

    /// The word that stands here and its index, tested for refusal 2. At the end of the words the index is the length.
    fn take(&mut self, allowed: &[u32]) -> Result<(usize, u32), Refusal> {
        let index = self.at;
        match self.words.get(index) {
            Some(&word) if allowed.contains(&kind(word)) && !word::has_spare_bits(word) => {
                self.at += 1;
                Ok((index, word))
            }
            _ => Err(refusal::misplaced(index)),
        }
    }

    fn variable(&mut self) -> Result<(), Refusal> {
        let (index, word) = self.take(&[word::VARIABLE])?;
        if self.sheet.variables.len() == limits::VARIABLES {
            return Err(refusal::over_limit(index));
        }
        let class = class(field(word, 27, 24)).ok_or(refusal::out_of_range(index))?;
        let (size, initial) = (field(word, 23, 12), field(word, 11, 0));
        let largest = if class == Class::ModeClass { limits::MODES } else { limits::SIZE };
        if size < limits::SIZE_LEAST || size > largest || initial >= size {
            return Err(refusal::out_of_range(index));
        }
        self.sheet.variables.push(Variable { class, size, initial });
        Ok(())
    }

    fn table(&mut self) -> Result<(), Refusal> {
        let (index, word) = self.take(&[word::TABLE])?;
        let table_type = field(word, 27, 24);
        let variable = field(word, 23, 16) as usize;
        let class_read = Some(field(word, 15, 8)).filter(|&class| class != word::NONE).map(|class| class as usize);
        let count = self.sheet.variables.len();
        if !(1..=3).contains(&table_type) || variable >= count || class_read.is_some_and(|class| class >= count) {
            return Err(refusal::out_of_range(index));
        }
        if !self.table_fits(table_type, variable, class_read) {
            return Err(refusal::unfit_table(index));
        }
        // The same variable again is tabled already, which is refusal 5.
        if self.sheet.tables.last().is_some_and(|before| variable < before.variable) {
            return Err(refusal::out_of_order(index));
        }
        let rows = match table_type {
            1 => Rows::Mode(self.rows(variable, class_read, Self::event)?),
            2 => Rows::Event(self.rows(variable, class_read, Self::event)?),
            _ => Rows::Condition(self.rows(variable, class_read, Self::condition)?),
        };
        self.sheet.tables.push(Table { variable, class_read, rows });
        Ok(())
    }

    /// Refusal 5, for a table word whose fields are in range.
    fn table_fits(&self, table_type: u32, variable: usize, class_read: Option<usize>) -> bool {
        let class = self.sheet.variables[variable].class;
        let tabled = self.sheet.table_of(variable).is_some();
        let type_fits = (table_type == 1) == (class == Class::ModeClass);
        let class_fits = match class_read {
            _ if table_type == 1 => class_read == Some(variable),
            Some(read) => self.sheet.variables[read].class == Class::ModeClass,
            None => true,
        };
        class != Class::Monitored && !tabled && type_fits && class_fits
    }

    /// One row at least: a word of another kind where the first must stand is refused.
    fn rows<Formula>(
        &mut self,
        variable: usize,
        class_read: Option<usize>,
        formula: fn(&mut Self, usize) -> Result<Formula, Refusal>,
    ) -> Result<Vec<Row<Formula>>, Refusal> {
        let mut rows = Vec::new();
        while rows.is_empty() || self.kind_here() == Some(word::ROW) {
            let (mode, value) = self.row(variable, class_read, rows.len())?;
            let formula = formula(self, 1)?;
            rows.push(Row { mode, value, formula });
        }
        Ok(rows)
    }

    fn row(
        &mut self,
        variable: usize,
        class_read: Option<usize>,
        rows_before: usize,
    ) -> Result<(Option<u32>, u32), Refusal> {
        let (index, word) = self.take(&[word::ROW])?;
        if rows_before == limits::ROWS {
            return Err(refusal::over_limit(index));
        }
        let mode = Some(field(word, 27, 20)).filter(|&mode| mode != word::NONE);
        let value = field(word, 7, 0);
        let modes = class_read.map_or(0, |class| self.sheet.variables[class].size);
        if mode.is_some_and(|mode| mode >= modes) || value >= self.sheet.variables[variable].size {
            return Err(refusal::out_of_range(index));
        }
        Ok((mode, value))
    }

    fn event(&mut self, depth: usize) -> Result<Event, Refusal> {
        let (index, word) = self.take(&[word::OR, word::CHANGE, word::CONSTANT])?;
        if depth > limits::DEPTH {
            return Err(refusal::over_limit(index));
        }
        match kind(word) {
            word::OR => {
                let first = self.event(depth + 1)?;
                let second = self.event(depth + 1)?;
                Ok(Event::Or(Box::new(first), Box::new(second)))
            }
            word::CHANGE => {
                let change = change(field(word, 27, 24)).ok_or(refusal::out_of_range(index))?;
                let c = self.condition(depth + 1)?;
                let d = self.condition(depth + 1)?;
                Ok(Event::Change { change, c, d })
            }
            _ if field(word, 0, 0) == 1 => Err(refusal::out_of_range(index)),
            _ => Ok(Event::Never),
        }
    }

    fn condition(&mut self, depth: usize) -> Result<Condition, Refusal> {
        let (index, word) = self.take(&[word::TEST, word::NOT, word::AND, word::OR, word::CONSTANT])?;
        if depth > limits::DEPTH {
            return Err(refusal::over_limit(index));
        }
        match kind(word) {
            word::TEST => self.test(index, word),
            word::CONSTANT => Ok(Condition::Constant(field(word, 0, 0) == 1)),
            word::NOT => Ok(Condition::Not(Box::new(self.condition(depth + 1)?))),
            operator => {
                let first = Box::new(self.condition(depth + 1)?);
                let second = Box::new(self.condition(depth + 1)?);
                Ok(if operator == word::AND { Condition::And(first, second) } else { Condition::Or(first, second) })
            }
        }
    }

    fn test(&self, index: usize, word: u32) -> Result<Condition, Refusal> {
        let variable = field(word, 27, 20) as usize;
        let value = field(word, 7, 0);
        let size = self.sheet.variables.get(variable).map_or(0, |variable| variable.size);
        match field(word, 19, 16) {
            _ if value >= size => Err(refusal::out_of_range(index)),
            0 => Ok(Condition::Test { variable, test: Test::Equals, value }),
            1 => Ok(Condition::Test { variable, test: Test::AtMost, value }),
            _ => Err(refusal::out_of_range(index)),
        }
    }

    fn assertion(&mut self) -> Result<(), Refusal> {
        let (index, word) = self.take(&[word::ASSERTION])?;
        if self.sheet.assertions.len() == limits::ASSERTIONS {
            return Err(refusal::over_limit(index));
        }
        if field(word, 27, 24) != 1 {
            return Err(refusal::out_of_range(index));
        }
        let condition = self.condition(1)?;
        self.sheet.assertions.push(condition);
        Ok(())
    }
}

fn class(code: u32) -> Option<Class> {
    match code {
        1 => Some(Class::Monitored),
        2 => Some(Class::ModeClass),
        3 => Some(Class::Term),
        4 => Some(Class::Controlled),
        _ => None,
    }
}

fn change(code: u32) -> Option<Change> {
    match code {
        1 => Some(Change::ToTrue),
        2 => Some(Change::ToFalse),
        _ => None,
    }
}
