//! The byte layouts: reading a part into owned structures, or finding it
//! malformed, and writing an image.

use std::collections::BTreeMap;
use std::ops::{Range, RangeInclusive};

pub const TABLES: usize = 4;
pub const COLUMNS: usize = 4;
pub const ROWS_MAX: usize = 64;
const RULES_MAX: u8 = 16;
const OPERATIONS_MAX: u16 = 256;
const VERSION: u8 = 1;

pub type Values = [i32; COLUMNS];
/// The rows of a table, or of a transition table, by handle.
pub type Table = BTreeMap<u32, Values>;

#[derive(Debug, Clone, PartialEq, Eq)]
pub struct Image {
    pub next: u32,
    pub tables: [Table; TABLES],
}

#[derive(Debug)]
pub struct Book {
    pub limit: u32,
    pub rules: Vec<Rule>,
}

#[derive(Debug)]
pub struct Rule {
    pub active: bool,
    pub table: usize,
    pub triggers: Triggers,
    /// The columns whose updates trigger; no column without that trigger.
    pub columns: u8,
    /// Bit j: this rule precedes rule j.
    pub precedes: u16,
    pub condition: Option<Query>,
    pub actions: Vec<Action>,
    /// Where the rule stands in the bytes of its book.
    pub place: Range<usize>,
}

#[derive(Debug, Clone, Copy)]
pub struct Triggers {
    pub inserted: bool,
    pub deleted: bool,
    pub updated: bool,
}

#[derive(Debug, Clone, Copy)]
pub enum Source {
    Table(usize),
    Inserted,
    Deleted,
    NewUpdated,
    OldUpdated,
}

#[derive(Debug)]
pub struct Query {
    pub source: Source,
    pub terms: Vec<Term>,
}

#[derive(Debug)]
pub enum Term {
    Constant {
        column: usize,
        comparison: Comparison,
        constant: i32,
    },
    Columns {
        left: usize,
        comparison: Comparison,
        right: usize,
    },
    /// `wanted` is false for "no match". Pairs: own column, source column.
    Match {
        wanted: bool,
        source: Source,
        pairs: Vec<(usize, usize)>,
    },
}

#[derive(Debug, Clone, Copy)]
pub enum Comparison {
    Equal,
    NotEqual,
    Less,
    LessOrEqual,
    Greater,
    GreaterOrEqual,
}

#[derive(Debug)]
pub enum Action {
    Rollback,
    Insert {
        table: usize,
        values: Values,
    },
    InsertFrom {
        table: usize,
        query: Query,
        expressions: [Expression; COLUMNS],
    },
    Delete {
        table: usize,
        terms: Vec<Term>,
    },
    Update {
        table: usize,
        mask: u8,
        expressions: Vec<(usize, Expression)>,
        terms: Vec<Term>,
    },
}

#[derive(Debug, Clone, Copy)]
pub enum Expression {
    Constant(i32),
    Column(usize),
    Sum(usize, i32),
}

#[derive(Debug)]
pub enum Operation {
    Insert {
        table: usize,
        values: Values,
    },
    Delete {
        handle: u32,
    },
    Update {
        handle: u32,
        mask: u8,
        values: Vec<(usize, i32)>,
    },
}

/// The columns of a mask, lowest first.
fn columns_of(mask: u8) -> impl Iterator<Item = usize> {
    (0..COLUMNS).filter(move |column| mask >> column & 1 == 1)
}

/// Reads fields one after another; `None` means the part is malformed.
struct Reader<'a> {
    whole: &'a [u8],
    at: usize,
}

impl<'a> Reader<'a> {
    /// Opens a part: its length must account for the slice exactly, and its
    /// version must be the known one.
    fn open(whole: &'a [u8]) -> Option<Self> {
        let mut reader = Reader { whole, at: 0 };
        let length = reader.wide()?;
        let fits = u64::from(length) + 4 == whole.len() as u64;
        (fits && reader.byte()? == VERSION).then_some(reader)
    }

    /// Closes a part: the fields must have filled it exactly.
    fn close<T>(self, value: T) -> Option<T> {
        (self.at == self.whole.len()).then_some(value)
    }

    fn take<const N: usize>(&mut self) -> Option<[u8; N]> {
        let bytes = *self.whole[self.at..].first_chunk::<N>()?;
        self.at += N;
        Some(bytes)
    }

    fn byte(&mut self) -> Option<u8> {
        self.take::<1>().map(|[byte]| byte)
    }

    fn byte_in(&mut self, allowed: RangeInclusive<u8>) -> Option<u8> {
        self.byte().filter(|byte| allowed.contains(byte))
    }

    fn half(&mut self) -> Option<u16> {
        self.take().map(u16::from_be_bytes)
    }

    fn wide(&mut self) -> Option<u32> {
        self.take().map(u32::from_be_bytes)
    }

    fn value(&mut self) -> Option<i32> {
        self.take().map(i32::from_be_bytes)
    }

    fn values(&mut self) -> Option<Values> {
        Some([self.value()?, self.value()?, self.value()?, self.value()?])
    }

    fn flag(&mut self) -> Option<bool> {
        Some(self.byte_in(0..=1)? == 1)
    }

    fn table(&mut self) -> Option<usize> {
        self.byte_in(0..=3).map(usize::from)
    }

    fn column(&mut self) -> Option<usize> {
        self.byte_in(0..=3).map(usize::from)
    }

    fn mask(&mut self) -> Option<u8> {
        self.byte_in(1..=15)
    }

    /// A count within its range, then that many of `item`.
    fn list<T>(
        &mut self,
        allowed: RangeInclusive<u8>,
        mut item: impl FnMut(&mut Self) -> Option<T>,
    ) -> Option<Vec<T>> {
        let count = self.byte_in(allowed)?;
        (0..count).map(|_| item(self)).collect()
    }

    /// A transition table may be named only by a rule with its trigger.
    fn source(&mut self, triggers: Triggers) -> Option<Source> {
        match self.byte()? {
            table @ 0..=3 => Some(Source::Table(table.into())),
            4 if triggers.inserted => Some(Source::Inserted),
            5 if triggers.deleted => Some(Source::Deleted),
            6 if triggers.updated => Some(Source::NewUpdated),
            7 if triggers.updated => Some(Source::OldUpdated),
            _ => None,
        }
    }

    fn query(&mut self, triggers: Triggers) -> Option<Query> {
        Some(Query {
            source: self.source(triggers)?,
            terms: self.terms(triggers)?,
        })
    }

    fn terms(&mut self, triggers: Triggers) -> Option<Vec<Term>> {
        self.list(0..=4, |reader| reader.term(triggers))
    }

    fn term(&mut self, triggers: Triggers) -> Option<Term> {
        Some(match self.byte()? {
            kind @ 0..=5 => Term::Constant {
                column: self.column()?,
                comparison: comparison(kind),
                constant: self.value()?,
            },
            kind @ 6..=11 => Term::Columns {
                left: self.column()?,
                comparison: comparison(kind - 6),
                right: self.column()?,
            },
            kind @ 12..=13 => Term::Match {
                wanted: kind == 12,
                source: self.source(triggers)?,
                pairs: self.list(1..=4, |reader| Some((reader.column()?, reader.column()?)))?,
            },
            _ => return None,
        })
    }

    fn expression(&mut self) -> Option<Expression> {
        Some(match self.byte()? {
            0 => Expression::Constant(self.value()?),
            1 => Expression::Column(self.column()?),
            2 => Expression::Sum(self.column()?, self.value()?),
            _ => return None,
        })
    }

    fn action(&mut self, triggers: Triggers) -> Option<Action> {
        Some(match self.byte()? {
            0 => Action::Rollback,
            1 => Action::Insert {
                table: self.table()?,
                values: self.values()?,
            },
            2 => Action::InsertFrom {
                table: self.table()?,
                query: self.query(triggers)?,
                expressions: [
                    self.expression()?,
                    self.expression()?,
                    self.expression()?,
                    self.expression()?,
                ],
            },
            3 => Action::Delete {
                table: self.table()?,
                terms: self.terms(triggers)?,
            },
            4 => {
                let table = self.table()?;
                let mask = self.mask()?;
                let expressions = columns_of(mask)
                    .map(|column| Some((column, self.expression()?)))
                    .collect::<Option<_>>()?;
                Action::Update {
                    table,
                    mask,
                    expressions,
                    terms: self.terms(triggers)?,
                }
            }
            _ => return None,
        })
    }

    fn rule(&mut self, rules: u8) -> Option<Rule> {
        let start = self.at;
        let active = self.flag()?;
        let table = self.table()?;
        let bits = self.byte_in(1..=7)?;
        let triggers = Triggers {
            inserted: bits & 1 != 0,
            deleted: bits & 2 != 0,
            updated: bits & 4 != 0,
        };
        let columns = self.byte_in(if triggers.updated { 1..=15 } else { 0..=0 })?;
        let precedes = self.half()?;
        if u32::from(precedes) >> rules != 0 {
            return None;
        }
        let condition = match self.flag()? {
            true => Some(self.query(triggers)?),
            false => None,
        };
        let actions = self.list(1..=4, |reader| reader.action(triggers))?;
        let place = start..self.at;
        Some(Rule {
            active,
            table,
            triggers,
            columns,
            precedes,
            condition,
            actions,
            place,
        })
    }

    fn operation(&mut self) -> Option<Operation> {
        Some(match self.byte()? {
            1 => Operation::Insert {
                table: self.table()?,
                values: self.values()?,
            },
            2 => Operation::Delete {
                handle: self.wide()?,
            },
            3 => {
                let handle = self.wide()?;
                let mask = self.mask()?;
                let values = columns_of(mask)
                    .map(|column| Some((column, self.value()?)))
                    .collect::<Option<_>>()?;
                Operation::Update {
                    handle,
                    mask,
                    values,
                }
            }
            _ => return None,
        })
    }
}

fn comparison(kind: u8) -> Comparison {
    match kind {
        0 => Comparison::Equal,
        1 => Comparison::NotEqual,
        2 => Comparison::Less,
        3 => Comparison::LessOrEqual,
        4 => Comparison::Greater,
        _ => Comparison::GreaterOrEqual,
    }
}

pub fn parse_image(bytes: &[u8]) -> Option<Image> {
    let mut reader = Reader::open(bytes)?;
    let next = reader.wide()?;
    let count = usize::from(reader.half()?);
    if next == 0 || count > ROWS_MAX {
        return None;
    }
    let mut tables: [Table; TABLES] = Default::default();
    let mut last = 0;
    for _ in 0..count {
        let handle = reader.wide()?;
        if handle <= last || handle >= next {
            return None;
        }
        last = handle;
        let table = reader.table()?;
        tables[table].insert(handle, reader.values()?);
    }
    reader.close(Image { next, tables })
}

pub fn parse_book(bytes: &[u8]) -> Option<Book> {
    let mut reader = Reader::open(bytes)?;
    let limit = u32::from(reader.half()?);
    if !(1..=1_000).contains(&limit) {
        return None;
    }
    let count = reader.byte_in(0..=RULES_MAX)?;
    let rules = (0..count)
        .map(|_| reader.rule(count))
        .collect::<Option<_>>()?;
    reader.close(Book { limit, rules })
}

pub fn parse_log(bytes: &[u8]) -> Option<Vec<Operation>> {
    let mut reader = Reader::open(bytes)?;
    let count = reader.half()?;
    if count > OPERATIONS_MAX {
        return None;
    }
    let operations = (0..count)
        .map(|_| reader.operation())
        .collect::<Option<_>>()?;
    reader.close(operations)
}

impl Image {
    /// All rows by rising handle, each with its table.
    pub fn rows(&self) -> BTreeMap<u32, (usize, Values)> {
        self.tables
            .iter()
            .enumerate()
            .flat_map(|(table, rows)| {
                rows.iter()
                    .map(move |(&handle, &row)| (handle, (table, row)))
            })
            .collect()
    }

    /// Writes the image at the front of `out` and gives its size.
    pub fn write(&self, out: &mut [u8]) -> usize {
        let rows = self.rows();
        let size = 11 + 21 * rows.len();
        let mut bytes = Vec::with_capacity(size);
        bytes.extend((size as u32 - 4).to_be_bytes());
        bytes.push(VERSION);
        bytes.extend(self.next.to_be_bytes());
        bytes.extend((rows.len() as u16).to_be_bytes());
        for (handle, (table, values)) in rows {
            bytes.extend(handle.to_be_bytes());
            bytes.push(table as u8);
            for value in values {
                bytes.extend(value.to_be_bytes());
            }
        }
        out[..size].copy_from_slice(&bytes);
        size
    }
}
