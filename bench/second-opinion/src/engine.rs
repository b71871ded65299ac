//! One transaction: the log, then the rules, until none is triggered or
//! something ends the run.

use crate::layout::{
    Action, Book, Comparison, Expression, Image, Operation, Query, Rule, Source, Table, Term,
    Values, ROWS_MAX, TABLES,
};
use std::collections::btree_map::Entry;
use std::collections::BTreeMap;

/// Outcome and reason carry the numbers of the specification. The image is
/// there only if the run committed.
pub struct Verdict {
    pub outcome: u8,
    pub reason: u8,
    pub count: u32,
    pub committed: Option<Image>,
}

/// Why a run ends early.
#[derive(Debug, Clone, Copy, PartialEq, Eq)]
enum Stop {
    Rollback,
    StepLimit,
    Failed(Reason),
}

#[derive(Debug, Clone, Copy, PartialEq, Eq)]
enum Reason {
    NoSuchRow = 1,
    Full = 2,
    HandlesUsedUp = 3,
    SumOutOfRange = 4,
}

/// The order in which triggered rules are tried: again and again the lowest
/// number all of whose predecessors are taken. `None` if a cycle is left over.
pub fn total_order(rules: &[Rule]) -> Option<Vec<usize>> {
    let mut left: Vec<usize> = (0..rules.len()).collect();
    let mut order = Vec::with_capacity(rules.len());
    while !left.is_empty() {
        let free = |&rule: &usize| {
            left.iter()
                .all(|&other| rules[other].precedes >> rule & 1 == 0)
        };
        let position = left.iter().position(free)?;
        order.push(left.remove(position));
    }
    Some(order)
}

pub fn transaction(start: Image, book: &Book, order: &[usize], log: &[Operation]) -> Verdict {
    let mut count = 0;
    let mut run = Run {
        now: start,
        history: Default::default(),
    };
    let (outcome, reason) = match run.process(book, order, log, &mut count) {
        Ok(()) => (0, 0),
        Err(Stop::Rollback) => (1, 0),
        Err(Stop::StepLimit) => (2, 0),
        Err(Stop::Failed(reason)) => (3, reason as u8),
    };
    Verdict {
        outcome,
        reason,
        count,
        committed: (outcome == 0).then_some(run.now),
    }
}

/// One row operation that took place, with what it did away with.
#[derive(Debug, Clone, Copy)]
struct Change {
    handle: u32,
    kind: ChangeKind,
}

#[derive(Debug, Clone, Copy)]
enum ChangeKind {
    Insert,
    Delete { row: Values },
    Update { mask: u8, old: Values },
}

/// What a stretch of history comes to for one handle; a handle with no entry
/// has come to nothing.
#[derive(Debug, Clone, Copy, PartialEq, Eq)]
enum Effect {
    Inserted,
    Deleted { row: Values },
    Updated { mask: u8, old: Values },
}

fn net_effect(stretch: &[Change]) -> BTreeMap<u32, Effect> {
    let mut net = BTreeMap::new();
    for &Change { handle, kind } in stretch {
        match (kind, net.entry(handle)) {
            (ChangeKind::Insert, Entry::Vacant(slot)) => {
                slot.insert(Effect::Inserted);
            }
            (ChangeKind::Delete { row }, Entry::Vacant(slot)) => {
                slot.insert(Effect::Deleted { row });
            }
            (ChangeKind::Update { mask, old }, Entry::Vacant(slot)) => {
                slot.insert(Effect::Updated { mask, old });
            }
            (kind, Entry::Occupied(mut slot)) => match (kind, slot.get_mut()) {
                (ChangeKind::Update { .. }, Effect::Inserted) => {}
                (ChangeKind::Update { mask, .. }, Effect::Updated { mask: union, .. }) => {
                    *union |= mask;
                }
                (ChangeKind::Delete { .. }, Effect::Inserted) => {
                    slot.remove();
                }
                (ChangeKind::Delete { row }, Effect::Updated { .. }) => {
                    slot.insert(Effect::Deleted { row });
                }
                // A deleted handle is never met again, a live one never
                // inserted again.
                (ChangeKind::Insert, _) | (_, Effect::Deleted { .. }) => {
                    unreachable!("handles are given once")
                }
            },
        }
    }
    net
}

/// The transition tables of one consideration.
#[derive(Default)]
struct Transition {
    inserted: Table,
    deleted: Table,
    new_updated: Table,
    old_updated: Table,
}

impl Transition {
    /// `now` holds the rule's own table as it is at the consideration.
    fn new(effect: &BTreeMap<u32, Effect>, columns: u8, now: &Table) -> Self {
        let mut shown = Transition::default();
        for (&handle, effect) in effect {
            match *effect {
                Effect::Inserted => {
                    shown.inserted.insert(handle, now[&handle]);
                }
                Effect::Deleted { row } => {
                    shown.deleted.insert(handle, row);
                }
                Effect::Updated { mask, old } if mask & columns != 0 => {
                    shown.new_updated.insert(handle, now[&handle]);
                    shown.old_updated.insert(handle, old);
                }
                Effect::Updated { .. } => {}
            }
        }
        shown
    }
}

/// An active rule and the place in its table's history where it was last
/// considered.
struct Watch<'a> {
    rule: &'a Rule,
    since: usize,
    /// The next handle at that place: all handles from here on were given
    /// later.
    next_then: u32,
    /// Changes before this place are known not to trigger the rule, whatever
    /// comes after them. Only saves looking again.
    looked: usize,
}

impl Watch<'_> {
    fn waiting(&self, run: &Run) -> BTreeMap<u32, Effect> {
        net_effect(&run.history[self.rule.table][self.since..])
    }

    /// Whether what waits triggers the rule, without working all of it out.
    /// A handle is inserted, in the net, if it was given since and is live.
    /// It is deleted if it was given before and has been deleted since, and
    /// updated if it was given before, has been updated since, and is live.
    /// A union of masks meets the columns if one of the masks does.
    fn triggered(&mut self, run: &Run) -> bool {
        let Rule {
            table,
            triggers,
            columns,
            ..
        } = *self.rule;
        let rows = &run.now.tables[table];
        let history = &run.history[table];
        let inserted = || {
            rows.last_key_value()
                .is_some_and(|(&last, _)| last >= self.next_then)
        };
        if triggers.inserted && inserted() {
            return true;
        }
        // A change passed over here stays without weight: no handle grows
        // older than `next_then`, and none comes back to life.
        let found = history[self.looked..].iter().position(|change| {
            change.handle < self.next_then
                && match change.kind {
                    ChangeKind::Insert => false,
                    ChangeKind::Delete { .. } => triggers.deleted,
                    ChangeKind::Update { mask, .. } => {
                        triggers.updated && mask & columns != 0 && rows.contains_key(&change.handle)
                    }
                }
        });
        self.looked = found.map_or(history.len(), |offset| self.looked + offset);
        found.is_some()
    }

    /// The same question put to the whole net effect, as the rules of the
    /// specification word it.
    fn triggered_in_full(&self, run: &Run) -> bool {
        let Rule {
            triggers, columns, ..
        } = *self.rule;
        self.waiting(run).values().any(|effect| match effect {
            Effect::Inserted => triggers.inserted,
            Effect::Deleted { .. } => triggers.deleted,
            Effect::Updated { mask, .. } => triggers.updated && mask & columns != 0,
        })
    }

    /// Hands over what waited; from here on it waits anew.
    fn consider(&mut self, run: &Run) -> Transition {
        let table = self.rule.table;
        let shown = Transition::new(
            &self.waiting(run),
            self.rule.columns,
            &run.now.tables[table],
        );
        self.since = run.history[table].len();
        self.next_then = run.now.next;
        self.looked = self.since;
        shown
    }
}

/// The database as it is now, and how it came to be so. A handle never moves
/// to another table, so each table can have a history of its own.
struct Run {
    now: Image,
    history: [Vec<Change>; TABLES],
}

impl Run {
    fn process(
        &mut self,
        book: &Book,
        order: &[usize],
        log: &[Operation],
        count: &mut u32,
    ) -> Result<(), Stop> {
        let mut watches: Vec<Watch> = order
            .iter()
            .map(|&number| &book.rules[number])
            .filter(|rule| rule.active)
            .map(|rule| Watch {
                rule,
                since: 0,
                next_then: self.now.next,
                looked: 0,
            })
            .collect();

        for operation in log {
            self.operate(operation)?;
        }
        loop {
            let first = watches.iter_mut().position(|watch| {
                let triggered = watch.triggered(self);
                debug_assert_eq!(triggered, watch.triggered_in_full(self));
                triggered
            });
            let Some(first) = first else { return Ok(()) };
            let watch = &mut watches[first];
            if *count == book.limit {
                return Err(Stop::StepLimit);
            }
            *count += 1;
            let transition = watch.consider(self);
            let rule = watch.rule;
            let holds = match &rule.condition {
                Some(query) => self.select(query, &transition).next().is_some(),
                None => true,
            };
            if holds {
                for action in &rule.actions {
                    self.act(action, &transition)?;
                }
            }
        }
    }

    fn operate(&mut self, operation: &Operation) -> Result<(), Stop> {
        match *operation {
            Operation::Insert { table, values } => self.insert(table, &[values])?,
            Operation::Delete { handle } => {
                let table = self.table_of(handle)?;
                self.delete(table, handle);
            }
            Operation::Update {
                handle,
                mask,
                ref values,
            } => {
                let table = self.table_of(handle)?;
                let mut row = self.now.tables[table][&handle];
                for &(column, value) in values {
                    row[column] = value;
                }
                self.update(table, handle, mask, row);
            }
        }
        Ok(())
    }

    /// Chooses all rows and works out all sums before a row changes.
    fn act(&mut self, action: &Action, transition: &Transition) -> Result<(), Stop> {
        match action {
            Action::Rollback => return Err(Stop::Rollback),
            Action::Insert { table, values } => self.insert(*table, &[*values])?,
            Action::InsertFrom {
                table,
                query,
                expressions,
            } => {
                let rows = self
                    .select(query, transition)
                    .map(|(_, row)| {
                        let mut values = Values::default();
                        for (value, expression) in values.iter_mut().zip(expressions) {
                            *value = evaluate(*expression, row)?;
                        }
                        Ok(values)
                    })
                    .collect::<Result<Vec<Values>, Stop>>()?;
                self.insert(*table, &rows)?;
            }
            Action::Delete { table, terms } => {
                let chosen: Vec<u32> = self
                    .choose(Source::Table(*table), terms, transition)
                    .map(|(handle, _)| handle)
                    .collect();
                for handle in chosen {
                    self.delete(*table, handle);
                }
            }
            Action::Update {
                table,
                mask,
                expressions,
                terms,
            } => {
                let chosen = self
                    .choose(Source::Table(*table), terms, transition)
                    .map(|(handle, row)| {
                        let mut new = *row;
                        for &(column, expression) in expressions {
                            new[column] = evaluate(expression, row)?;
                        }
                        Ok((handle, new))
                    })
                    .collect::<Result<Vec<(u32, Values)>, Stop>>()?;
                for (handle, new) in chosen {
                    self.update(*table, handle, *mask, new);
                }
            }
        }
        Ok(())
    }

    fn table_of(&self, handle: u32) -> Result<usize, Stop> {
        self.now
            .tables
            .iter()
            .position(|rows| rows.contains_key(&handle))
            .ok_or(Stop::Failed(Reason::NoSuchRow))
    }

    /// All of the rows go in, or none.
    fn insert(&mut self, table: usize, rows: &[Values]) -> Result<(), Stop> {
        let live: usize = self.now.tables.iter().map(Table::len).sum();
        if live + rows.len() > ROWS_MAX {
            return Err(Stop::Failed(Reason::Full));
        }
        if u64::from(self.now.next) + rows.len() as u64 > u64::from(u32::MAX) {
            return Err(Stop::Failed(Reason::HandlesUsedUp));
        }
        for &values in rows {
            let handle = self.now.next;
            self.now.next += 1;
            self.now.tables[table].insert(handle, values);
            self.history[table].push(Change {
                handle,
                kind: ChangeKind::Insert,
            });
        }
        Ok(())
    }

    fn delete(&mut self, table: usize, handle: u32) {
        let row = self.now.tables[table]
            .remove(&handle)
            .expect("a chosen row is live");
        self.history[table].push(Change {
            handle,
            kind: ChangeKind::Delete { row },
        });
    }

    fn update(&mut self, table: usize, handle: u32, mask: u8, new: Values) {
        let old = self.now.tables[table]
            .insert(handle, new)
            .expect("a chosen row is live");
        self.history[table].push(Change {
            handle,
            kind: ChangeKind::Update { mask, old },
        });
    }

    fn rows<'a>(&'a self, source: Source, transition: &'a Transition) -> &'a Table {
        match source {
            Source::Table(table) => &self.now.tables[table],
            Source::Inserted => &transition.inserted,
            Source::Deleted => &transition.deleted,
            Source::NewUpdated => &transition.new_updated,
            Source::OldUpdated => &transition.old_updated,
        }
    }

    fn select<'a>(
        &'a self,
        query: &'a Query,
        transition: &'a Transition,
    ) -> impl Iterator<Item = (u32, &'a Values)> {
        self.choose(query.source, &query.terms, transition)
    }

    /// The rows of a source for which all terms hold, by rising handle.
    fn choose<'a>(
        &'a self,
        source: Source,
        terms: &'a [Term],
        transition: &'a Transition,
    ) -> impl Iterator<Item = (u32, &'a Values)> {
        self.rows(source, transition)
            .iter()
            .filter(move |(_, row)| terms.iter().all(|term| self.holds(term, row, transition)))
            .map(|(&handle, row)| (handle, row))
    }

    fn holds(&self, term: &Term, row: &Values, transition: &Transition) -> bool {
        match *term {
            Term::Constant {
                column,
                comparison,
                constant,
            } => compare(row[column], comparison, constant),
            Term::Columns {
                left,
                comparison,
                right,
            } => compare(row[left], comparison, row[right]),
            Term::Match {
                wanted,
                source,
                ref pairs,
            } => {
                let agrees =
                    |other: &Values| pairs.iter().all(|&(own, its)| row[own] == other[its]);
                self.rows(source, transition).values().any(agrees) == wanted
            }
        }
    }
}

fn compare(left: i32, comparison: Comparison, right: i32) -> bool {
    match comparison {
        Comparison::Equal => left == right,
        Comparison::NotEqual => left != right,
        Comparison::Less => left < right,
        Comparison::LessOrEqual => left <= right,
        Comparison::Greater => left > right,
        Comparison::GreaterOrEqual => left >= right,
    }
}

fn evaluate(expression: Expression, row: &Values) -> Result<i32, Stop> {
    match expression {
        Expression::Constant(constant) => Ok(constant),
        Expression::Column(column) => Ok(row[column]),
        Expression::Sum(column, constant) => row[column]
            .checked_add(constant)
            .ok_or(Stop::Failed(Reason::SumOutOfRange)),
    }
}
