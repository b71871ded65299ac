//! Seeded inputs. The same seed always gives the same bytes.
//!
//! A part is written field by field. A trap can be set so that one field gets
//! a number just outside its range, with the rest of the part written as if
//! that number were allowed. Bytes can also be damaged afterwards, with or
//! without mending the length.

use crate::{run, Answer, IMAGE_MAX, INPUT_MAX};

/// Splitmix64.
struct Random(u64);

impl Random {
    fn next(&mut self) -> u64 {
        self.0 = self.0.wrapping_add(0x9E37_79B9_7F4A_7C15);
        let mut mixed = self.0;
        mixed = (mixed ^ (mixed >> 30)).wrapping_mul(0xBF58_476D_1CE4_E5B9);
        mixed = (mixed ^ (mixed >> 27)).wrapping_mul(0x94D0_49BB_1331_11EB);
        mixed ^ (mixed >> 31)
    }

    /// 0 up to but without `end`; the slight unevenness does no harm here.
    fn below(&mut self, end: usize) -> usize {
        (self.next() % end as u64) as usize
    }

    /// Both ends included.
    fn between(&mut self, (low, high): (usize, usize)) -> usize {
        low + self.below(high - low + 1)
    }

    fn percent(&mut self, chance: usize) -> bool {
        self.below(100) < chance
    }

    fn pick<T: Copy>(&mut self, from: &[T]) -> T {
        from[self.below(from.len())]
    }

    /// The place of one of the weights, each taken in its proportion.
    fn weighted(&mut self, weights: &[usize]) -> usize {
        let mut drawn = self.below(weights.iter().sum());
        for (place, &weight) in weights.iter().enumerate() {
            if drawn < weight {
                return place;
            }
            drawn -= weight;
        }
        unreachable!("the draw lies below the sum")
    }
}

/// Image, book and log.
pub type Parts = (Vec<u8>, Vec<u8>, Vec<u8>);

/// What an input for timing is to show.
#[derive(Debug, Clone, Copy, PartialEq, Eq)]
pub enum Kind {
    /// Accepted, commits, and no rule is triggered.
    Idle,
    /// Accepted, otherwise anything the general generator gives.
    Mixed,
    /// Accepted, with 100 considerations or more.
    Chain,
    /// Accepted, 64 rows at the start, with rules that match by columns
    /// against transition tables, at least one of them considered.
    Full,
}

/// A whole standard input: mostly well-formed, at times damaged.
pub fn input(seed: u64) -> Vec<u8> {
    let (parts, outer) = case(seed);
    let (image, book, log) = parts;
    let mut whole = [image, book, log].concat();
    if let Some(seed) = outer {
        damage_whole(&mut Random(seed), &mut whole);
    }
    whole
}

/// Image, book and log apart. Put together they are `input(seed)`, unless
/// that input was damaged as a whole; then these are still undamaged.
pub fn parts(seed: u64) -> Parts {
    case(seed).0
}

/// An input for timing.
pub fn of_kind(kind: Kind, seed: u64) -> Parts {
    let mut random = Random(seed ^ 0x6B69_6E64);
    match kind {
        Kind::Idle => Maker::new(random.next()).idle(),
        Kind::Mixed => {
            let theme = loop {
                let theme = theme(&mut random);
                if !matches!(theme, Theme::Loops) {
                    break theme;
                }
            };
            Maker::new(random.next()).themed(theme)
        }
        Kind::Chain => loop {
            let parts = Maker::new(random.next()).chain();
            if considerations(&parts) >= 100 {
                return parts;
            }
        },
        Kind::Full => loop {
            let parts = Maker::new(random.next()).full(64);
            if considerations(&parts) >= 1 {
                return parts;
            }
        },
    }
}

/// Sets the step limit to just what the run takes, or `under` less.
fn tighten(parts: &mut Parts, under: u32) {
    let steps = considerations(parts);
    if steps > under {
        parts.1[5..7].copy_from_slice(&((steps - under) as u16).to_be_bytes());
    }
}

fn considerations((image, book, log): &Parts) -> u32 {
    match run(image, book, log, &mut [0; IMAGE_MAX]) {
        Answer::Ran { count, .. } => count,
        Answer::Refused(_) => 0,
    }
}

/// The parts of a seed, and the seed of the damage to be done to the whole.
fn case(seed: u64) -> (Parts, Option<u64>) {
    let mut random = Random(seed);
    let theme = theme(&mut random);
    let mut maker = Maker::new(random.next());
    match random.weighted(&[68, 8, 11, 9, 4]) {
        0 => (maker.themed(theme), None),
        1 => {
            let mut parts = maker.themed(theme);
            let under = random.below(2) as u32;
            tighten(&mut parts, under);
            (parts, None)
        }
        2 => {
            // A trap that is never reached leaves the part as it is.
            let part = random.weighted(&[2, 5, 3]);
            let size = 1 << random.below(9);
            maker.traps[part] = Some(random.below(size));
            (maker.themed(theme), None)
        }
        3 => {
            let mut parts = maker.themed(theme);
            let part = match random.weighted(&[2, 4, 3]) {
                0 => &mut parts.0,
                1 => &mut parts.1,
                _ => &mut parts.2,
            };
            damage_part(&mut random, part);
            (parts, None)
        }
        _ => (maker.themed(theme), Some(random.next())),
    }
}

#[derive(Debug, Clone, Copy)]
enum Theme {
    General,
    Chain,
    Full,
    Crowded,
    HandlesEnd,
    Sums,
    Corner,
    Rollback,
    Restless,
    Stray,
    Loops,
    Big,
    Idle,
    Empty,
}

fn theme(random: &mut Random) -> Theme {
    const THEMES: [(Theme, usize); 14] = [
        (Theme::General, 20),
        (Theme::Chain, 14),
        (Theme::Full, 9),
        (Theme::Crowded, 7),
        (Theme::HandlesEnd, 9),
        (Theme::Sums, 9),
        (Theme::Corner, 4),
        (Theme::Rollback, 9),
        (Theme::Restless, 9),
        (Theme::Stray, 5),
        (Theme::Loops, 5),
        (Theme::Big, 3),
        (Theme::Idle, 3),
        (Theme::Empty, 1),
    ];
    THEMES[random.weighted(&THEMES.map(|(_, weight)| weight))].0
}

#[derive(Debug, Clone, Copy, PartialEq, Eq)]
enum Handles {
    Low,
    Wide,
    NearEnd,
}

/// What the general generator leans towards. Pairs are ranges with both ends
/// included; chances are percentages.
#[derive(Debug, Clone)]
struct Taste {
    tables: usize,
    rows: (usize, usize),
    handles: Handles,
    /// Chance that the end of the handles is a long way off, if it is near.
    far: usize,
    /// Chance of a value near the ends of 32 bits.
    extreme: usize,
    rules: (usize, usize),
    actions: (usize, usize),
    terms: (usize, usize),
    limit: (usize, usize),
    /// Chance that two rules are ordered.
    edge: usize,
    /// Whether the edges may run in a circle.
    loops: bool,
    /// Chance that an action goes to a later table than its rule's, which
    /// lets a run come to rest.
    calm: usize,
    rollback: usize,
    /// Weights of inserts, inserts from a query, deletes and updates among
    /// the actions.
    doings: [usize; 4],
    operations: (usize, usize),
    /// Weights of inserts, deletes and updates in the log.
    mix: [usize; 3],
    /// Chance that the log names a row that is not there.
    stray: usize,
    /// Whether the log may go past 64 rows.
    crowd: bool,
}

const GENERAL: Taste = Taste {
    tables: 4,
    rows: (0, 24),
    handles: Handles::Low,
    far: 5,
    extreme: 0,
    rules: (1, 6),
    actions: (1, 2),
    terms: (0, 2),
    limit: (5, 60),
    edge: 12,
    loops: false,
    calm: 85,
    rollback: 3,
    doings: [2, 3, 3, 5],
    operations: (1, 16),
    mix: [4, 2, 5],
    stray: 0,
    crowd: false,
};

/// What the log needs to know of the start image.
struct Start {
    next: u32,
    rows: Vec<(u32, u8)>,
}

struct Maker {
    random: Random,
    bytes: Vec<u8>,
    /// For image, book and log: how many fields are still written truly
    /// before one is not.
    traps: [Option<usize>; 3],
    part: usize,
    extreme: usize,
    /// Weights of constants, columns and sums among the expressions.
    expressions: [usize; 3],
}

impl Maker {
    fn new(seed: u64) -> Self {
        Maker {
            random: Random(seed),
            bytes: Vec::new(),
            traps: [None; 3],
            part: 0,
            extreme: 0,
            expressions: [3, 4, 3],
        }
    }

    // ---- fields

    fn open(&mut self, part: usize) {
        self.part = part;
        self.bytes = vec![0; 4];
        self.number(1, 1, 1);
    }

    fn close(&mut self) -> Vec<u8> {
        let mut bytes = std::mem::take(&mut self.bytes);
        mend(&mut bytes);
        bytes
    }

    fn sprung(&mut self) -> bool {
        match &mut self.traps[self.part] {
            Some(0) => {
                self.traps[self.part] = None;
                true
            }
            Some(fields) => {
                *fields -= 1;
                false
            }
            None => false,
        }
    }

    /// Writes a number of one byte, and gives what was written.
    fn number(&mut self, wanted: u8, low: u8, high: u8) -> u8 {
        debug_assert!((low..=high).contains(&wanted));
        let mut number = wanted;
        if self.sprung() {
            let mut outside = vec![high + 1, high + 1, 255];
            if low > 0 {
                outside.extend([low - 1, low - 1]);
            }
            number = self.random.pick(&outside);
        }
        self.bytes.push(number);
        number
    }

    /// The same for a number of two bytes.
    fn half(&mut self, wanted: usize, low: usize, high: usize) -> usize {
        debug_assert!((low..=high).contains(&wanted));
        let mut number = wanted;
        if self.sprung() {
            number = if low > 0 && self.random.percent(50) {
                low - 1
            } else {
                high + 1
            };
        }
        self.bytes.extend((number as u16).to_be_bytes());
        number
    }

    fn wide(&mut self, number: u32) {
        self.bytes.extend(number.to_be_bytes());
    }

    fn constant(&mut self, value: i32) {
        self.bytes.extend(value.to_be_bytes());
    }

    fn table(&mut self, table: u8) {
        self.number(table, 0, 3);
    }

    fn column(&mut self, column: u8) {
        self.number(column, 0, 3);
    }

    fn any_column(&mut self) {
        let column = self.random.below(4) as u8;
        self.column(column);
    }

    /// Small values, so that comparisons and matches go both ways.
    fn some_value(&mut self) -> i32 {
        if self.random.percent(self.extreme) {
            let off = self.random.below(4) as i32;
            return if self.random.percent(50) {
                i32::MAX - off
            } else {
                i32::MIN + off
            };
        }
        match self.random.below(20) {
            0 => self.random.below(2_000) as i32 - 1_000,
            1 => 0,
            _ => self.random.below(7) as i32 - 1,
        }
    }

    fn any_value(&mut self) {
        let value = self.some_value();
        self.constant(value);
    }

    // ---- image

    /// The first rows go to the tables of `firsts`.
    fn image(&mut self, taste: &Taste, firsts: &[u8]) -> (Vec<u8>, Start) {
        // The row count is the third field. If the trap lies there, the image
        // has one row too many and is otherwise right.
        let count = match self.traps[0] {
            Some(2) => 65,
            _ => self.random.between(taste.rows),
        };
        let mut handles: Vec<u32> = Vec::new();
        let mut next: u32 = match taste.handles {
            Handles::Low => 1,
            Handles::Wide => self.random.next() as u32 >> self.random.below(12) | 1,
            Handles::NearEnd => u32::MAX - 400,
        }
        .min(u32::MAX - 400);
        for _ in 0..count {
            next += if self.random.percent(25) {
                self.random.below(3) as u32
            } else {
                0
            };
            handles.push(next);
            next += 1;
        }
        if taste.handles == Handles::NearEnd {
            // At times only the next handle lies near the end, at times the
            // rows do too.
            let spare = match self.random.percent(taste.far) {
                true => self.random.below(180) as u32,
                false => self.random.weighted(&[3, 3, 3, 2, 2, 1, 1, 1, 1, 1, 1]) as u32,
            };
            let end = u32::MAX - spare;
            let shift = end - next;
            if self.random.percent(70) {
                handles.iter_mut().for_each(|handle| *handle += shift);
            }
            next = end;
        } else if self.random.percent(20) {
            next += self.random.below(5) as u32;
        }

        let mut rows: Vec<(u32, u8)> = handles
            .iter()
            .map(|&handle| (handle, self.random.below(taste.tables) as u8))
            .collect();
        for (row, &table) in rows.iter_mut().zip(firsts) {
            row.1 = table;
        }
        self.open(0);
        let flaw = self.sprung().then(|| self.random.below(2));
        self.wide(match flaw {
            Some(0) => 0,
            Some(1) => handles.last().copied().unwrap_or(0),
            _ => next,
        });
        self.sprung();
        self.bytes.extend((count as u16).to_be_bytes());
        let mut last = 0;
        for &(handle, table) in &rows {
            let written = match self.sprung() {
                true if last > 0 && self.random.percent(70) => last - self.random.below(2) as u32,
                true => self.random.pick(&[0, next]),
                false => handle,
            };
            self.wide(written);
            self.table(table);
            for _ in 0..4 {
                self.any_value();
            }
            last = handle;
        }
        (self.close(), Start { next, rows })
    }

    // ---- log

    fn log(&mut self, taste: &Taste, start: &Start) -> Vec<u8> {
        let count = self.random.between(taste.operations);
        self.open(2);
        let count = self.half(count, 0, 256);
        let mut next = start.next;
        let mut live: Vec<u32> = start.rows.iter().map(|&(handle, _)| handle).collect();
        let mut dead: Vec<u32> = Vec::new();
        for _ in 0..count {
            let mut kind = self.random.weighted(&taste.mix);
            if kind == 0 && live.len() >= 64 && !taste.crowd {
                kind = 1;
            }
            if kind > 0 && live.is_empty() {
                kind = 0;
            }
            self.number(kind as u8 + 1, 1, 3);
            if kind == 0 {
                let table = self.random.below(taste.tables) as u8;
                self.table(table);
                for _ in 0..4 {
                    self.any_value();
                }
                live.push(next);
                next = next.saturating_add(1);
                continue;
            }
            let place = self.random.below(live.len());
            let mut handle = live[place];
            if self.random.percent(taste.stray) {
                let random = self.random.next() as u32;
                let other = [0, next, u32::MAX, random, dead.last().copied().unwrap_or(0)];
                handle = self.random.pick(&other);
            }
            self.wide(handle);
            if kind == 1 {
                dead.push(live.swap_remove(place));
            } else {
                self.mask_and(|maker, _| maker.any_value());
            }
        }
        self.close()
    }

    /// A column mask, then something for each of its columns.
    fn mask_and(&mut self, each: impl FnMut(&mut Self, u8)) {
        let mask = 1 + self.random.below(15) as u8;
        self.this_mask_and(mask, each);
    }

    fn this_mask_and(&mut self, mask: u8, mut each: impl FnMut(&mut Self, u8)) {
        let mask = self.number(mask, 1, 15);
        for column in 0..8 {
            if mask >> column & 1 == 1 {
                each(self, column);
            }
        }
    }

    // ---- book

    fn head(&mut self, rule: &Head, precedes: u16, rules: usize) {
        self.number(u8::from(rule.active), 0, 1);
        self.table(rule.table);
        self.number(rule.triggers, 1, 7);
        if rule.triggers & 4 != 0 {
            self.number(rule.columns, 1, 15);
        } else {
            self.number(0, 0, 0);
        }
        let mut precedes = precedes;
        if rules < 16 && self.sprung() {
            precedes |= 1 << (rules + self.random.below(16 - rules));
        }
        self.bytes.extend(precedes.to_be_bytes());
    }

    fn any_head(&mut self, tables: usize) -> Head {
        Head {
            active: self.random.percent(88),
            table: self.random.below(tables) as u8,
            triggers: 1 + self.random.below(7) as u8,
            columns: 1 + self.random.below(15) as u8,
        }
    }

    /// For each rule, the rules it precedes. Without loops all edges follow
    /// one hidden order.
    fn edges(&mut self, rules: usize, taste: &Taste) -> Vec<u16> {
        let mut hidden: Vec<usize> = (0..rules).collect();
        for last in (1..rules).rev() {
            hidden.swap(last, self.random.below(last + 1));
        }
        let mut precedes = vec![0; rules];
        for early in 0..rules {
            for late in 0..rules {
                let allowed = if taste.loops { true } else { early < late };
                if allowed && self.random.percent(taste.edge) {
                    precedes[hidden[early]] |= 1 << hidden[late];
                }
            }
        }
        precedes
    }

    fn source(&mut self, triggers: u8, weights: [usize; 2]) {
        let mut given = Vec::new();
        let mut withheld = vec![8, 255];
        for (source, bit) in [(4, 1), (5, 2), (6, 4), (7, 4)] {
            if triggers & bit != 0 {
                &mut given
            } else {
                &mut withheld
            }
            .push(source);
        }
        let mut source = match self.random.weighted(&weights) {
            0 => self.random.below(4) as u8,
            _ => self.random.pick(&given),
        };
        if self.sprung() {
            source = self.random.pick(&withheld);
        }
        self.bytes.push(source);
    }

    fn count(&mut self, range: (usize, usize), low: u8, high: u8) -> u8 {
        let count = self.random.between(range) as u8;
        let written = self.number(count, low, high);
        // A count of 255 is not followed up.
        if written > high + 1 {
            count
        } else {
            written
        }
    }

    fn query(&mut self, triggers: u8, terms: (usize, usize)) {
        self.source(triggers, [2, 3]);
        self.terms(triggers, terms);
    }

    fn terms(&mut self, triggers: u8, terms: (usize, usize)) {
        for _ in 0..self.count(terms, 0, 4) {
            self.term(triggers);
        }
    }

    /// The terms of a delete or update. Some match the table against itself,
    /// which tells whether rows are chosen before one changes.
    fn choice(&mut self, triggers: u8, table: u8, terms: (usize, usize)) {
        for _ in 0..self.count(terms, 0, 4) {
            if self.random.percent(80) {
                self.term(triggers);
                continue;
            }
            let kind = self.random.pick(&[12, 13]);
            self.number(kind, 0, 13);
            self.table(table);
            self.number(1, 1, 4);
            self.any_column();
            self.any_column();
        }
    }

    fn term(&mut self, triggers: u8) {
        match self.random.weighted(&[8, 3, 6, 3]) {
            0 => {
                let kind = self.random.below(6) as u8;
                let column = self.random.below(4) as u8;
                let constant = self.some_value();
                self.compare(kind, column, constant);
            }
            1 => {
                let kind = 6 + self.random.below(6) as u8;
                self.number(kind, 0, 13);
                self.any_column();
                self.any_column();
            }
            kind => {
                self.number(kind as u8 + 10, 0, 13);
                self.source(triggers, [1, 3]);
                let pairs = (1, self.random.pick(&[1, 1, 2, 2, 3, 4]));
                for _ in 0..self.count(pairs, 1, 4) {
                    let own = self.random.below(4) as u8;
                    self.column(own);
                    // The same column on both sides agrees more often.
                    let same = self.random.percent(60);
                    let other = if same {
                        own
                    } else {
                        self.random.below(4) as u8
                    };
                    self.column(other);
                }
            }
        }
    }

    fn compare(&mut self, kind: u8, column: u8, constant: i32) {
        self.number(kind, 0, 13);
        self.column(column);
        self.constant(constant);
    }

    fn sum(&mut self, column: u8, constant: i32) {
        self.number(2, 0, 2);
        self.column(column);
        self.constant(constant);
    }

    fn expression(&mut self) {
        match self.random.weighted(&self.expressions) {
            0 => {
                self.number(0, 0, 2);
                self.any_value();
            }
            1 => {
                self.number(1, 0, 2);
                self.any_column();
            }
            _ => {
                let column = self.random.below(4) as u8;
                let mut constant = self.random.below(7) as i32 - 3;
                if self.random.percent(self.extreme) {
                    constant = self.some_value();
                }
                self.sum(column, constant);
            }
        }
    }

    /// An action of a rule. A calm one goes to a later table, or comes to an
    /// end by itself.
    fn action(&mut self, head: &Head, taste: &Taste) {
        if self.random.percent(taste.rollback) {
            self.number(0, 0, 4);
            return;
        }
        let later = head.table as usize + 1;
        let calm = self.random.percent(taste.calm);
        if calm && later >= taste.tables {
            let column = self.random.below(4) as u8;
            let step = 1 + self.random.below(3) as i32;
            let end = self.random.below(12) as i32;
            self.climb(head.table, column, step, (2, end));
            return;
        }
        let low = if calm { later } else { 0 };
        let table = self.random.between((low, taste.tables - 1)) as u8;
        let kind = self.random.weighted(&taste.doings) as u8 + 1;
        self.number(kind, 0, 4);
        self.table(table);
        match kind {
            1 => {
                for _ in 0..4 {
                    self.any_value();
                }
            }
            2 => {
                self.query(head.triggers, taste.terms);
                for _ in 0..4 {
                    self.expression();
                }
            }
            3 => {
                let (low, high) = taste.terms;
                self.choice(head.triggers, table, (low.max(1).min(high), high));
            }
            _ => {
                self.mask_and(|maker, _| maker.expression());
                self.choice(head.triggers, table, taste.terms);
            }
        }
    }

    /// Update: adds to a column where a comparison with an end holds.
    fn climb(&mut self, table: u8, column: u8, step: i32, (kind, end): (u8, i32)) {
        self.number(4, 0, 4);
        self.table(table);
        self.this_mask_and(1 << column, |maker, _| maker.sum(column, step));
        self.number(1, 0, 4);
        self.compare(kind, column, end);
    }

    fn any_rule(&mut self, head: &Head, precedes: u16, rules: usize, taste: &Taste) {
        self.head(head, precedes, rules);
        let condition = u8::from(self.random.percent(55));
        if self.number(condition, 0, 1) == 1 {
            self.query(head.triggers, taste.terms);
        }
        for _ in 0..self.count(taste.actions, 1, 4) {
            self.action(head, taste);
        }
    }

    fn book(&mut self, taste: &Taste) -> Vec<u8> {
        self.open(1);
        let limit = self.random.between(taste.limit);
        self.half(limit, 1, 1_000);
        let rules = self.count(taste.rules, 0, 16) as usize;
        let edges = self.edges(rules.min(16), taste);
        for number in 0..rules {
            let head = self.any_head(taste.tables);
            self.any_rule(&head, edges.get(number).copied().unwrap_or(0), rules, taste);
        }
        self.close()
    }

    fn general(&mut self, taste: Taste) -> Parts {
        self.extreme = taste.extreme;
        if taste.extreme > 0 {
            self.expressions = [1, 1, 5];
        }
        let (image, start) = self.image(&taste, &[]);
        let book = self.book(&taste);
        let log = self.log(&taste, &start);
        (image, book, log)
    }

    // ---- themes

    fn themed(&mut self, theme: Theme) -> Parts {
        let tables = self.random.pick(&[2, 3, 4, 4]);
        let general = Taste { tables, ..GENERAL };
        let taste = match theme {
            Theme::Chain => return self.chain(),
            Theme::Full => {
                let rows = self.random.pick(&[64, 64, 64, 63, 60]);
                return self.full(rows);
            }
            Theme::Idle => return self.idle(),
            Theme::General => Taste {
                handles: self
                    .random
                    .pick(&[Handles::Low, Handles::Low, Handles::Wide]),
                calm: self.random.pick(&[70, 90, 100]),
                rules: self.random.pick(&[(1, 3), (2, 8), (0, 16)]),
                ..general
            },
            Theme::Crowded => Taste {
                rows: (58, 64),
                crowd: self.random.percent(60),
                mix: [4, 4, 2],
                operations: (0, 6),
                calm: 95,
                ..general
            },
            Theme::HandlesEnd => Taste {
                rows: (0, 12),
                handles: Handles::NearEnd,
                operations: (0, 6),
                rules: (2, 8),
                doings: [4, 8, 2, 4],
                mix: [2, 2, 6],
                calm: 95,
                ..general
            },
            Theme::Sums => Taste {
                extreme: self.random.pick(&[5, 15, 30]),
                operations: (1, 10),
                rules: (2, 8),
                terms: (0, 1),
                calm: 95,
                mix: [3, 1, 6],
                ..general
            },
            // Several reasons to fail at once: room, handles and sums.
            Theme::Corner => Taste {
                tables: 2,
                rows: (35, 64),
                handles: Handles::NearEnd,
                far: 30,
                extreme: self.random.pick(&[1, 4, 15]),
                rules: (2, 6),
                terms: (0, 1),
                doings: [1, 8, 1, 1],
                operations: (2, 8),
                mix: [0, 1, 6],
                ..general
            },
            Theme::Rollback => Taste {
                rollback: 35,
                terms: (0, 3),
                ..general
            },
            Theme::Restless => Taste {
                tables: self.random.between((1, 2)),
                calm: 20,
                limit: self
                    .random
                    .pick(&[(1, 3), (1, 20), (20, 300), (900, 1_000)]),
                rows: (1, 10),
                ..general
            },
            Theme::Stray => Taste {
                stray: 15,
                ..general
            },
            Theme::Loops => Taste {
                loops: self.random.percent(85),
                rules: (1, 12),
                edge: self.random.pick(&[5, 15, 40]),
                ..general
            },
            Theme::Big => Taste {
                rows: (0, 64),
                rules: (10, 16),
                actions: (1, 4),
                terms: (0, 4),
                limit: (1, 1_000),
                operations: (100, 256),
                calm: 95,
                rollback: 1,
                mix: [3, 3, 6],
                ..general
            },
            Theme::Empty => Taste {
                rows: (0, 2),
                rules: (0, 1),
                operations: (0, 1),
                ..general
            },
        };
        self.general(taste)
    }

    /// Rules that set each other off, up to an end that lies near the step
    /// limit, with others that look on.
    fn chain(&mut self) -> Parts {
        let lengths = self.random.pick(&[
            (100, 150),
            (100, 400),
            (100, 1_000),
            (400, 1_000),
            (995, 1_004),
        ]);
        let length = self.random.between(lengths);
        let home = self.random.below(4) as u8;
        let away = (home + 1 + self.random.below(3) as u8) % 4;
        let column = self.random.below(4) as u8;
        let rows = self.random.pick(&[(2, 4), (2, 12), (10, 50)]);
        let handles = match self.random.percent(12) {
            true => Handles::NearEnd,
            false => Handles::Low,
        };
        let image_taste = Taste {
            rows,
            handles,
            far: 100,
            ..GENERAL
        };
        let (image, start) = self.image(&image_taste, &[home, away]);
        let shape = self.random.below(4);
        let onlookers = self.random.pick(&[0, 0, 1, 1, 2, 4]);
        let bystanders = self.random.pick(&[0, 0, 2, 3, 6]);
        let core = [1, 2, 1, 4][shape];
        let share = length / (1 + onlookers);
        let end = [share, share / 2 + 1, share, share / 4 + 1][shape] as i32;
        // At times the climb starts so high that it leaves 32 bits.
        let base = if self.random.percent(8) {
            i32::MAX - end
        } else {
            0
        };
        let climb = if base > 0 { (3, i32::MAX) } else { (2, end) };
        let alarm = self.random.percent(12).then_some((column, base + end - 4));

        self.open(1);
        let limit = match self.random.below(10) {
            0..=4 => 1_000,
            5 | 6 => self.random.between((length.min(999), 1_000)),
            7 => self.random.between((100, 1_000)),
            8 => length + 1,
            _ => length.saturating_sub(self.random.below(3)),
        };
        self.half(limit.clamp(1, 1_000), 1, 1_000);
        let rules = core + onlookers + bystanders;
        let rules = self.number(rules as u8, 0, 16).min(17) as usize;
        let taste = Taste {
            calm: 100,
            rollback: 0,
            edge: 8,
            ..GENERAL
        };
        let edges = self.edges(rules.min(16), &taste);
        for number in 0..rules {
            let precedes = edges.get(number).copied().unwrap_or(0);
            let on_update = |table, column: u8| Head {
                active: true,
                table,
                triggers: 4,
                columns: 1 << column,
            };
            if number >= core + onlookers {
                let mut head = self.any_head(4);
                if head.table == home || head.table == away {
                    head.active = false;
                }
                self.any_rule(&head, precedes, rules, &taste);
                continue;
            }
            if number >= core {
                self.onlooker(home, alarm, precedes, rules);
                continue;
            }
            match shape {
                0 => {
                    self.head(&on_update(home, column), precedes, rules);
                    self.number(0, 0, 1);
                    self.number(1, 1, 4);
                    self.climb(home, column, 1, climb);
                }
                1 => {
                    let (from, to) = if number == 0 {
                        (home, away)
                    } else {
                        (away, home)
                    };
                    self.head(&on_update(from, column), precedes, rules);
                    self.number(0, 0, 1);
                    self.number(1, 1, 4);
                    self.climb(to, column, 1, climb);
                }
                2 => self.churn(home, column, climb, precedes, rules),
                _ => {
                    let from = (column + number as u8) % 4;
                    self.head(&on_update(home, from), precedes, rules);
                    self.number(0, 0, 1);
                    self.number(1, 1, 4);
                    self.climb(home, (from + 1) % 4, 1, climb);
                }
            }
        }
        let book = self.close();

        // The log gives each of the two tables a row, and updates the rows
        // that were there: an update of a row just inserted would be hidden.
        self.open(2);
        let extra = self.random.below(6);
        self.half(3 + extra, 0, 256);
        for table in [home, away] {
            self.number(1, 1, 3);
            self.table(table);
            for _ in 0..4 {
                let value = base + self.random.below(5) as i32;
                self.constant(value);
            }
        }
        for place in 0..=extra {
            let (handle, _) = match place {
                0 => start.rows[0],
                _ => self.random.pick(&start.rows),
            };
            self.number(3, 1, 3);
            self.wide(handle);
            let mask = if place == 0 {
                1 << column
            } else {
                1 + self.random.below(15) as u8
            };
            self.this_mask_and(mask, |maker, _| {
                let value = base + maker.random.below(5) as i32;
                maker.constant(value);
            });
        }
        (image, book, self.close())
    }

    /// On each insert: the inserted rows go, and climb on as new rows.
    fn churn(
        &mut self,
        table: u8,
        column: u8,
        (kind, end): (u8, i32),
        precedes: u16,
        rules: usize,
    ) {
        self.head(
            &Head {
                active: true,
                table,
                triggers: 1,
                columns: 0,
            },
            precedes,
            rules,
        );
        self.number(0, 0, 1);
        self.number(2, 1, 4);
        self.number(3, 0, 4);
        self.table(table);
        self.number(1, 0, 4);
        self.number(12, 0, 13);
        self.number(4, 4, 4);
        self.number(4, 1, 4);
        for own in 0..4 {
            self.column(own);
            self.column(own);
        }
        self.number(2, 0, 4);
        self.table(table);
        self.number(4, 4, 4);
        self.number(1, 0, 4);
        self.compare(kind, column, end);
        for own in 0..4 {
            if own == column {
                self.sum(column, 1);
            } else {
                self.number(1, 0, 2);
                self.column(own);
            }
        }
    }

    /// Considered often. Its condition does not hold, or holds only when an
    /// alarm value is reached in a column; then it rolls back.
    fn onlooker(&mut self, table: u8, alarm: Option<(u8, i32)>, precedes: u16, rules: usize) {
        let triggers = 1 + self.random.below(7) as u8;
        self.head(
            &Head {
                active: true,
                table,
                triggers,
                columns: 15,
            },
            precedes,
            rules,
        );
        self.number(1, 0, 1);
        match alarm {
            Some((column, value)) => {
                self.table(table);
                self.number(1, 0, 4);
                self.compare(5, column, value);
            }
            None => {
                self.source(triggers, [1, 2]);
                self.number(2, 0, 4);
                self.term(triggers);
                self.compare(2, 0, -100_000);
            }
        }
        self.number(1, 1, 4);
        self.number(0, 0, 4);
    }

    /// Many rows, and rules that match by columns against transition tables.
    fn full(&mut self, rows: usize) -> Parts {
        let tables = self.random.between((2, 3));
        let taste = Taste {
            tables,
            rows: (rows, rows),
            ..GENERAL
        };
        let (image, start) = self.image(&taste, &[]);

        self.open(1);
        let limit = self.random.pick(&[20, 60, 200, 1_000]);
        self.half(limit, 1, 1_000);
        let rules = self.count((2, 8), 0, 16) as usize;
        let edges = self.edges(rules.min(16), &taste);
        for number in 0..rules {
            let table = self.random.below(tables) as u8;
            let triggers = self.random.pick(&[1, 2, 3, 4, 4, 4, 5, 6, 7]);
            let head = Head {
                active: true,
                table,
                triggers,
                columns: 1 + self.random.below(15) as u8,
            };
            let precedes = edges.get(number).copied().unwrap_or(0);
            self.head(&head, precedes, rules);
            let condition = u8::from(self.random.percent(40));
            if self.number(condition, 0, 1) == 1 {
                let any = self.random.below(tables) as u8;
                self.number(any, 0, 3);
                self.number(1, 0, 4);
                self.matching(triggers);
            }
            for _ in 0..self.count((1, 2), 1, 4) {
                let to = self.random.between((0, tables - 1)) as u8;
                match self.random.weighted(&[5, 2, 1]) {
                    0 => {
                        let column = self.random.below(4) as u8;
                        self.number(4, 0, 4);
                        self.table(to);
                        self.this_mask_and(1 << column, |maker, _| maker.sum(column, 1));
                        self.number(2, 0, 4);
                        let end = self.random.below(9) as i32;
                        self.compare(2, column, end);
                        self.matching(triggers);
                    }
                    1 => {
                        self.number(3, 0, 4);
                        self.table(to);
                        self.number(2, 0, 4);
                        self.matching(triggers);
                        self.term(triggers);
                    }
                    _ => {
                        self.number(2, 0, 4);
                        let last = tables as u8 - 1;
                        self.table(last);
                        self.source(triggers, [0, 1]);
                        self.number(2, 0, 4);
                        self.matching(triggers);
                        self.term(triggers);
                        for _ in 0..4 {
                            self.expression();
                        }
                    }
                }
            }
        }
        let book = self.close();
        let operations = self.random.pick(&[(5, 20), (20, 60), (60, 128)]);
        let mix = self.random.pick(&[[1, 1, 12], [2, 3, 8], [0, 1, 6]]);
        let log = self.log(
            &Taste {
                operations,
                mix,
                ..taste
            },
            &start,
        );
        (image, book, log)
    }

    /// A match or no match against a transition table, on several columns.
    fn matching(&mut self, triggers: u8) {
        let kind = self.random.pick(&[12, 12, 13]);
        self.number(kind, 0, 13);
        self.source(triggers, [0, 1]);
        let first = self.random.below(4) as u8;
        for step in 0..self.count((1, 4), 1, 4) {
            let own = (first + step) % 4;
            self.column(own);
            self.column(own);
        }
    }

    /// A log that stirs, for each table, only what no rule on it waits for.
    fn idle(&mut self) -> Parts {
        let rows = (1, self.random.pick(&[10, 30, 60]));
        let (image, start) = self.image(&Taste { rows, ..GENERAL }, &[]);
        // Per table: whether rows come (1), go (2) or neither, and which
        // columns change.
        let comes_goes: [u8; 4] = std::array::from_fn(|_| self.random.below(3) as u8);
        let changing: [u8; 4] = std::array::from_fn(|_| 1 + self.random.below(14) as u8);

        self.open(1);
        let limit = self.random.between((1, 1_000));
        self.half(limit, 1, 1_000);
        let rules = self.count((1, 16), 0, 16) as usize;
        let edges = self.edges(rules.min(16), &GENERAL);
        for number in 0..rules {
            let mut head = self.any_head(4);
            let table = head.table as usize;
            head.columns &= !changing[table];
            head.triggers &= !comes_goes[table];
            if head.columns == 0 {
                head.triggers &= !4;
            }
            if head.triggers == 0 {
                head.triggers = 4;
                head.columns = 15 & !changing[table];
            }
            let precedes = edges.get(number).copied().unwrap_or(0);
            self.any_rule(&head, precedes, rules, &GENERAL);
        }
        let book = self.close();

        let mut live = start.rows.clone();
        let mut next = start.next;
        let mut operations: Vec<(u8, u32, u8)> = Vec::new();
        for _ in 0..self.random.pick(&[4, 20, 80, 256]) {
            let table = self.random.below(4) as u8;
            let here: Vec<usize> = (0..live.len())
                .filter(|&place| live[place].1 == table)
                .collect();
            let change = self.random.percent(70);
            if change && !here.is_empty() {
                operations.push((3, live[self.random.pick(&here)].0, table));
            } else if comes_goes[table as usize] == 1 && live.len() < 64 {
                operations.push((1, next, table));
                live.push((next, table));
                next += 1;
            } else if comes_goes[table as usize] == 2 && !here.is_empty() {
                let gone = live.swap_remove(self.random.pick(&here));
                operations.push((2, gone.0, table));
            }
        }
        self.open(2);
        self.half(operations.len(), 0, 256);
        for (kind, handle, table) in operations {
            self.number(kind, 1, 3);
            match kind {
                1 => {
                    self.table(table);
                    for _ in 0..4 {
                        self.any_value();
                    }
                }
                2 => self.wide(handle),
                _ => {
                    self.wide(handle);
                    let allowed = changing[table as usize];
                    let some = allowed & self.random.below(16) as u8;
                    let mask = if some == 0 { allowed } else { some };
                    self.this_mask_and(mask, |maker, _| maker.any_value());
                }
            }
        }
        (image, book, self.close())
    }
}

struct Head {
    active: bool,
    table: u8,
    triggers: u8,
    columns: u8,
}

// ---- damage

/// Makes the length account for the bytes again.
fn mend(bytes: &mut [u8]) {
    let length = (bytes.len() as u32).saturating_sub(4);
    if let Some(field) = bytes.first_chunk_mut::<4>() {
        *field = length.to_be_bytes();
    }
}

fn any_byte(random: &mut Random) -> u8 {
    match random.percent(75) {
        true => random.pick(&[
            0, 1, 2, 3, 4, 5, 6, 7, 8, 11, 12, 13, 14, 15, 16, 17, 128, 255,
        ]),
        false => random.next() as u8,
    }
}

fn damage_part(random: &mut Random, bytes: &mut Vec<u8>) {
    let mended = random.percent(60);
    match random.below(8) {
        0..=2 => {
            let place = random.below(bytes.len());
            bytes[place] = any_byte(random);
            return;
        }
        3 => {
            let bit = random.below(8);
            let place = random.below(bytes.len());
            bytes[place] ^= 1 << bit;
            return;
        }
        4 => {
            let keep = match random.percent(50) {
                true => bytes.len() - 1 - random.below(4),
                false => random.below(bytes.len()),
            };
            bytes.truncate(keep);
        }
        5 => {
            let place = random.below(bytes.len() + 1);
            bytes.insert(place, any_byte(random));
        }
        6 => {
            bytes.remove(random.below(bytes.len()));
        }
        _ => {
            let length = bytes.len() as u32 - 4;
            let wrong =
                random.pick(&[length + 1, length - 1, length + 4, 0, u32::MAX, length << 8]);
            bytes[..4].copy_from_slice(&wrong.to_be_bytes());
            return;
        }
    }
    if mended {
        mend(bytes);
    }
}

fn damage_whole(random: &mut Random, whole: &mut Vec<u8>) {
    match random.below(8) {
        // Too long, or just as long as allowed.
        0..=3 => {
            let size = INPUT_MAX + random.pick(&[0, 1, 1, 2, 100, 5_000]);
            whole.resize(size.max(whole.len()), any_byte(random));
        }
        4 => whole.truncate(random.below(whole.len() + 1)),
        5 => {
            let place = random.below(whole.len() + 1);
            whole.insert(place, any_byte(random));
        }
        6 => {
            whole.remove(random.below(whole.len()));
        }
        _ => {
            let size = random.below(40);
            *whole = (0..size).map(|_| any_byte(random)).collect();
        }
    }
}
