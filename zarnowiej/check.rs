//! Calls the checker from Rust: feeds a refutation record by record, runs over the same records on a second session, and tries what must be
//! refused. Prints ok, or what differs, and then ends with 1.
mod zarnowiej;

use std::fmt::Debug;
use zarnowiej::{
    feed, run, standing, start, Fed, Session, Stands, Tables, FORM, FORM_TABLE, LEVEL, LINE,
    LINE_TABLE, POOL, REFUSED,
};

/// The cells of the three tables, each a cell longer than it must be and none of them 0.
#[derive(Clone, Debug, PartialEq)]
struct Cells {
    forms: Vec<i32>,
    pool: Vec<u16>,
    lines: Vec<u16>,
}

impl Cells {
    fn new() -> Cells {
        Cells {
            forms: vec![1; FORM_TABLE + 1],
            pool: vec![1; POOL + 1],
            lines: vec![1; LINE_TABLE + 1],
        }
    }

    fn lent(&mut self) -> Tables<'_> {
        Tables {
            forms: &mut self.forms,
            pool: &mut self.pool,
            lines: &mut self.lines,
        }
    }

    /// A cell of the line table is missing.
    fn short(&mut self) -> Tables<'_> {
        Tables {
            forms: &mut self.forms,
            pool: &mut self.pool,
            lines: &mut self.lines[..LINE_TABLE - 1],
        }
    }
}

/// What differed so far.
struct Differences(usize);

impl Differences {
    fn same<T: Debug + PartialEq>(&mut self, what: &str, found: T, due: T) {
        if found != due {
            println!("{what}: {found:?}, but it must be {due:?}");
            self.0 += 1;
        }
    }

    fn refused(&mut self, what: &str, found: Fed, number: u16, s: Session) {
        let due = Fed {
            session: s,
            what: REFUSED,
            number,
        };
        self.same(what, found, due);
    }
}

const REFUTED_BY_4: Stands = Stands {
    refusal: 0,
    refuted: 1,
    line: 4,
};
const NOT_REFUTED: Stands = Stands {
    refusal: 0,
    refuted: 0,
    line: 0,
};
const SHORT: Stands = Stands {
    refusal: 1,
    refuted: 0,
    line: 0,
};

/// A form that says that constant + coefficient · x is at most 0.
fn form(constant: i32, coefficient: i32) -> Vec<u8> {
    let mut bytes = b"FM\x01\0\0".to_vec();
    bytes.extend(constant.to_le_bytes());
    bytes.extend(coefficient.to_le_bytes());
    bytes.extend([0; 44]);
    bytes
}

/// 3x - 2 and 1 - x are at most 0; once the first and three times the second give 1, which is not. With what each record makes.
fn sample() -> [(Vec<u8>, u16, u16); 7] {
    [
        (form(-2, 3), FORM, 0),
        (form(1, -1), FORM, 1),
        (b"PM\x01\0\0".to_vec(), LINE, 0),
        (b"PM\x01\x02\0".to_vec(), LINE, 1),
        (b"FK\x02\0\0\x01\0\0\0\x01\0\x03\0\0\0".to_vec(), LINE, 2),
        (b"RS\0\0\0\0\x02\0".to_vec(), LINE, 3),
        (b"RS\x01\0\x01\0\x03\0".to_vec(), LINE, 4),
    ]
}

/// Fresh tables and session; the excess keeps what it had.
fn begin(d: &mut Differences, cells: &mut Cells) -> Session {
    let begun = start(&mut cells.lent());
    d.same("start", begun.refusal, 0);
    d.same(
        "the last cells after start",
        (
            cells.forms[FORM_TABLE - 1],
            cells.pool[POOL - 1],
            cells.lines[LINE_TABLE - 1],
        ),
        (0, 0, 0),
    );
    d.same(
        "the cells behind the tables",
        (
            cells.forms[FORM_TABLE],
            cells.pool[POOL],
            cells.lines[LINE_TABLE],
        ),
        (1, 1, 1),
    );
    d.same(
        "standing after start",
        standing(begun.session, &cells.lent()),
        NOT_REFUTED,
    );
    begun.session
}

/// Levels come and go, and leave nothing.
fn try_levels(d: &mut Differences, s: Session, cells: &mut Cells) {
    let before = cells.clone();
    let opened = feed(s, &mut cells.lent(), b"OP");
    d.same("a level", (opened.what, opened.number), (LEVEL, 1));
    d.same("the mark's lines", opened.session.marks[0].lines, s.lines);
    let closed = feed(opened.session, &mut cells.lent(), b"WD");
    d.same("no level", (closed.what, closed.number), (LEVEL, 0));
    d.same("the session after a level", closed.session, s);
    d.same("the tables after a level", &*cells, &before);
}

/// Refusals, which change nothing.
fn try_refusals(d: &mut Differences, s: Session, cells: &mut Cells) {
    let before = cells.clone();
    let damaged = Session { forms: 60000, ..s };
    let fed = feed(s, &mut cells.lent(), b"WD");
    d.refused("feed with no level", fed, 13, s);
    let fed = feed(s, &mut cells.lent(), b"");
    d.refused("feed of no bytes", fed, 3, s);
    let fed = feed(s, &mut cells.short(), b"WD");
    d.refused("feed on a short table", fed, 1, s);
    let fed = feed(damaged, &mut cells.lent(), b"WD");
    d.refused("feed of a damaged session", fed, 2, damaged);
    let ran = run(s, &mut cells.short(), b"WD");
    let totals = (ran.records, ran.bytes, ran.stop);
    d.same("run on a short table", totals, (0, 0, 1));
    let stands = standing(s, &cells.short());
    d.same("standing of a short table", stands, SHORT);
    let begun = start(&mut cells.short());
    d.same("start of a short table", begun.refusal, 1);
    d.same("the tables after refusals", &*cells, &before);
}

/// Feeds the sample and gives the session, with the records as a stream.
fn feed_all(d: &mut Differences, cells: &mut Cells) -> (Session, Vec<u8>) {
    let mut s = begin(d, cells);
    let mut stream = Vec::new();
    for (record, what, number) in sample() {
        let fed = feed(s, &mut cells.lent(), &record);
        d.same("feed", (fed.what, fed.number), (what, number));
        s = fed.session;
        stream.extend(record);
    }
    let stands = standing(s, &cells.lent());
    d.same("standing after feed", stands, REFUTED_BY_4);
    (s, stream)
}

/// Runs over the stream and gives the session.
fn run_all(d: &mut Differences, cells: &mut Cells, stream: &[u8]) -> Session {
    let fresh = begin(d, cells);
    let ran = run(fresh, &mut cells.lent(), stream);
    let totals = (ran.records, ran.bytes, ran.stop);
    d.same("records, bytes and stop", totals, (7, 155, 0));
    let s = ran.session;
    let counts = (s.forms, s.lines, s.literals, s.open);
    d.same("forms, lines, literals and open", counts, (2, 5, 5, 0));
    s
}

fn main() {
    let mut d = Differences(0);
    let (mut one, mut two) = (Cells::new(), Cells::new());
    let (s, stream) = feed_all(&mut d, &mut one);
    let t = run_all(&mut d, &mut two, &stream);
    d.same("the sessions of feed and of run", s, t);
    d.same("the tables of feed and of run", &one, &two);
    try_levels(&mut d, s, &mut one);
    try_refusals(&mut d, s, &mut one);
    if d.0 > 0 {
        std::process::exit(1);
    }
    println!("ok");
}
