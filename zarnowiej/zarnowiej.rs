//! The checker's four calls, for Rust on x86-64, as functions over slices. Link with libzarnowiej.a, which `zarnowiej/run` writes into target/staticlib.
//! Any lengths, any cells, any session and any bytes get an answer, and a refusal changes nothing.

/// The cells that each table must have; of longer ones the excess is neither read nor written.
pub const FORM_TABLE: usize = 3840;
pub const POOL: usize = 4096;
pub const LINE_TABLE: usize = 1024;

/// The values of `Fed::what`. The number is then why it was refused, that of the form or line made, or how many levels are open now.
pub const REFUSED: u16 = 0;
pub const FORM: u16 = 1;
pub const LINE: u16 = 2;
pub const LEVEL: u16 = 3;

/// The counts as a level opened.
#[repr(C)]
#[derive(Clone, Copy, Debug, PartialEq, Eq)]
pub struct Mark {
    pub forms: u16,
    pub lines: u16,
    pub literals: u16,
}

/// How much of each table is in use, how many levels are open, and their marks.
#[repr(C)]
#[derive(Clone, Copy, Debug, PartialEq, Eq)]
pub struct Session {
    pub forms: u16,
    pub lines: u16,
    pub literals: u16,
    pub open: u16,
    pub marks: [Mark; 8],
}

/// What start gives: the fresh session; 0, or 1 where a table is too short.
#[repr(C)]
#[derive(Clone, Copy, Debug, PartialEq, Eq)]
pub struct Begun {
    pub session: Session,
    pub refusal: u16,
}

/// What feed gives: the session afterwards, and the answer.
#[repr(C)]
#[derive(Clone, Copy, Debug, PartialEq, Eq)]
pub struct Fed {
    pub session: Session,
    pub what: u16,
    pub number: u16,
}

/// What run gives: the session afterwards; the number of the refusal that stopped it, or 0 at the end of the stream; how many records and
/// bytes were accepted.
#[repr(C)]
#[derive(Clone, Copy, Debug, PartialEq, Eq)]
pub struct Ran {
    pub session: Session,
    pub stop: u16,
    pub records: usize,
    pub bytes: usize,
}

/// What standing gives: the number of the refusal, or 0 where there is none; then 1 for refuted, with the lowest empty line, or 0 for not
/// refuted. What is not said is 0.
#[repr(C)]
#[derive(Clone, Copy, Debug, PartialEq, Eq)]
pub struct Stands {
    pub refusal: u16,
    pub refuted: u16,
    pub line: u16,
}

/// The three tables, lent.
pub struct Tables<'a> {
    pub forms: &'a mut [i32],
    pub pool: &'a mut [u16],
    pub lines: &'a mut [u16],
}

#[link(name = "zarnowiej", kind = "static")]
extern "C" {
    fn zarnowiej_start(
        forms: *mut i32,
        form_cells: usize,
        pool: *mut u16,
        pool_cells: usize,
        lines: *mut u16,
        line_cells: usize,
    ) -> Begun;
    fn zarnowiej_feed(
        s: Session,
        forms: *mut i32,
        form_cells: usize,
        pool: *mut u16,
        pool_cells: usize,
        lines: *mut u16,
        line_cells: usize,
        record: *const u8,
        record_bytes: usize,
    ) -> Fed;
    fn zarnowiej_run(
        s: Session,
        forms: *mut i32,
        form_cells: usize,
        pool: *mut u16,
        pool_cells: usize,
        lines: *mut u16,
        line_cells: usize,
        stream: *const u8,
        stream_bytes: usize,
    ) -> Ran;
    fn zarnowiej_standing(
        s: Session,
        forms: *const i32,
        form_cells: usize,
        pool: *const u16,
        pool_cells: usize,
        lines: *const u16,
        line_cells: usize,
    ) -> Stands;
}

// What the calls ask of addresses, slices have by themselves: they are not null, their cells may be used, and no two overlap.

/// Sets the named cells to 0 and gives the fresh session.
pub fn start(t: &mut Tables) -> Begun {
    unsafe {
        zarnowiej_start(
            t.forms.as_mut_ptr(),
            t.forms.len(),
            t.pool.as_mut_ptr(),
            t.pool.len(),
            t.lines.as_mut_ptr(),
            t.lines.len(),
        )
    }
}

/// Takes one record.
pub fn feed(s: Session, t: &mut Tables, record: &[u8]) -> Fed {
    unsafe {
        zarnowiej_feed(
            s,
            t.forms.as_mut_ptr(),
            t.forms.len(),
            t.pool.as_mut_ptr(),
            t.pool.len(),
            t.lines.as_mut_ptr(),
            t.lines.len(),
            record.as_ptr(),
            record.len(),
        )
    }
}

/// Takes records from the front of a stream, up to its end or a refusal.
pub fn run(s: Session, t: &mut Tables, stream: &[u8]) -> Ran {
    unsafe {
        zarnowiej_run(
            s,
            t.forms.as_mut_ptr(),
            t.forms.len(),
            t.pool.as_mut_ptr(),
            t.pool.len(),
            t.lines.as_mut_ptr(),
            t.lines.len(),
            stream.as_ptr(),
            stream.len(),
        )
    }
}

/// Says whether the session is refuted. Writes nothing.
pub fn standing(s: Session, t: &Tables) -> Stands {
    unsafe {
        zarnowiej_standing(
            s,
            t.forms.as_ptr(),
            t.forms.len(),
            t.pool.as_ptr(),
            t.pool.len(),
            t.lines.as_ptr(),
            t.lines.len(),
        )
    }
}
