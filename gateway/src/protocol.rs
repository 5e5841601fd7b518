//! The operations as the gateway passes them on: what a request names, opens and costs.

/// The column of data, as a Raw names it.
const DATA: u8 = 1;

pub const BEGIN: u8 = 0x01;
pub const GET: u8 = 0x02;
pub const SET: u8 = 0x03;
pub const STEP: u8 = 0x04;
pub const STOP: u8 = 0x05;
pub const CLEAN_BEGIN: u8 = 0x06;
pub const CLEAN_STEP: u8 = 0x07;
pub const COLLECT_BEGIN: u8 = 0x08;
pub const COLLECT_STEP: u8 = 0x09;
pub const MINOR: u8 = 0x0A;
pub const MAJOR: u8 = 0x0C;
pub const SPLIT: u8 = 0x0D;
pub const SWEEP: u8 = 0x0F;
pub const ORACLE_RESTART: u8 = 0x10;
pub const RAW: u8 = 0x11;
pub const CHECKPOINT: u8 = 0x12;
pub const DELETE: u8 = 0x13;
pub const SCAN: u8 = 0x31;
pub const COMMIT: u8 = 0x32;
pub const READ: u8 = 0x33;
pub const STATUS: u8 = 0x34;

/// The requests that the gateway answers itself.
pub const STATISTICS: u8 = 0x70;
pub const BACKUP: u8 = 0x71;
pub const CLIENTS: u8 = 0x72;
pub const KILL: u8 = 0x73;
pub const WATCH: u8 = 0x74;

/// The bit by which the reply to a request differs from it, and the first byte of a refusal.
pub const REPLY: u8 = 0x80;
pub const REFUSED: u8 = 0xFF;

/// Refusals, as the bodies of replies.
pub const BAD_ROW: [u8; 2] = [REFUSED, 3];
pub const BAD_COLUMN: [u8; 2] = [REFUSED, 4];
pub const TOO_MANY: [u8; 2] = [REFUSED, 7];
pub const UNKNOWN_TABLET: [u8; 2] = [REFUSED, 11];
pub const MEMTABLE_FULL: [u8; 2] = [REFUSED, 15];
pub const TOO_MANY_FILES: [u8; 2] = [REFUSED, 16];
pub const NO_MEMORY: [u8; 2] = [REFUSED, 20];
pub const BAD_REQUEST: [u8; 2] = [REFUSED, 22];
pub const TOO_LARGE: [u8; 2] = [REFUSED, 23];

/// The reply to a Checkpoint that was made.
pub const CHECKPOINT_MADE: [u8; 1] = [CHECKPOINT | REPLY];

/// The bytes of a frame's length and of a client's number in front of a body, and the longest body of a client: with
/// the number it has 1,048,576 bytes.
pub const HEAD: usize = 4;
pub const LONGEST_BODY: usize = (1 << 20) - HEAD;

/// The most weight of requests before the program, which one request may exceed, and of one client's turn.
pub const MOST_WEIGHT: u32 = 2048;
pub const TURN_WEIGHT: u32 = 64;

/// The longest frames of replies: of a read or a scan, of a blocked collector, of a report (fourteen numbers of eight
/// bytes, and a row), of a Read, and of all others.
pub const READ_ROOM: usize = 65_558;
const BLOCKED_ROOM: usize = 4_086;
const REPORT_ROOM: usize = 4_117;
const LONGEST_ROOM: usize = 1_048_580;
const SMALL_ROOM: usize = 32;

/// The bytes of a Read's reply before its cells, and the most of one cell.
const CELLS_AT: usize = 17;
const CELL_ROOM: usize = 65_541;

/// The most visits and scanned cells, and the most cells of a Commit or a Read, that count.
const MOST_VISITS: u32 = 1000;
pub const MOST_CELLS: u32 = 256;

/// The bytes of the longest row.
pub const LONGEST_ROW: usize = 4000;

#[derive(Clone, Copy, PartialEq, Eq, Hash, Debug)]
pub enum Kind {
    Session = 0,
    Cleaner = 1,
    Collector = 2,
}

impl Kind {
    /// The number of the refusal that nothing of this kind has a name.
    pub fn unknown(self) -> u8 {
        [1, 9, 10][self as usize]
    }
}

/// The row and the family of a cell.
pub type Cell = (Box<[u8]>, Box<[u8]>);

/// A request, as far as the gateway looks at it. `opens` is what it opens, which stays open after the answer, or not;
/// `names` is the thing in it, which ends with each answer that is no refusal, if `ends` is set.
#[derive(Clone, Copy)]
pub struct Request {
    pub code: u8,
    pub weight: u32,
    pub room: usize,
    pub names: Option<(Kind, u64)>,
    pub opens: Option<Kind>,
    pub stays: bool,
    pub ends: bool,
}

impl Request {
    /// The request of a body.
    pub fn of(body: &[u8]) -> Request {
        let code = body.first().copied().unwrap_or(0);
        let name = body.get(1..9).map(be64);
        let named = |kind| name.map(|name| (kind, name));
        let stays_open = code == READ && body.get(9) == Some(&1);
        let (names, opens) = match code {
            BEGIN => (None, Some(Kind::Session)),
            CLEAN_BEGIN => (None, Some(Kind::Cleaner)),
            COLLECT_BEGIN => (None, Some(Kind::Collector)),
            COMMIT | READ if name == Some(0) => (None, Some(Kind::Session)),
            GET | SET | DELETE | SCAN | STEP | STOP | COMMIT | READ => (named(Kind::Session), None),
            CLEAN_STEP => (named(Kind::Cleaner), None),
            COLLECT_STEP => (named(Kind::Collector), None),
            _ => (None, None),
        };
        let is_whole = matches!(code, COMMIT | READ) && !stays_open;
        let (weight, room) = costs(code, body);
        Request { code, weight, room, names, opens, stays: !is_whole, ends: code == STOP || is_whole }
    }
}

/// The weight of a request, and the most bytes of its reply's frame.
fn costs(code: u8, body: &[u8]) -> (u32, usize) {
    let number_at = |at: usize| body.get(at..at + 4).map_or(0, |bytes| be32(bytes) as u32);
    let last = || if body.len() < 13 { 0 } else { number_at(body.len() - 4).min(MOST_VISITS) };
    let size = (body.len() / 4096) as u32;
    match code {
        GET | RAW => (1, READ_ROOM),
        SCAN => (1 + last(), READ_ROOM),
        COLLECT_STEP => (1 + 3 * last(), BLOCKED_ROOM),
        STATUS => (1, REPORT_ROOM),
        COMMIT => (1 + 3 * number_at(9).min(MOST_CELLS) + size, SMALL_ROOM),
        READ => {
            let cells = number_at(10).min(MOST_CELLS);
            (1 + cells + size, (CELLS_AT + CELL_ROOM * cells as usize).min(LONGEST_ROOM))
        }
        _ if is_for_admin(code) => (MOST_WEIGHT, SMALL_ROOM),
        _ => (1, SMALL_ROOM),
    }
}

/// Whether an operation writes or removes files, or restarts the oracle.
pub fn is_for_admin(code: u8) -> bool {
    matches!(code, MINOR..=ORACLE_RESTART | CHECKPOINT)
}

/// Whether a program that shares its rows with others, and has no files, offers an operation of the protocol.
pub fn is_for_shared_rows(code: u8) -> bool {
    !matches!(code, MINOR..=CHECKPOINT | COMMIT | READ | STATUS)
}

/// Whether a Raw reads the column of data, where values stand that aren't committed. Behind the column are two stamps.
pub fn reads_data(body: &[u8]) -> bool {
    body.len().checked_sub(17).is_some_and(|at| body[at] == DATA)
}

/// Whether a body that opens something has exactly the fields of its operation.
pub fn has_form(body: &[u8]) -> bool {
    match body.first() {
        Some(&(COMMIT | READ)) => cells_of(body).is_some(),
        Some(&CLEAN_BEGIN) => {
            let mut fields = Fields(&body[1..]);
            fields.cell().is_some() && fields.0.is_empty()
        }
        _ => body.len() == 1,
    }
}

/// The cell of the body of a Set or a Delete, or None if it is out of form.
pub fn cell_of(body: &[u8]) -> Option<Cell> {
    let mut fields = Fields(body.get(9..)?);
    let cell = fields.cell()?;
    if body[0] == SET {
        fields.counted()?;
    }
    fields.0.is_empty().then_some(cell)
}

/// The cells of the body of a Commit or a Read, or None if it is out of form, or a Read of too few cells or too many.
pub fn cells_of(body: &[u8]) -> Option<Vec<Cell>> {
    let is_commit = *body.first()? == COMMIT;
    let mut fields = Fields(body.get(9..)?);
    if !is_commit {
        fields.flag()?;
    }
    let count = fields.number()?;
    let mut cells = Vec::new();
    for _ in 0..count {
        cells.push(fields.cell()?);
        if is_commit && fields.flag()? {
            fields.counted()?;
        }
    }
    let counts = is_commit || (1..=MOST_CELLS as usize).contains(&count);
    (fields.0.is_empty() && counts).then_some(cells)
}

/// The fields of a body that are still to be read. None is read behind its end.
pub struct Fields<'a>(pub &'a [u8]);

impl<'a> Fields<'a> {
    pub fn take(&mut self, count: usize) -> Option<&'a [u8]> {
        let taken = self.0.get(..count)?;
        self.0 = &self.0[count..];
        Some(taken)
    }

    /// A number of four bytes.
    pub fn number(&mut self) -> Option<usize> {
        self.take(4).map(be32)
    }

    /// Bytes behind their length.
    pub fn counted(&mut self) -> Option<&'a [u8]> {
        let count = self.number()?;
        self.take(count)
    }

    /// A byte 00 or 01.
    pub fn flag(&mut self) -> Option<bool> {
        match self.take(1)? {
            [0] => Some(false),
            [1] => Some(true),
            _ => None,
        }
    }

    /// A row and a family.
    pub fn cell(&mut self) -> Option<Cell> {
        Some((self.counted()?.into(), self.counted()?.into()))
    }
}

/// The number in four bytes.
pub fn be32(bytes: &[u8]) -> usize {
    bytes.iter().fold(0, |number, byte| number << 8 | usize::from(*byte))
}

/// The number in eight bytes.
pub fn be64(bytes: &[u8]) -> u64 {
    bytes.iter().fold(0, |number, byte| number << 8 | u64::from(*byte))
}

/// A body of an operation's number and of a thing's name or a tablet.
pub fn body_of(code: u8, name: &[u8]) -> Vec<u8> {
    [&[code], name].concat()
}

/// Adds bytes behind their length.
pub fn put_counted(to: &mut Vec<u8>, bytes: &[u8]) {
    to.extend_from_slice(&(bytes.len() as u32).to_be_bytes());
    to.extend_from_slice(bytes);
}

/// Adds a cell, as `Fields` takes it.
pub fn put_cell(to: &mut Vec<u8>, (row, family): &Cell) {
    put_counted(to, row);
    put_counted(to, family);
}

#[cfg(test)]
mod tests {
    use super::*;

    /// A Commit or a Read, behind its start and whether it stays open, of so many cells of 13 bytes in all.
    fn of_cells(begins: &[u8], count: u32) -> Vec<u8> {
        let cell = b"\0\0\0\x03row\0\0\0\x01c\0";
        let cell = if begins[0] == READ { &cell[..12] } else { &cell[..] };
        [begins, &count.to_be_bytes(), &cell.repeat(count.min(300) as usize)].concat()
    }

    #[test]
    fn weights_and_rooms() {
        let one = [0, 0, 0, 0, 0, 0, 0, 1];
        let counted = |code, count: u32| [&[code][..], &one, &count.to_be_bytes()].concat();
        let (commit, read) = ([&[COMMIT][..], &[0; 8]].concat(), [&[READ][..], &[0; 9]].concat());
        let cases: [(Vec<u8>, u32, usize); 16] = [
            (vec![BEGIN], 1, 32),
            (counted(SCAN, 1), 2, 65_558),
            (counted(SCAN, 1000), 1001, 65_558),
            (counted(SCAN, u32::MAX), 1001, 65_558),
            (vec![SCAN], 1, 65_558),
            (counted(COLLECT_STEP, 10), 31, 4086),
            (vec![SWEEP], 2048, 32),
            (of_cells(&commit, 0), 1, 32),
            (of_cells(&commit, 1), 4, 32),
            (of_cells(&commit, 256), 1 + 3 * 256, 32),
            (vec![COMMIT], 1, 32),
            (of_cells(&read, 1), 2, 65_558),
            (of_cells(&read, 15), 16, 983_132),
            (of_cells(&read, 256), 257, 1_048_580),
            (body_of(STATUS, &[0; 4]), 1, 4 + 1 + 14 * 8 + 4000),
            (vec![STATUS], 1, 4117),
        ];
        for (body, weight, room) in cases {
            assert_eq!(costs(body[0], &body), (weight, room), "{body:?}");
        }
    }

    #[test]
    fn a_report_is_everybodys() {
        let request = Request::of(&body_of(STATUS, &[0; 4]));
        assert_eq!((request.names, request.opens, request.ends), (None, None, false));
        assert!(!is_for_admin(STATUS));
    }

    #[test]
    fn operations_for_shared_rows() {
        let offered: Vec<u8> = (0..0x70).filter(|code| is_for_shared_rows(*code)).take(16).collect();
        assert_eq!(offered, [0, 1, 2, 3, 4, 5, 6, 7, 8, 9, 0x13, 0x14, 0x15, 0x16, 0x17, 0x18]);
        assert_eq!([SCAN, COMMIT, READ, STATUS, 0x35].map(is_for_shared_rows), [true, false, false, false, true]);
    }

    #[test]
    fn forms_of_what_opens() {
        let (commit, read) = ([&[COMMIT][..], &[0; 8]].concat(), [&[READ][..], &[0; 9]].concat());
        for (body, is_there) in [
            (vec![BEGIN], true),
            (vec![BEGIN, 0], false),
            (b"\x06\0\0\0\x01r\0\0\0\x01c".to_vec(), true),
            (b"\x06\0\0\0\x01r\0\0\0\x02c".to_vec(), false),
            (of_cells(&commit, 0), true),
            (of_cells(&commit, 3), true),
            (of_cells(&commit, 3)[..40].to_vec(), false),
            (of_cells(&commit, u32::MAX), false),
            (of_cells(&read, 256), true),
            (of_cells(&read, 257), false),
            (of_cells(&read, 0), false),
        ] {
            assert_eq!(has_form(&body), is_there, "{body:?}");
        }
    }
}
