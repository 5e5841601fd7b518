//! Tablets that hold too much: samples of the rows that clients write, by which a tablet is split in its middle, and
//! the task that looks how large the tablets are. `docs/GATEWAY.md`, "Large tablets", has the rule, which the Python
//! client keeps too.

use std::cell::{Cell, RefCell};
use std::collections::hash_map::RandomState;
use std::collections::HashMap;
use std::fs;
use std::hash::{BuildHasher, Hasher};
use std::io::ErrorKind;
use std::path::{Path, PathBuf};
use std::rc::Rc;

use crate::failure::tell;
use crate::household::{Household, MOST_TABLETS};
use crate::protocol::*;

/// Clients write so much between two looks, and between two rows that are taken for a sample, as parts of what a tablet
/// may hold.
const LOOKS: u64 = 8;
const SAMPLED: u64 = 1024;

/// The most rows that are taken of a request.
const MOST_AT_ONCE: u64 = 8;

/// The most rows of a tablet's sample, and the fewest by which it is split.
const MOST_ROWS: usize = 256;
const FEWEST_ROWS: usize = 64;

/// The most bytes of all samples, and what a row takes beside its own.
const MOST_BYTES: usize = 8 << 20;
const BESIDE: usize = 32;

/// The root of a folder with checksums and of one without, its head in format 2, and the bytes of its stamp, its floor and
/// its next names.
const SUMMED_ROOT: &str = "t8000000000000000.tab";
const ROOT: &str = "t0000000000000000.tab";
const ROOT_HEAD: &[u8] = b"TABROOT2";
const ROOT_NUMBERS: usize = 28;

/// The most bytes of a piece of a file with checksums, and those before its payload.
const PIECE: usize = 1030;
const PIECE_HEAD: usize = 6;

type Row = Box<[u8]>;

/// The last row of a tablet; the last tablet has none.
type End = Option<Row>;

/// A number at random, each with the same chance.
fn random() -> u64 {
    RandomState::new().build_hasher().finish()
}

/// The writes of clients: how many bytes have passed, how many pass before the next row is taken, and the samples.
/// Unless a distance is set, none are noted.
#[derive(Default)]
pub struct Writes {
    distance: Cell<u64>,
    passed: Cell<u64>,
    left: Cell<u64>,
    samples: RefCell<Samples>,
}

impl Writes {
    /// Notes the body of a Set, a Delete or a Commit. The more bytes it has, the more often a row of it is taken.
    pub fn note(&self, body: &[u8]) {
        let (distance, length) = (self.distance.get(), body.len() as u64);
        if distance == 0 || length == 0 {
            return;
        }
        self.passed.set(self.passed.get() + length);
        let left = self.left.get();
        if left >= length {
            return self.left.set(left - length);
        }
        self.left.set(random() % (2 * distance));
        for _ in 0..(1 + (length - left) / distance).min(MOST_AT_ONCE) {
            if let Some(row) = row_at(body, (random() % length) as usize) {
                self.samples.borrow_mut().add(row, random());
            }
        }
    }
}

/// The row of the write in a body in which a byte stands, if it may be a tablet's end.
fn row_at(body: &[u8], at: usize) -> Option<&[u8]> {
    let mut fields = Fields(body.get(9..)?);
    let may_be_end = |row: &&[u8]| (1..=LONGEST_ROW).contains(&row.len());
    if body[0] != COMMIT {
        return fields.counted().filter(may_be_end);
    }
    for _ in 0..fields.number()? {
        let row = fields.counted()?;
        fields.counted()?;
        if fields.flag()? {
            fields.counted()?;
        }
        if body.len() - fields.0.len() > at {
            return Some(row).filter(may_be_end);
        }
    }
    None
}

/// Of the rows that were written to a tablet since it was made, some by chance, each with the same: one of two to the
/// power of `thinned`.
#[derive(Default)]
struct Sample {
    end: End,
    rows: Vec<Row>,
    thinned: u32,
}

/// The samples of all tablets, in the order of their rows, and their bytes.
struct Samples {
    samples: Vec<Sample>,
    bytes: usize,
}

impl Default for Samples {
    fn default() -> Samples {
        Samples { samples: vec![Sample::default()], bytes: 0 }
    }
}

impl Samples {
    /// The place of the tablet that has a row.
    fn place(&self, row: &[u8]) -> usize {
        self.samples.partition_point(|sample| sample.end.as_deref().is_some_and(|end| end < row))
    }

    /// Takes a row, unless chance is against it.
    fn add(&mut self, row: &[u8], chance: u64) {
        let place = self.place(row);
        let sample = &mut self.samples[place];
        if chance.trailing_zeros() < sample.thinned {
            return;
        }
        sample.rows.push(row.into());
        self.bytes += row.len() + BESIDE;
        if sample.rows.len() > MOST_ROWS {
            self.thin(place);
        }
        while self.bytes > MOST_BYTES {
            (0..self.samples.len()).for_each(|place| self.thin(place));
        }
    }

    /// Leaves every second row of a sample.
    fn thin(&mut self, place: usize) {
        let sample = &mut self.samples[place];
        sample.rows.sort_unstable();
        sample.thinned += 1;
        let (mut is_left, mut gone) = (random() & 1 == 0, 0);
        sample.rows.retain(|row| {
            is_left = !is_left;
            gone += if is_left { 0 } else { row.len() + BESIDE };
            is_left
        });
        self.bytes -= gone;
    }

    /// The tablet that has a row was split behind it, or ends there.
    fn cut(&mut self, row: &[u8]) {
        let place = self.place(row);
        let right = &mut self.samples[place];
        if right.end.as_deref() != Some(row) {
            let (rows, others) = std::mem::take(&mut right.rows).into_iter().partition(|each| **each <= *row);
            right.rows = others;
            let left = Sample { end: Some(row.into()), rows, thinned: right.thinned };
            self.samples.insert(place, left);
        }
    }

    /// The row behind which the tablet with an end is to be split.
    fn middle(&mut self, end: &End) -> Option<Row> {
        let sample = self.samples.iter_mut().find(|sample| sample.end == *end)?;
        sample.rows.sort_unstable();
        middle(&sample.rows)
    }
}

/// The row in the middle of rows in order, or the one before it if no greater one is there. None if these are too few,
/// or all are the same.
fn middle(rows: &[Row]) -> Option<Row> {
    let (middle, last) = (rows.get(rows.len().saturating_sub(1) / 2)?, rows.last()?);
    let found = rows.iter().rev().find(|row| *row <= middle && *row < last);
    found.filter(|_| rows.len() >= FEWEST_ROWS).cloned()
}

/// A tablet: its end, and its bytes.
#[derive(Clone, Debug, PartialEq)]
struct Tablet {
    end: End,
    bytes: u64,
}

/// How many tablets there are, and the one that was asked for, by the reply to a Status: all bytes in its memtable and
/// in its files, also in those that it shares.
fn reported(reply: &[u8]) -> Option<(usize, Tablet)> {
    let mut fields = Fields(reply.strip_prefix(&[STATUS | REPLY])?);
    let numbers = (0..14).map(|_| fields.take(8).map(be64)).collect::<Option<Vec<u64>>>()?;
    let end = (!fields.0.is_empty()).then(|| fields.0.into());
    Some((numbers[8] as usize, Tablet { end, bytes: numbers[11].saturating_add(numbers[13]) }))
}

/// The tablets of a root in the order of their rows, each with the bytes of its files that others have, if those that
/// share a file have the same part of it. None if it is no root of format 2.
fn rooted(root: &[u8]) -> Option<Vec<Tablet>> {
    let mut fields = Fields(root.strip_prefix(ROOT_HEAD)?);
    fields.take(ROOT_NUMBERS)?;
    let (mut tablets, mut sharers) = (Vec::new(), HashMap::new());
    for _ in 0..fields.number()? {
        fields.number()?;
        let end: End = if fields.flag()? { None } else { Some(fields.counted()?.into()) };
        fields.take(1)?;
        let mut files = Vec::new();
        for _ in 0..fields.number()? {
            let file = (be64(fields.take(8)?), be64(fields.take(8)?));
            *sharers.entry(file.0).or_insert(0) += 1;
            files.push(file);
        }
        tablets.push((end, files));
    }
    let of_others = |(name, length): &(u64, u64)| length - length / sharers[name];
    Some(
        tablets
            .iter()
            .map(|(end, files)| Tablet { end: end.clone(), bytes: files.iter().map(of_others).sum() })
            .collect(),
    )
}

/// The tablets with more bytes of their own than a limit, by the reports of all and by the last root, both in the order
/// of their rows. One that the root doesn't have in this range isn't known to have any.
fn too_large(tablets: &[Tablet], rooted: &[Tablet], limit: u64) -> Vec<End> {
    let with_start = |tablets: &[Tablet], place: usize| {
        (place.checked_sub(1).map(|before| tablets[before].end.clone()), tablets[place].end.clone())
    };
    let known: HashMap<_, _> =
        (0..rooted.len()).map(|place| (with_start(rooted, place), rooted[place].bytes)).collect();
    let is_large = |place: &usize| {
        let of_others = known.get(&with_start(tablets, *place));
        of_others.is_some_and(|of_others| tablets[*place].bytes.saturating_sub(*of_others) > limit)
    };
    (0..tablets.len()).filter(is_large).map(|place| tablets[place].end.clone()).collect()
}

impl Household {
    /// Splits the tablets of a folder that hold more than so many bytes, once clients have written a part of that since
    /// the last look. A refusal is told, unless it was the last one too.
    pub async fn split(self: Rc<Self>, folder: PathBuf, limit: u64) {
        self.writes.distance.set((limit / SAMPLED).max(1));
        let mut told = 0;
        loop {
            let before = self.writes.passed.get();
            self.until(None, |own| own.writes.passed.get() - before >= (limit / LOOKS).max(1)).await;
            let refusal = self.split_large(&folder, limit).await;
            if refusal != 0 && refusal != told {
                tell(format_args!("a tablet that is too large isn't split: {refusal}"));
            }
            told = refusal;
        }
    }

    /// Splits each tablet that is too large, and returns the number of the last refusal, or 0.
    async fn split_large(&self, folder: &Path, limit: u64) -> u8 {
        let mut tablets: Vec<Tablet> = Vec::new();
        let mut count = 1;
        while tablets.len() < count {
            let reply = self.ask(body_of(STATUS, &(tablets.len() as u32 + 1).to_be_bytes())).await;
            let Some((told, tablet)) = reported(&reply) else { return reply.get(1).copied().unwrap_or(0) };
            if told >= MOST_TABLETS as usize {
                return 0;
            }
            count = told;
            tablets.push(tablet);
        }
        tablets.sort_by(|one, other| (one.end.is_none(), &one.end).cmp(&(other.end.is_none(), &other.end)));
        for row in tablets.iter().filter_map(|tablet| tablet.end.as_ref()) {
            self.writes.samples.borrow_mut().cut(row);
        }
        let Some(rooted) = last_root(folder) else { return 0 };
        let mut refusal = 0;
        for end in too_large(&tablets, &rooted, limit) {
            let middle = self.writes.samples.borrow_mut().middle(&end);
            let Some(row) = middle else { continue };
            let mut body = vec![SPLIT];
            put_counted(&mut body, &row);
            let reply = self.ask(body).await;
            if reply[0] == REFUSED {
                refusal = reply[1];
            } else {
                self.writes.samples.borrow_mut().cut(&row);
            }
        }
        refusal
    }
}

/// The payload of a file with checksums. At these the program looks.
fn payload(file: &[u8]) -> Vec<u8> {
    file.chunks(PIECE).flat_map(|piece| piece.iter().skip(PIECE_HEAD)).copied().collect()
}

/// What the root of a folder says, or that of a new store if there is none.
fn last_root(folder: &Path) -> Option<Vec<Tablet>> {
    let root = match fs::read(folder.join(SUMMED_ROOT)) {
        Err(error) if error.kind() == ErrorKind::NotFound => fs::read(folder.join(ROOT)),
        summed => summed.map(|file| payload(&file)),
    };
    match root {
        Ok(root) => rooted(&root),
        Err(error) if error.kind() == ErrorKind::NotFound => Some(vec![Tablet { end: None, bytes: 0 }]),
        Err(_) => None,
    }
}

#[cfg(test)]
mod tests {
    use super::*;
    use crate::household::Tasks;

    fn row(number: usize) -> Row {
        format!("{number:06}").into_bytes().into()
    }

    fn rows(numbers: impl IntoIterator<Item = usize>) -> Vec<Row> {
        numbers.into_iter().map(row).collect()
    }

    fn tablet(end: Option<usize>, bytes: u64) -> Tablet {
        Tablet { end: end.map(row), bytes }
    }

    #[test]
    fn middles() {
        let twice = |one, others| rows([vec![0; one], vec![1; others]].concat());
        let cases = [
            (rows(0..64), Some(31)),
            (rows(0..65), Some(32)),
            (rows(0..63), None),
            (rows([]), None),
            (rows([5; 100]), None),
            (twice(1, 99), Some(0)),
            (twice(99, 1), Some(0)),
        ];
        for (rows, found) in cases {
            assert_eq!(middle(&rows), found.map(row), "{rows:?}");
        }
    }

    #[test]
    fn samples_of_tablets() {
        let mut samples = Samples::default();
        (0..100).for_each(|number| samples.add(&row(number), 0));
        assert_eq!(samples.middle(&None), Some(row(49)));
        samples.cut(&row(49));
        samples.cut(&row(49));
        let counts: Vec<usize> = samples.samples.iter().map(|sample| sample.rows.len()).collect();
        assert_eq!((counts, samples.place(&row(49)), samples.place(&row(50))), (vec![50, 50], 0, 1));
        (0..20).for_each(|number| samples.add(&row(number), 0));
        assert_eq!(samples.middle(&Some(row(49))), Some(row(17)));
        assert_eq!((samples.middle(&None), samples.middle(&Some(row(3)))), (None, None));
    }

    #[test]
    fn samples_stay_bounded_and_even() {
        let mut samples = Samples::default();
        let last = (0..100_000).inspect(|number| samples.add(&row(*number), random())).last().unwrap();
        let sample = &samples.samples[0];
        assert!((50..=MOST_ROWS).contains(&sample.rows.len()) && sample.thinned >= 8);
        assert_eq!(samples.bytes, sample.rows.len() * (6 + BESIDE));
        let found = samples.middle(&None).unwrap();
        assert!((row(last / 4)..row(3 * last / 4)).contains(&found), "{found:?}");
        for number in 0..64 {
            samples.cut(&row(number * 1000));
        }
        let long = |number: usize| [&row(number)[..], &[7; 3990]].concat();
        (0..64_000).for_each(|number| samples.add(&long(number), 0));
        let bytes = samples.samples.iter().flat_map(|sample| &sample.rows).map(|row| row.len() + BESIDE).sum::<usize>();
        assert!(samples.bytes <= MOST_BYTES && samples.bytes == bytes);
    }

    #[test]
    fn rows_of_writes() {
        let set = b"\x03\0\0\0\0\0\0\0\x01\0\0\0\x03row\0\0\0\x01c\0\0\0\x01v";
        let commit = b"\x32\0\0\0\0\0\0\0\0\0\0\0\x02\0\0\0\x01r\0\0\0\x01c\x01\0\0\0\x01v\0\0\0\x01s\0\0\0\x01c\0";
        let found = |body, at| row_at(body, at).map(<[u8]>::to_vec);
        assert_eq!(found(set, 3), Some(b"row".to_vec()));
        assert_eq!(found(&set[..14], 3), None);
        assert_eq!((0..commit.len()).filter(|at| found(commit, *at) == Some(b"r".to_vec())).count(), 29);
        assert_eq!(found(commit, commit.len() - 1), Some(b"s".to_vec()));
        assert_eq!((found(&commit[..13], 3), found(b"\x32\0\0\0\0\0\0\0\0\0\0\0\0", 3)), (None, None));
        assert_eq!(found(b"\x03\0\0\0\0\0\0\0\x01\0\0\0\0", 3), None);
        assert_eq!(found(b"\x03", 0), None);
        let writes = Writes::default();
        writes.note(set);
        assert_eq!(writes.passed.get(), 0);
        writes.distance.set(1);
        (0..10).for_each(|_| writes.note(set));
        assert_eq!((writes.passed.get(), writes.samples.borrow().samples[0].rows.len()), (10 * set.len() as u64, 80));
    }

    #[test]
    fn reports_and_roots() {
        let mut reply = vec![STATUS | REPLY];
        (1..=14).for_each(|number: u64| reply.extend(number.to_be_bytes()));
        assert_eq!(reported(&reply), Some((9, Tablet { end: None, bytes: 12 + 14 })));
        reply.push(b'm');
        assert_eq!(reported(&reply).map(|found| found.1.end), Some(Some((*b"m").into())));
        assert_eq!((reported(&reply[..73]), reported(&[REFUSED, 22])), (None, None));
        let shared = [&[0, 0, 0, 1][..], &[0, 0, 0, 0, 0, 0, 0, 1, 0, 0, 0, 0, 0, 0, 0, 123]].concat();
        let (left, right) = (b"\0\0\0\x02\0\0\0\0\x01m\x03", b"\0\0\0\x01\x01\0");
        let root = [ROOT_HEAD, &[0; 28], &[0, 0, 0, 2], left, &shared, right, &shared, b"TABROOTZ"].concat();
        let of = |end: &[u8]| Tablet { end: (!end.is_empty()).then(|| end.into()), bytes: 62 };
        assert_eq!(rooted(&root), Some(vec![of(b"m"), of(b"")]));
        assert_eq!((rooted(&root[..60]), rooted(b"TABROOT1")), (None, None));
    }

    #[test]
    fn pieces() {
        let whole = [&[7; 6][..], &[1; 1024]].concat();
        assert_eq!((payload(&whole[..6]), payload(&whole[..9])), (vec![], vec![1; 3]));
        assert_eq!(payload(&[&whole[..], &whole, &whole[..7]].concat()), [1; 2049]);
    }

    /// The reply to a Status: so many tablets, and the one that was asked for, with these bytes in its files.
    fn report(count: u64, end: &[u8], bytes: u64) -> Vec<u8> {
        let numbers: Vec<u64> = [vec![0; 8], vec![count, 0, 0, 0, 1, bytes]].concat();
        let told: Vec<u8> = numbers.iter().flat_map(|number| number.to_be_bytes()).collect();
        [&[STATUS | REPLY], &told[..], end].concat()
    }

    #[test]
    fn looks_and_splits() {
        let (own, mut tasks) = (Rc::new(Household::default()), Tasks::default());
        tasks.begin(own.clone().split("/nowhere".into(), 8000));
        let mut asked = |reply: &[u8]| {
            tasks.run(&own);
            let (body, to) = own.next(false)?;
            *to.borrow_mut() = Some(reply.into());
            Some(body)
        };
        let write = |number: usize| {
            let mut body = vec![COMMIT, 0, 0, 0, 0, 0, 0, 0, 0, 0, 0, 0, 1];
            [&row(number)[..], b"c"].iter().for_each(|bytes| put_counted(&mut body, bytes));
            body.push(0);
            own.writes.note(&body);
        };
        let status = |number: u32| Some(body_of(STATUS, &number.to_be_bytes()));
        let middle_of = |body: Option<Vec<u8>>| {
            let body = body.filter(|body| body[..5] == [SPLIT, 0, 0, 0, 6]).expect("a split");
            assert!((&*row(32)..&*row(96)).contains(&&body[5..]), "{body:?}");
            body[5..].to_vec()
        };
        assert_eq!(asked(b""), None);
        (0..16).for_each(write);
        assert_eq!(asked(b""), None);
        (16..128).for_each(write);
        // Too small, the most tablets, refused twice, and then split
        for reply in [report(1, b"", 8000), report(1024, b"", 8001), vec![REFUSED, 20]] {
            assert_eq!((asked(&reply), asked(b"")), (status(1), None));
            (0..128).for_each(write);
        }
        assert_eq!(asked(&report(1, b"", 8001)), status(1));
        middle_of(asked(&[REFUSED, 12]));
        assert_eq!((asked(b""), own.writes.samples.borrow().samples.len()), (None, 1));
        (0..128).for_each(write);
        assert_eq!(asked(&report(1, b"", 9000)), status(1));
        let cut = middle_of(asked(&[SPLIT | REPLY, 0, 0, 0, 2]));
        assert_eq!((asked(b""), own.writes.samples.borrow().samples.len()), (None, 2));
        // The root has no tablet of these ranges
        (0..128).for_each(write);
        let second = (asked(&report(2, b"", 9000)), asked(&report(2, &cut, 9000)), asked(b""));
        assert_eq!(second, (status(1), status(2), None));
    }

    #[test]
    fn tablets_that_are_too_large() {
        let (new, cut) = ([tablet(None, 0)], [tablet(Some(5), 60), tablet(None, 60)]);
        assert_eq!(too_large(&[tablet(None, 101)], &new, 100), vec![None]);
        assert_eq!(too_large(&[tablet(None, 100)], &new, 100), vec![]);
        // What both share counts once
        assert_eq!(too_large(&[tablet(Some(5), 160), tablet(None, 161)], &cut, 100), vec![None]);
        // A split that the root doesn't have
        assert_eq!(too_large(&[tablet(Some(5), 500), tablet(None, 500)], &new, 100), vec![]);
        assert_eq!(too_large(&[tablet(Some(3), 500), tablet(Some(5), 500), tablet(None, 200)], &cut, 100), vec![None]);
    }
}
