//! Files in the making that hold their yards.

use crate::border::{most_bytes, word, words_of, Piece};
use crate::desk::{widen, Desk};
use crate::raw::{self, Holding, Lengths, NoteLengths, Notes, Offer, Reply, Start, State, STATE_WORDS};
use crate::refusal::Refusal;

/// The sizes of a file's three sections, how many yards it has, and the greatest of their lower latitudes (0 if there are none).
#[derive(Clone, Copy, Debug, Default, Eq, PartialEq)]
#[allow(missing_docs)]
pub struct Totals {
    pub table: usize,
    pub metadata: usize,
    pub data: usize,
    pub yards: usize,
    pub greatest: i32,
}

impl Totals {
    fn of([table, metadata, data, yards, greatest]: Reply) -> Totals {
        Totals {
            table: table as usize,
            metadata: metadata as usize,
            data: data as usize,
            yards: yards as usize,
            greatest: greatest as u32 as i32,
        }
    }
}

/// A file in the making, from [`Builder::begin`](crate::Builder::begin): it holds yards, gives them up again, and says after each call how large the file has become.
/// A call that is refused changes nothing.
///
/// ```no_run
/// # use uskelzar::{Builder, Table};
/// let mut draft = Builder::new(Table::Countries, 16, &["Name"]).room(4096).begin().unwrap();
/// draft.add(&[(2, 2), (10, 2), (10, 10), (2, 10)], &["Depot"])?;
/// draft.replace(0, 0, "Yard")?;
/// let file = draft.finish()?;
/// # Ok::<(), uskelzar::Refusal>(())
/// ```
#[derive(Clone, Debug)]
pub struct Draft {
    names: usize,
    room: usize,
    state: State,
    totals: Totals,
    boxes: Vec<i32>,
    borders: Vec<u32>,
    lengths: Vec<u32>,
    texts: Vec<u8>,
    bytes: Vec<u8>,
    marks: Vec<u32>,
    chains: Vec<u32>,
    groups: Vec<u32>,
    begins: Vec<u32>,
    desk: Desk,
    out: Vec<u8>,
}

/// A builder's numbers and lists, and what it works in, apart from each other.
macro_rules! parts {
    ($draft:expr) => {{
        let Draft { state, boxes, borders, lengths, texts, bytes, marks, chains, groups, begins, desk, out, .. } = $draft;
        (state, Holding { boxes, borders, lengths, texts, bytes }, Notes { marks, chains, groups, begins }, desk.lend(), out)
    }};
}

impl Draft {
    pub(crate) fn begin(start: &Start) -> Result<Draft, Refusal> {
        let mut draft = Draft {
            names: start.names as usize,
            room: start.room,
            state: [0; STATE_WORDS],
            totals: Totals::default(),
            boxes: vec![],
            borders: vec![],
            lengths: vec![0; start.lengths.len()],
            texts: vec![0; start.texts.len()],
            bytes: vec![0],
            marks: vec![],
            chains: vec![],
            groups: vec![],
            begins: vec![],
            desk: Desk::default(),
            out: vec![],
        };
        let (state, holding, ..) = parts!(&mut draft);
        draft.totals = Totals::of(raw::begin(start, state, holding)?);
        Ok(draft)
    }

    /// What the file would be now.
    pub fn totals(&self) -> Totals {
        self.totals
    }

    /// A yard more, as [`Builder::yard`](crate::Builder::yard) takes it. Refused 19 to 22, 25 for a 4,097th yard or other than a value a name, 26, 28.
    pub fn add(&mut self, points: &[(i32, i32)], values: &[&str]) -> Result<Totals, Refusal> {
        self.add_with(points, &[], values)
    }

    /// The same of a yard that borrows some of its moves: 23 too, before 28.
    pub fn add_with(&mut self, points: &[(i32, i32)], pieces: &[Piece], values: &[&str]) -> Result<Totals, Refusal> {
        let (lats, lons): (Vec<i32>, Vec<i32>) = points.iter().copied().unzip();
        let pieces: Vec<u32> = pieces.iter().flat_map(words_of).collect();
        self.offer((&lats, &lons), &pieces, values)
    }

    pub(crate) fn offer<T: AsRef<str>>(
        &mut self,
        (lats, lons): (&[i32], &[i32]),
        pieces: &[u32],
        values: &[T],
    ) -> Result<Totals, Refusal> {
        let values = || values.iter().map(AsRef::as_ref);
        let lengths: Vec<u32> = values().map(|value: &str| word(value.len())).collect();
        let texts: Vec<u8> = values().flat_map(str::bytes).collect();
        self.widen(1, texts.len(), most_bytes(lats.len()));
        let offer = Offer { lats, lons, pieces, lengths: &lengths, texts: &texts };
        let (state, holding, notes, work, out) = parts!(self);
        self.totals = Totals::of(raw::add(&offer, state, holding, notes, work, out)?);
        Ok(self.totals)
    }

    /// Without the yard that was added last. Refused 29 where there is none, and nothing else: with a yard less a file can be longer, and then it may not fit.
    pub fn drop_last(&mut self) -> Result<Totals, Refusal> {
        self.widen(0, 0, 0);
        let (state, holding, _, work, _) = parts!(self);
        self.totals = Totals::of(raw::drop_last(state, holding, work)?);
        Ok(self.totals)
    }

    /// Another value of a yard, both counted from 0 in the order in which they came. Refused 30 where there is no such yard or field, 26, 28.
    pub fn replace(&mut self, yard: usize, field: usize, value: &str) -> Result<Totals, Refusal> {
        self.widen(0, value.len(), 0);
        let place = (word(yard), word(field));
        let (state, holding, _, work, out) = parts!(self);
        self.totals = Totals::of(raw::replace(place, value.as_bytes(), state, holding, work, out)?);
        Ok(self.totals)
    }

    /// Without any yard.
    pub fn clear(&mut self) -> Totals {
        let (state, holding, ..) = parts!(self);
        self.totals = Totals::of(raw::clear(state, holding).expect("a builder that calls have made is cleared"));
        self.totals
    }

    /// The file's bytes, as [`Builder::build`](crate::Builder::build) gives them; the yards are still held. Refused 25 where there are none, and 28.
    pub fn finish(&mut self) -> Result<Vec<u8>, Refusal> {
        self.widen(0, 0, 0);
        let mut file = vec![0; self.most_bytes().min(self.room)];
        let (state, holding, _, work, _) = parts!(self);
        let [length, ..] = raw::finish(state, &holding, work, &mut file)?;
        file.truncate(length as usize);
        Ok(file)
    }

    /// Seven bytes, names and notice with their lengths, three sizes of at most five bytes, and the sections.
    fn most_bytes(&self) -> usize {
        let head: usize = self.lengths[..=self.names].iter().map(|length| *length as usize + 2).sum();
        7 + head + 15 + self.totals.table + self.totals.metadata + self.totals.data
    }

    /// Every list is long enough for so many yards, bytes of values and bytes of data more.
    fn widen(&mut self, yards: usize, values: usize, data: usize) {
        // behind what is held the lengths are 0
        let held: usize = self.lengths.iter().map(|length| *length as usize).sum();
        let (count, strings) = (self.totals.yards + yards, held + values);
        widen(&mut self.boxes, 4 * count);
        widen(&mut self.borders, count);
        widen(&mut self.lengths, self.names + 1 + self.names * count);
        widen(&mut self.texts, strings);
        widen(&mut self.bytes, self.totals.data + data);
        let notes = NoteLengths::of(count, self.names);
        widen(&mut self.marks, notes.marks);
        widen(&mut self.chains, notes.chains);
        widen(&mut self.groups, notes.groups);
        widen(&mut self.begins, notes.begins);
        widen(&mut self.out, self.bytes.len().max(strings));
        self.desk.widen(Lengths::of(count, self.names, strings));
    }
}
