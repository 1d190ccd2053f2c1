//! Builders that hold yards: random calls, with few distinct values and tight rooms. By the crate, whose lists are long enough, against files built afresh; and by the library's own calls, with lists at
//! pages that may not be touched, which grow between the calls and of which now and then one is too short, against the crate.

use crate::common::desk::{FencedDesk, Left, EACH_LENGTH};
use crate::common::fence::{Edge, Fence, Plain, EDGES};
use crate::random::Random;
use crate::tally::Tally;
use uskelzar::raw::{self, Holding, Lengths, NoteLengths, Notes, Offer, Reply, Start, State, STATE_WORDS};
use uskelzar::{Builder, Draft, Number, Refusal, Table, Totals};

const NAMES: [&str; 2] = ["Name", "Use"];

#[derive(Clone, Debug)]
struct Yard {
    points: Vec<(i32, i32)>,
    values: [String; 2],
}

#[derive(Clone, Debug)]
enum Call {
    Add(Yard),
    Replace(usize, usize, String),
    Drop,
    Clear,
}

/// Which values the yards of a builder have.
#[derive(Clone, Copy)]
enum Values {
    /// Few and short, so that many are equal.
    Few,
    /// Mostly their own and long, so that the metadata grows over 16,128 bytes, where numbers in it get a byte longer.
    Own,
}

fn yard(random: &mut Random, values: Values) -> Yard {
    // few lower latitudes, so that some are equal
    let (lat, lon) = (random.pick(&[-900, -90, -8, 3, 70, 640]) + random.pick(&[0, 0, 1, 100]), random.below(2000) as i32 - 1000);
    let mut points = vec![(lat, lon), (lat + 7, lon), (lat + 7, lon + 9), (lat, lon + 9)];
    match random.below(20) {
        0 => points[0] = (0, 0),
        1 => points[1] = points[0],
        2 => points.clear(),
        _ => {}
    }
    Yard { points, values: [values.one(random), values.one(random)] }
}

impl Values {
    fn one(self, random: &mut Random) -> String {
        match (self, random.below(12)) {
            (Values::Own, 2..) => format!("{:0>1$}", random.next(), 230 + random.below(26)),
            (_, 0) => "x".repeat(250 + random.below(8)),
            (_, 1) => String::new(),
            (_, n) => "abcdef"[..1 + n % 5].to_string(),
        }
    }
}

fn call(random: &mut Random, values: Values, held: usize) -> Call {
    match (random.below(10), values) {
        (0, Values::Few) => Call::Drop,
        (1 | 2, _) => Call::Replace(random.below(held + 1), random.below(2), values.one(random)),
        (3, Values::Few) if random.once_in(6) => Call::Clear,
        (3, Values::Own) => Call::Drop,
        _ => Call::Add(yard(random, values)),
    }
}

impl Call {
    fn name(&self) -> &'static str {
        match self {
            Call::Add(_) => "add",
            Call::Replace(..) => "replace",
            Call::Drop => "drop",
            Call::Clear => "clear",
        }
    }

    fn by(&self, draft: &mut Draft) -> Result<Totals, Refusal> {
        match self {
            Call::Add(yard) => draft.add(&yard.points, &[&yard.values[0], &yard.values[1]]),
            Call::Replace(at, field, text) => draft.replace(*at, *field, text),
            Call::Drop => draft.drop_last(),
            Call::Clear => Ok(draft.clear()),
        }
    }

    /// What is then held.
    fn on(&self, mut yards: Vec<Yard>) -> Vec<Yard> {
        match self {
            Call::Add(yard) => yards.push(yard.clone()),
            Call::Replace(at, field, text) => yards.get_mut(*at).into_iter().for_each(|yard| yard.values[*field].clone_from(text)),
            Call::Drop => drop(yards.pop()),
            Call::Clear => yards.clear(),
        }
        yards
    }
}

/// The number that a call is refused with, where these yards are held: of an add and a replacement, what building afresh says of the yards wanted.
fn refused(asked: &Call, held: &[Yard], wanted: &[Yard], room: usize) -> Option<Number> {
    match asked {
        Call::Drop => held.is_empty().then_some(Number::NoYard),
        Call::Clear => None,
        Call::Replace(at, ..) if held.len() <= *at => Some(Number::NoValue),
        _ => fresh_file(room, wanted).err().map(|refusal| refusal.number),
    }
}

fn afresh(room: usize, yards: &[Yard]) -> Builder {
    let builder = Builder::new(Table::Countries, 20, &NAMES).room(room);
    yards.iter().fold(builder, |builder, yard| builder.yard(&yard.points, &[&yard.values[0], &yard.values[1]]))
}

fn fresh_file(room: usize, yards: &[Yard]) -> Result<Vec<u8>, Refusal> {
    afresh(room, yards).build().map_err(|not| not.why)
}

/// The draft's file and totals are those of its yards afresh.
fn hold(tally: &mut Tally, draft: &mut Draft, room: usize, yards: &[Yard]) {
    let (ours, fresh) = (draft.finish(), fresh_file(room, yards));
    tally.same(ours == fresh, || format!("draft: file of {yards:?} in {room}: {ours:?}, afresh {fresh:?}"));
    let mut again = afresh(1 << 30, &[]).begin().expect("a builder");
    for yard in yards {
        Call::Add(yard.clone()).by(&mut again).expect("a yard that was held");
    }
    tally.same(draft.totals() == again.totals(), || format!("draft: {yards:?}: {:?}, afresh {:?}", draft.totals(), again.totals()));
}

/// The lists of a builder that calls the library itself, between guards.
pub struct Lists {
    own: [Fence; 5],
    notes: [Fence; 4],
    out: Fence,
    desk: FencedDesk,
}

/// What stands in a builder's lists, as long as they are.
#[derive(Clone, Debug, Default, PartialEq)]
struct Kept {
    state: State,
    boxes: Vec<i32>,
    borders: Vec<u32>,
    lengths: Vec<u32>,
    texts: Vec<u8>,
    bytes: Vec<u8>,
    marks: Vec<u32>,
    chains: Vec<u32>,
    groups: Vec<u32>,
    begins: Vec<u32>,
}

/// How long the lists of a call must be.
#[derive(Clone, Copy)]
struct Need {
    yards: usize,
    texts: usize,
    data: usize,
    work: Lengths,
    out: usize,
}

/// What a call of the library left.
struct Done {
    said: Result<Reply, Refusal>,
    kept: Kept,
    left: Left,
    out: Vec<u8>,
}

fn grow<T: Clone + Default>(random: &mut Random, list: &mut Vec<T>, need: usize) {
    if list.len() < need {
        list.resize(need + random.pick(&[0, 0, 1, 7]), T::default());
    }
}

fn zero_behind<T: Plain + Default + PartialEq>(list: &[T], used: usize) -> bool {
    list[used..].iter().all(|item| *item == T::default())
}

impl Kept {
    /// Each list as long as it must be at least, with zeros behind what it held; the notes hold anything before the first add.
    fn grow(&mut self, random: &mut Random, need: &Need) {
        let notes = NoteLengths::of(need.yards, NAMES.len());
        grow(random, &mut self.boxes, 4 * need.yards);
        grow(random, &mut self.borders, need.yards);
        grow(random, &mut self.lengths, 1 + NAMES.len() * (need.yards + 1));
        grow(random, &mut self.texts, need.texts);
        grow(random, &mut self.bytes, need.data);
        grow(random, &mut self.marks, notes.marks);
        grow(random, &mut self.chains, notes.chains);
        grow(random, &mut self.groups, notes.groups);
        grow(random, &mut self.begins, notes.begins);
    }

    /// One of the lists that must grow for this call, if there is one, one too short for it.
    fn shorten(&mut self, random: &mut Random, held: &Need, need: &Need, notes: bool) -> bool {
        let (before, after) = (NoteLengths::of(held.yards, NAMES.len()), NoteLengths::of(need.yards, NAMES.len()));
        let which = random.below(if notes { 9 } else { 5 });
        let (was, is) = match which {
            0 => (4 * held.yards, 4 * need.yards),
            1 => (held.yards, need.yards),
            2 => (1 + NAMES.len() * (held.yards + 1), 1 + NAMES.len() * (need.yards + 1)),
            3 => (held.texts, need.texts),
            4 => (held.data, need.data),
            5 => (before.marks, after.marks),
            6 => (before.chains, after.chains),
            7 => (before.groups, after.groups),
            _ => (before.begins, after.begins),
        };
        if is <= was {
            return false;
        }
        match which {
            0 => self.boxes.truncate(is - 1),
            1 => self.borders.truncate(is - 1),
            2 => self.lengths.truncate(is - 1),
            3 => self.texts.truncate(is - 1),
            4 => self.bytes.truncate(is - 1),
            5 => self.marks.truncate(is - 1),
            6 => self.chains.truncate(is - 1),
            7 => self.groups.truncate(is - 1),
            _ => self.begins.truncate(is - 1),
        }
        true
    }

    /// Behind what is held its own lists are zero.
    fn is_tidy(&self, held: &Need) -> bool {
        zero_behind(&self.boxes, 4 * held.yards)
            && zero_behind(&self.borders, held.yards)
            && zero_behind(&self.lengths, 1 + NAMES.len() * (held.yards + 1))
            && zero_behind(&self.texts, held.texts)
            && zero_behind(&self.bytes, held.data)
    }
}

impl Lists {
    pub fn new() -> Lists {
        Lists { own: [(); 5].map(|()| Fence::new(1 << 14)), notes: [(); 4].map(|()| Fence::new(1 << 15)), out: Fence::new(1 << 14), desk: FencedDesk::new() }
    }

    /// A call with these lists, each at the same edge of its own memory.
    fn call(&mut self, kept: &Kept, edge: Edge, (work, out): (Lengths, usize), call: impl FnOnce(&mut State, Holding, Notes, raw::Work, &mut [u8]) -> Result<Reply, Refusal>) -> Done {
        let Lists { own: [a, b, c, d, e], notes: [f, g, h, i], out: o, desk } = self;
        let mut state = kept.state;
        let (boxes, borders, lengths) = (a.hold(&kept.boxes, edge), b.hold(&kept.borders, edge), c.hold(&kept.lengths, edge));
        let (texts, bytes, out) = (d.hold(&kept.texts, edge), e.hold(&kept.bytes, edge), o.lend::<u8>(out, edge));
        let (marks, chains) = (f.hold(&kept.marks, edge), g.hold(&kept.chains, edge));
        let (groups, begins) = (h.hold(&kept.groups, edge), i.hold(&kept.begins, edge));
        let (said, left) = desk.work(work, edge, |work| {
            let holding = Holding { boxes: &mut *boxes, borders: &mut *borders, lengths: &mut *lengths, texts: &mut *texts, bytes: &mut *bytes };
            let notes = Notes { marks: &mut *marks, chains: &mut *chains, groups: &mut *groups, begins: &mut *begins };
            call(&mut state, holding, notes, work, &mut *out)
        });
        let kept = Kept {
            state,
            boxes: boxes.to_vec(),
            borders: borders.to_vec(),
            lengths: lengths.to_vec(),
            texts: texts.to_vec(),
            bytes: bytes.to_vec(),
            marks: marks.to_vec(),
            chains: chains.to_vec(),
            groups: groups.to_vec(),
            begins: begins.to_vec(),
        };
        let out = out.to_vec();
        for (fence, bytes) in [a, b, c, d, e].into_iter().zip([4 * kept.boxes.len(), 4 * kept.borders.len(), 4 * kept.lengths.len(), kept.texts.len(), kept.bytes.len()]) {
            fence.assert_kept(bytes, edge);
        }
        for (fence, words) in [f, g, h, i].into_iter().zip([kept.marks.len(), kept.chains.len(), kept.groups.len(), kept.begins.len()]) {
            fence.assert_kept(4 * words, edge);
        }
        o.assert_kept(out.len(), edge);
        Done { said, kept, left, out }
    }

    fn ask(&mut self, asked: &Call, kept: &Kept, edge: Edge, lent: (Lengths, usize)) -> Done {
        self.call(kept, edge, lent, |state, holding, notes, work, out| match asked {
            Call::Add(yard) => {
                let (lats, lons): (Vec<i32>, Vec<i32>) = yard.points.iter().copied().unzip();
                let lengths = [0, 1].map(|i| yard.values[i].len() as u32);
                let texts = yard.values.concat().into_bytes();
                raw::add(&Offer { lats: &lats, lons: &lons, pieces: &[], lengths: &lengths, texts: &texts }, state, holding, notes, work, out)
            }
            Call::Replace(at, field, text) => raw::replace((*at as u32, *field as u32), text.as_bytes(), state, holding, work, out),
            Call::Drop => raw::drop_last(state, holding, work),
            Call::Clear => raw::clear(state, holding),
        })
    }
}

/// What yards need to be held, with the data as long as the totals say.
fn need(yards: &[Yard], totals: Totals) -> Need {
    let values: usize = yards.iter().flat_map(|yard| &yard.values).map(String::len).sum();
    let texts = values + NAMES.concat().len();
    Need { yards: yards.len(), texts, data: totals.data, work: Lengths::of(yards.len(), NAMES.len(), values), out: totals.data }
}

fn words_of(totals: Totals) -> Reply {
    [totals.table as u64, totals.metadata as u64, totals.data as u64, totals.yards as u64, u64::from(totals.greatest as u32)]
}

fn begun(lists: &mut Lists, edge: Edge, room: usize) -> Kept {
    let (lengths, texts) = (NAMES.map(|name| name.len() as u32), NAMES.concat());
    let lengths = [&lengths[..], &[0]].concat();
    let start = Start { kind: b'C', version: 1, precision: 20, names: NAMES.len() as u32, room, lengths: &lengths, texts: texts.as_bytes() };
    let kept = Kept { lengths: vec![9; lengths.len()], texts: vec![9; texts.len()], bytes: vec![9], state: [9; STATE_WORDS], ..Kept::default() };
    let done = lists.call(&kept, edge, (Lengths::of(0, 0, 0), 0), |state, holding, _, _, _| raw::begin(&start, state, holding));
    assert_eq!(done.said, Ok([0, 0, 1, 0, 0]), "a builder");
    done.kept
}

/// One builder by the library's own calls beside the crate's.
struct Beside<'a> {
    lists: &'a mut Lists,
    kept: Kept,
    edge: Edge,
}

impl Beside<'_> {
    /// The same call as the crate's, which had lists enough: the same is said, and 28 before that with a list that is too short.
    fn call(&mut self, random: &mut Random, tally: &mut Tally, asked: &Call, crates: Result<Totals, Refusal>, (held, wanted): (&Need, &Need)) {
        self.kept.grow(random, wanted);
        let out = if let Call::Replace(..) = asked { held.texts } else { wanted.out };
        if crates.is_ok() && random.once_in(3) {
            self.call_short(random, tally, asked, (held, wanted), out);
        }
        let done = self.lists.ask(asked, &self.kept, self.edge, (wanted.work, out));
        let said = done.said.map_err(|refusal| refusal.number);
        tally.met(asked.name(), said.map_or_else(|number| number as u8, |_| 0));
        tally.same(said == crates.map(words_of).map_err(|refusal| refusal.number), || format!("draft: {asked:?}: {:?}, by the crate {crates:?}; {:?} {out}", done.said, self.kept));
        let stands = if said.is_err() { done.kept == self.kept } else { done.kept.is_tidy(wanted) };
        tally.same(stands && is_left(asked, done.left), || format!("draft: {asked:?}, {said:?}: lists to work in {:?}; {:?}, afterwards {:?}", done.left, self.kept, done.kept));
        self.kept = done.kept;
    }

    /// With one list too short: 28, and nothing has changed.
    fn call_short(&mut self, random: &mut Random, tally: &mut Tally, asked: &Call, (held, wanted): (&Need, &Need), out: usize) {
        let (mut kept, mut work, mut out) = (self.kept.clone(), wanted.work, out);
        let short = match (asked, random.below(3)) {
            (Call::Clear, _) => false,
            (_, 0) => kept.shorten(random, held, wanted, matches!(asked, Call::Add(_))),
            (Call::Add(_) | Call::Replace(..), 1) => one_less(&mut out),
            _ => one_less(EACH_LENGTH[random.below(7)](&mut work)),
        };
        if !short {
            return;
        }
        let done = self.lists.ask(asked, &kept, self.edge, (work, out));
        tally.met(&format!("{} with a short list", asked.name()), done.said.map_or_else(|refusal| refusal.number as u8, |_| 0));
        let right = done.said.is_err_and(|refusal| refusal.number == Number::FileRoom) && done.kept == kept && is_left(asked, done.left);
        tally.same(right, || format!("draft: {asked:?} with a short list: {:?}; {work:?} {out} {kept:?}, afterwards {:?} {:?}", done.said, done.left, done.kept));
    }

    /// The file, in just enough room, more or less.
    fn finish(&mut self, random: &mut Random, tally: &mut Tally, held: &Need, fresh: Result<Vec<u8>, Refusal>) {
        let Ok(fresh) = fresh else { return };
        let mut kept = self.kept.clone();
        kept.grow(random, held);
        let room = fresh.len() + random.below(4) - 1;
        let done = self.lists.call(&kept, self.edge, (held.work, room), |state, holding, _, work, out| raw::finish(state, &holding, work, out));
        let right = match done.said {
            Ok([length, ..]) => length as usize == fresh.len() && done.out[..fresh.len()] == fresh && zero_behind(&done.out, fresh.len()),
            Err(refusal) => refusal.number == Number::FileRoom && room < fresh.len() && zero_behind(&done.out, 0),
        };
        tally.same(right && done.kept == kept && done.left == Left::Zero, || format!("draft: file in {room}: {:?} {:?}, afresh {fresh:?}", done.said, done.out));
    }
}

fn one_less(length: &mut usize) -> bool {
    let is = 0 < *length;
    *length -= usize::from(is);
    is
}

/// The lists to work in are zero afterwards; those of an add may be untouched, and a clear takes none.
fn is_left(asked: &Call, left: Left) -> bool {
    match asked {
        Call::Add(_) => left != Left::Mixed,
        Call::Clear => true,
        _ => left == Left::Zero,
    }
}

pub fn compare(lists: &mut Lists, random: &mut Random, tally: &mut Tally) {
    let (values, calls) = if random.once_in(64) { (Values::Own, 96) } else { (Values::Few, 24) };
    let room = match values {
        Values::Few => random.pick(&[200, 400, 800, 1 << 20]) + random.below(40),
        Values::Own => 1 << 20,
    };
    let mut draft = afresh(room, &[]).begin().expect("a builder");
    let edge = random.pick(&EDGES);
    let kept = begun(lists, edge, room);
    let mut beside = Beside { lists, kept, edge };
    let mut held: Vec<Yard> = vec![];
    for _ in 0..calls {
        let (before, asked) = (draft.totals(), call(random, values, held.len()));
        let (wanted, said) = (asked.on(held.clone()), asked.by(&mut draft));
        let (number, expected) = (said.err().map(|refusal| refusal.number), refused(&asked, &held, &wanted, room));
        tally.same(number == expected, || format!("draft: {asked:?} with {held:?} in {room}: {said:?}, expected {expected:?}"));
        let needs = (need(&held, before), need(&wanted, said.unwrap_or(before)));
        match said {
            Ok(_) => held = wanted,
            Err(why) => tally.same(draft.totals() == before, || format!("draft: refused {why}, and the totals have changed")),
        }
        beside.call(random, tally, &asked, said, (&needs.0, &needs.1));
        hold(tally, &mut draft, room, &held);
        beside.finish(random, tally, &need(&held, draft.totals()), fresh_file(1 << 30, &held));
    }
}
