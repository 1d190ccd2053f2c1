//! Recorded cases (`*.bin`): what this harness expects of them must be what was recorded.
use crate::many::{facts_of, told, Fixes};
use crate::record::{readings, reply, reply_written, Call, Piece, Reply, Writing, LOOKUP, MANY, OPEN, SIMPLE, STRICT_LOOKUP, STRICT_OPEN, WRITE};
use crate::writer::written;

struct Input<'a>(&'a [u8]);

impl Input<'_> {
    fn take(&mut self, n: usize) -> &[u8] {
        let (head, rest) = self.0.split_at(n);
        self.0 = rest;
        head
    }
    fn byte(&mut self) -> u8 {
        self.take(1)[0]
    }
    fn word(&mut self) -> u32 {
        u32::from_le_bytes(self.take(4).try_into().unwrap())
    }
    fn size(&mut self) -> usize {
        self.word() as usize
    }
    fn words(&mut self, n: usize) -> Vec<i32> {
        (0..n).map(|_| self.word() as i32).collect()
    }
}

fn expected(op: u8, input: &mut Input) -> Reply {
    if op == WRITE {
        let version = input.byte();
        let [lats, lons, pieces, earlier, room] = [0; 5].map(|_: u8| input.size());
        let (lats, lons) = (input.words(lats), input.words(lons));
        let pieces = (0..pieces).map(|_| Piece {
            start: input.word(), bytes: input.word(), direction: input.word(), first: input.word(), count: input.word(),
        }).collect();
        let earlier = input.take(earlier).to_vec();
        let writing = Writing { version, lats, lons, pieces, earlier, room };
        return reply_written(room, written(&writing));
    }
    let (lat, lon, ask) = (input.word(), input.word(), input.byte() != 0);
    let (slots, room, size) = (input.size(), input.size(), input.size());
    let file = input.take(size).to_vec();
    let read = readings(&file, lat, lon);
    reply(&Call { op, lat, lon, ask, slots, room, file }, &read)
}

/// The bytes of what is expected of many fixes.
fn expected_many(input: &mut Input) -> Vec<u8> {
    let ask = input.byte() != 0;
    let [lats, lons, slots, room, third, size] = [0; 6].map(|_: u8| input.size());
    let mut list = |n| (0..n).map(|_| input.word()).collect::<Vec<u32>>();
    let (lats, lons) = (list(lats), list(lons));
    let call = Fixes { ask, slots, room, third, lats, lons, file: input.take(size).to_vec() };
    told(&call, &facts_of(&call)).bytes()
}

/// How many records there are of the ops that the harness knows, and the ids of those that are expected otherwise.
pub fn compare(records: &[u8]) -> (usize, Vec<u32>) {
    let (mut input, mut count, mut wrong) = (Input(records), 0, Vec::new());
    while !input.0.is_empty() {
        let size = input.size();
        let mut record = Input(input.take(size));
        let (op, id) = (record.byte(), record.word());
        if op == MANY && expected_many(&mut record) != record.0 {
            wrong.push(id);
        }
        if ![OPEN, LOOKUP, SIMPLE, WRITE, STRICT_OPEN, STRICT_LOOKUP].contains(&op) {
            count += usize::from(op == MANY);
            continue;
        }
        if expected(op, &mut record).bytes() != record.0 {
            wrong.push(id);
        }
        count += 1;
    }
    (count, wrong)
}
