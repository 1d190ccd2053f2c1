//! What salvage asks of an entry, and why one is dropped: said by `check` and by `salvage`.

use uskelzar::{Dropped, Entry, Map, Reason, Unread};

/// What is asked, in words.
pub(crate) const ASKED: &str = "salvage asks of each entry: its six numbers, its border and its zone's strings can be read, and these strings lie in the metadata section";

/// What is wrong, and with which entry, by number and place.
pub(crate) struct Told {
    pub entry: Option<(u32, u32)>,
    pub words: String,
}

impl Told {
    /// In words; an entry's number is told as another file has it too.
    pub fn words(&self, other: impl Fn(u32) -> String) -> String {
        match self.entry {
            Some((number, place)) => format!("entry {number}{} at byte {place}: {}", other(number), self.words),
            None => self.words.clone(),
        }
    }
}

/// Why entries are dropped, and at which byte.
pub(crate) fn told<'a>(map: &Map<Vec<u8>>, dropped: impl IntoIterator<Item = &'a Dropped>) -> Vec<Told> {
    let entries: Vec<Result<Entry, Unread>> = map.entries().map_or(vec![], Iterator::collect);
    let one = |dropped: &Dropped| {
        let words = |words: String| Told { entry: None, words: format!("entry {}: {words}", dropped.entry) };
        match (dropped.reason, entries.get(dropped.entry as usize)) {
            (Reason::Behind, _) => words("it and all behind it can't be found: an entry begins where the one before it ends".into()),
            (_, Some(Ok(entry))) => Told { entry: Some((entry.number, entry.place)), words: why(map, entry).unwrap_or_else(|| dropped.reason.to_string()) },
            (_, Some(Err(unread))) => words(format!("one of its six numbers can't be read: {unread}")),
            (reason, None) => words(reason.to_string()),
        }
    };
    dropped.into_iter().map(one).collect()
}

/// What can't be read of an entry, in the order in which salvage asks.
fn why(map: &Map<Vec<u8>>, entry: &Entry) -> Option<String> {
    if let Err(unread) = map.border(entry) {
        return Some(border_words(entry, unread));
    }
    // the first string at fault is told: one outside, or one that can't be read
    match (map.string_outside(entry.metadata), map.fields(entry.metadata)) {
        (Ok(Some((field, place))), Ok(_)) => Some(format!("the string of its field {field:?}, told at byte {place}, does not lie in the metadata section")),
        (_, Err(unread)) | (Err(unread), _) => Some(fields_words(unread)),
        (Ok(None), Ok(_)) => None,
    }
}

pub(crate) fn border_words(entry: &Entry, unread: Unread) -> String {
    format!("its border at byte {} can't be read: {unread}", entry.border)
}

pub(crate) fn fields_words(unread: Unread) -> String {
    format!("its zone's fields can't be read: {unread}")
}
