//! Strings as the library puts them into a lent text: a length in two bytes, the high one first, and the bytes.

/// Takes strings off the front of a text that the library answered with.
pub(crate) struct Entries<'a>(pub &'a [u8]);

impl Entries<'_> {
    /// The one-byte tag before a field.
    pub fn tag(&mut self) -> u8 {
        self.take(1)[0]
    }

    /// The next string.
    pub fn string(&mut self) -> String {
        let size = self.take(2);
        let size = usize::from(size[0]) * 256 + usize::from(size[1]);
        text_of(self.take(size))
    }

    fn take(&mut self, size: usize) -> &[u8] {
        let (front, rest) = self.0.split_at(size);
        self.0 = rest;
        front
    }
}

/// The library refuses strings that are not UTF-8, so that none is in an answer.
pub(crate) fn text_of(bytes: &[u8]) -> String {
    String::from_utf8(bytes.to_vec()).expect("an answer's strings are UTF-8")
}
