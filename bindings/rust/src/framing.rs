//! Rooms that calls fill, and lists as calls take and give them.
use crate::sys::Parts;
use crate::values::Cid;
use std::borrow::Cow;
use std::ops::Range;

/// Calls with a room until it is large enough; any other number than 0 is given back.
pub(crate) fn filled(first: usize, mut call: impl FnMut(&mut [u8], &mut usize) -> u8) -> Result<Vec<u8>, u8> {
    let mut out = vec![0; first];
    let mut size = 0;
    loop {
        match call(&mut out, &mut size) {
            0 => {
                out.truncate(size);
                return Ok(out);
            }
            251 => out = vec![0; size],
            number => return Err(number),
        }
    }
}

/// Parts one after another, and where each ends.
#[derive(Default)]
pub(crate) struct Joined {
    bytes: Vec<u8>,
    ends: Vec<usize>,
}

impl Joined {
    pub fn of<P: AsRef<[u8]>>(parts: impl IntoIterator<Item = P>) -> Joined {
        let mut joined = Joined::default();
        for part in parts {
            joined.push(part.as_ref());
        }
        joined
    }

    pub fn push(&mut self, part: &[u8]) {
        self.bytes.extend_from_slice(part);
        self.ends.push(self.bytes.len());
    }

    pub fn parts(&self) -> Parts<'_> {
        Parts { bytes: &self.bytes, ends: &self.ends }
    }

    /// Where a part starts.
    fn start(&self, place: usize) -> usize {
        place.checked_sub(1).map_or(0, |before| self.ends[before])
    }

    /// The part at a place.
    pub fn part(&self, place: usize) -> &[u8] {
        &self.bytes[self.start(place)..self.ends[place]]
    }

    /// Some parts by themselves: one after another, and where each ends.
    pub fn range(&self, places: Range<usize>) -> (&[u8], Cow<'_, [usize]>) {
        let (start, ends) = (self.start(places.start), &self.ends[places]);
        let bytes = &self.bytes[start..ends.last().copied().unwrap_or(start)];
        let own = if start == 0 { ends.into() } else { ends.iter().map(|end| end - start).collect() };
        (bytes, own)
    }

    /// The parts.
    pub fn each(&self) -> impl Iterator<Item = &[u8]> {
        (0..self.ends.len()).map(|place| self.part(place))
    }

    /// How many bytes all parts have.
    pub fn len(&self) -> usize {
        self.bytes.len()
    }
}

/// Reads what the library wrote, whose formats are proved.
pub(crate) struct Reader<'a>(pub &'a [u8]);

impl<'a> Reader<'a> {
    pub fn is_empty(&self) -> bool {
        self.0.is_empty()
    }

    fn take(&mut self, count: usize) -> &'a [u8] {
        let (taken, rest) = self.0.split_at(count);
        self.0 = rest;
        taken
    }

    pub fn number(&mut self) -> usize {
        u64::from_le_bytes(self.take(8).try_into().expect("eight bytes")) as usize
    }

    pub fn part(&mut self) -> &'a [u8] {
        let length = self.number();
        self.take(length)
    }

    /// A part that is text, as keys, DIDs, revisions and times are once they are taken.
    pub fn text(&mut self) -> String {
        String::from_utf8_lossy(self.part()).into_owned()
    }

    /// All parts that are left.
    pub fn parts(mut self) -> Vec<Vec<u8>> {
        std::iter::from_fn(|| (!self.is_empty()).then(|| self.part().to_vec())).collect()
    }

    /// All that is left: keys with their CIDs.
    pub fn pairs(mut self) -> Vec<(Vec<u8>, Cid)> {
        std::iter::from_fn(|| (!self.is_empty()).then(|| (self.part().to_vec(), self.cid()))).collect()
    }

    pub fn cid(&mut self) -> Cid {
        Cid(self.take(36).try_into().expect("36 bytes"))
    }

    /// A CID, or none where 36 zeros stand for it.
    pub fn value(&mut self) -> Option<Cid> {
        let cid = self.cid();
        (cid.0 != [0; 36]).then_some(cid)
    }
}
