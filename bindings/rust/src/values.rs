//! Calls without state. Any number of threads may make them.
use crate::faults::{BatchFault, CidFault, NoMemory, ProofFault, RecordFault, StampFault, TidFault, TreeFault};
use crate::framing::{Joined, filled};
use crate::repository::{Stamp, Write};
use crate::sys;
use std::fmt;
use std::str::FromStr;

/// A CID as the AT Protocol has it for blocks: CIDv1, DAG-CBOR, SHA-256.
///
/// ```
/// let cid = tizulgech::Cid::of(b"\xa0");
/// assert_eq!(cid.to_string().parse(), Ok(cid));
/// ```
#[derive(Clone, Copy, PartialEq, Eq, PartialOrd, Ord, Hash)]
pub struct Cid(pub(crate) sys::Cid);

impl Cid {
    /// The CID of a block.
    pub fn of(block: &[u8]) -> Cid {
        let mut out = [0; 36];
        sys::cid(block, &mut out);
        Cid(out)
    }

    /// The CIDs of many blocks, in their order. Several are hashed side by side, which takes about half the time of [`Cid::of`] for
    /// each.
    ///
    /// ```
    /// # use tizulgech::Cid;
    /// assert_eq!(Cid::of_each(&["one", "two"])?, [Cid::of(b"one"), Cid::of(b"two")]);
    /// # Ok::<(), tizulgech::NoMemory>(())
    /// ```
    pub fn of_each(blocks: &[impl AsRef<[u8]>]) -> Result<Vec<Cid>, NoMemory> {
        let bytes = cids(&Joined::of(blocks))?;
        Ok(bytes.chunks_exact(36).map(|cid| Cid(cid.try_into().expect("36 bytes"))).collect())
    }

    /// The CID of these 36 bytes, if it is one of this profile.
    pub fn from_bytes(bytes: [u8; 36]) -> Option<Cid> {
        sys::cid_text(&bytes, &mut [0; 59]).then_some(Cid(bytes))
    }

    /// The 36 bytes.
    pub fn as_bytes(&self) -> &[u8; 36] {
        &self.0
    }
}

/// The CIDs of blocks, one after another.
pub(crate) fn cids(blocks: &Joined) -> Result<Vec<u8>, NoMemory> {
    filled(36 * blocks.parts().ends.len(), |out, size| sys::cids(blocks.parts(), out, size)).map_err(|_| NoMemory)
}

impl FromStr for Cid {
    type Err = CidFault;

    fn from_str(text: &str) -> Result<Cid, CidFault> {
        let mut out = [0; 36];
        match sys::cid_from_text(text.as_bytes(), &mut out) {
            0 => Ok(Cid(out)),
            number => Err(CidFault::of(number)),
        }
    }
}

impl fmt::Display for Cid {
    fn fmt(&self, f: &mut fmt::Formatter<'_>) -> fmt::Result {
        let mut out = [0; 59];
        let own = sys::cid_text(&self.0, &mut out);
        debug_assert!(own);
        f.pad(std::str::from_utf8(&out).map_err(|_| fmt::Error)?)
    }
}

impl fmt::Debug for Cid {
    fn fmt(&self, f: &mut fmt::Formatter<'_>) -> fmt::Result {
        write!(f, "Cid({self})")
    }
}

/// Whether the bytes are one DAG-CBOR value, or the first fault.
///
/// ```
/// use tizulgech::{RecordFault, check_record};
/// assert_eq!(check_record(b"\xa1\x64text\x65hello"), Ok(()));
/// assert_eq!(check_record(b"\xa1\x64text"), Err(RecordFault::Truncated));
/// ```
pub fn check_record(bytes: &[u8]) -> Result<(), RecordFault> {
    match sys::record_fault(bytes) {
        0 => Ok(()),
        number => Err(RecordFault::of(number)),
    }
}

/// The layer of a key in a tree.
///
/// ```
/// assert_eq!(tizulgech::layer("app.bsky.feed.post/9adeb165882c"), 8);
/// ```
pub fn layer(key: impl AsRef<[u8]>) -> u16 {
    sys::layer(key.as_ref())
}

/// Whether a tree may have the key: 1 to 1,024 bytes.
///
/// ```
/// assert!(tizulgech::is_key("any bytes") && !tizulgech::is_key(""));
/// ```
pub fn is_key(key: impl AsRef<[u8]>) -> bool {
    sys::is_key(key.as_ref())
}

/// The number of the library's interface for which this crate is written.
pub const VERSION: u64 = 4;

/// The number of the interface of the library that is linked: it has to be [`VERSION`].
///
/// ```
/// assert_eq!(tizulgech::version(), tizulgech::VERSION);
/// ```
pub fn version() -> u64 {
    sys::version()
}

/// Whether a repository takes a write, where it is known whether there is a record under its key.
///
/// ```
/// use tizulgech::{BatchFault, Write, check_write};
/// let key = "app.bsky.feed.post/3jzfcijpj2z2a";
/// assert_eq!(check_write(false, Write::Create(key, b"\xa0")), Ok(()));
/// assert_eq!(check_write(false, Write::Delete(key)), Err(BatchFault::NoSuchKey));
/// ```
pub fn check_write(there: bool, write: Write<'_>) -> Result<(), BatchFault> {
    let (kind, key, record) = write.parts();
    match sys::write_fault(kind, there, key.as_bytes(), record) {
        0 => Ok(()),
        number => Err(BatchFault::of(number)),
    }
}

/// Whether a repository may have a record under the key: a collection, a slash and a record key.
///
/// ```
/// assert!(tizulgech::is_repository_key("app.bsky.feed.post/3jzfcijpj2z2a"));
/// ```
pub fn is_repository_key(key: impl AsRef<[u8]>) -> bool {
    sys::is_repository_key(key.as_ref())
}

/// Whether a stamp may have this DID.
///
/// ```
/// assert!(tizulgech::is_did("did:web:example.com") && !tizulgech::is_did("did:"));
/// ```
pub fn is_did(did: impl AsRef<[u8]>) -> bool {
    sys::is_did(did.as_ref())
}

/// Whether a stamp may have this revision: a timestamp identifier.
///
/// ```
/// assert!(tizulgech::is_tid("3jzfcijpj2z2a") && !tizulgech::is_tid("1"));
/// ```
pub fn is_tid(rev: impl AsRef<[u8]>) -> bool {
    sys::is_tid(rev.as_ref())
}

/// Whether a repository whose last batch had the revision `before`, if it had one, takes a batch under this stamp.
///
/// ```
/// use tizulgech::{Stamp, StampFault, check_stamp};
/// let stamp = Stamp { did: "did:web:example.com", rev: "3jzfcijpj2z2a" };
/// assert_eq!(check_stamp(None, stamp), Ok(()));
/// assert_eq!(check_stamp(Some("3jzfcijpj2z2a"), stamp), Err(StampFault::RevOrder));
/// ```
pub fn check_stamp(before: Option<&str>, stamp: Stamp<'_>) -> Result<(), StampFault> {
    match sys::stamp_fault(before.unwrap_or("").as_bytes(), stamp.did.as_bytes(), stamp.rev.as_bytes()) {
        0 => Ok(()),
        number => Err(StampFault::of(number)),
    }
}

/// The timestamp identifier after the last one, if there was one, at so many microseconds since 1970, below 2^53, by the clock of a
/// number from 0 to 1,023. Where this time isn't after the last one, as where a clock has gone back, it is that of the microsecond
/// behind the last one's: so it is always after the last one.
///
/// ```
/// use tizulgech::{TidFault, next_tid};
/// let first = next_tid(None, 1_700_000_000_000_000, 7)?;
/// let next = next_tid(Some(&first), 1_600_000_000_000_000, 7)?; // the clock has gone back
/// assert!(first < next && tizulgech::is_tid(&next));
/// assert_eq!(next_tid(Some("1"), 0, 0), Err(TidFault::BadRev));
/// # Ok::<(), TidFault>(())
/// ```
pub fn next_tid(last: Option<&str>, micros: u64, clock: u64) -> Result<String, TidFault> {
    match filled(13, |out, size| sys::next_tid(last.unwrap_or("").as_bytes(), micros, clock, out, size)) {
        Ok(letters) => Ok(letters.into_iter().map(char::from).collect()),
        Err(number) => Err(TidFault::of(number)),
    }
}

/// The bytes of the unsigned commit of a stamp, which isn't tested, over the root of a tree: what a host signs.
///
/// ```
/// use tizulgech::{Cid, Stamp, commit_bytes, tree};
/// let stamp = Stamp { did: "did:web:example.com", rev: "3jzfcijpj2z2a" };
/// let commit = commit_bytes(stamp, &tree::EMPTY_ROOT.parse()?)?;
/// assert!(tizulgech::check_record(&commit).is_ok());
/// # Ok::<(), Box<dyn std::error::Error>>(())
/// ```
pub fn commit_bytes(stamp: Stamp<'_>, root: &Cid) -> Result<Vec<u8>, TreeFault> {
    filled(128 + stamp.did.len(), |out, size| sys::commit_bytes(stamp.did.as_bytes(), stamp.rev.as_bytes(), &root.0, out, size))
        .map_err(TreeFault::of)
}

/// The root and the number of nodes of the tree of these pairs, whose keys ascend.
///
/// ```
/// let pairs: [(&str, tizulgech::Cid); 0] = [];
/// let (root, nodes) = tizulgech::tree_root(&pairs)?;
/// assert_eq!((root.to_string().as_str(), nodes), (tizulgech::tree::EMPTY_ROOT, 1));
/// # Ok::<(), tizulgech::TreeFault>(())
/// ```
pub fn tree_root<K: AsRef<[u8]>>(pairs: &[(K, Cid)]) -> Result<(Cid, usize), TreeFault> {
    let keys = Joined::of(pairs.iter().map(|(key, _)| key));
    let cids: Vec<u8> = pairs.iter().flat_map(|(_, cid)| cid.0).collect();
    let (mut out, mut nodes) = ([0; 36], 0);
    match sys::tree_root(keys.parts(), &cids, &mut out, &mut nodes) {
        0 => Ok((Cid(out), nodes)),
        number => Err(TreeFault::of(number)),
    }
}

/// The CAR file of a repository whose only batch puts these records under this stamp. `TreeFault::NotBuilt` comes where a
/// repository doesn't take them, or not under this stamp, or there are none.
///
/// ```
/// use tizulgech::{Stamp, listing_car};
/// let stamp = Stamp { did: "did:web:example.com", rev: "3jzfcijpj2z2a" };
/// let file = listing_car(stamp, &[("app.bsky.feed.post/3jzfcijpj2z2a", b"\xa0")])?;
/// assert!(file.len() > 200);
/// # Ok::<(), tizulgech::TreeFault>(())
/// ```
pub fn listing_car<K: AsRef<[u8]>, R: AsRef<[u8]>>(stamp: Stamp<'_>, records: &[(K, R)]) -> Result<Vec<u8>, TreeFault> {
    let keys = Joined::of(records.iter().map(|(key, _)| key));
    let values = Joined::of(records.iter().map(|(_, record)| record));
    let first = 2 * (keys.len() + values.len()) + 300 * records.len() + 1024;
    filled(first, |out, size| {
        sys::listing_car(stamp.did.as_bytes(), stamp.rev.as_bytes(), keys.parts(), values.parts(), out, size)
    })
    .map_err(TreeFault::of)
}

/// A proof of what a tree has under a key: the nodes of the key's path, from the top.
#[derive(Clone, Debug, PartialEq, Eq, Default)]
pub struct Proof {
    /// The bytes of the nodes.
    pub nodes: Vec<Vec<u8>>,
}

impl Proof {
    /// What the tree with this root has under a key, as the nodes prove it: its value's CID, or `None` where it doesn't have
    /// the key. Nothing of whoever gave the proof is trusted.
    ///
    /// ```
    /// use tizulgech::{Proof, tree};
    /// let proof = Proof { nodes: vec![tree::EMPTY_NODE.to_vec()] };
    /// assert_eq!(proof.verify(&tree::EMPTY_ROOT.parse()?, "app.bsky.feed.post/3jzfcijpj2z2a")?, None);
    /// # Ok::<(), Box<dyn std::error::Error>>(())
    /// ```
    pub fn verify(&self, root: &Cid, key: impl AsRef<[u8]>) -> Result<Option<Cid>, ProofFault> {
        let blocks = Joined::of(&self.nodes);
        let mut value = [0; 36];
        match sys::verify(blocks.parts(), &root.0, key.as_ref(), &mut value) {
            0 => Ok(Some(Cid(value))),
            24 => Ok(None),
            number => Err(ProofFault::of(number)),
        }
    }
}
