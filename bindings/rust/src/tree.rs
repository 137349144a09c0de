//! A tree whose nodes stand elsewhere, as in a database.
//!
//! The host keeps the nodes by their CIDs, and the root. [`get`] goes down node by node. [`apply`], [`put`] and [`delete`]
//! answer an [`Edit`]: the root after it, the new nodes to insert and the CIDs to remove, which the host does in one
//! transaction. Nothing is kept between calls.
//!
//! ```
//! use std::{collections::HashMap, convert::Infallible};
//! use tizulgech::{Cid, tree};
//!
//! let mut root: Cid = tree::EMPTY_ROOT.parse()?;
//! let mut nodes = HashMap::from([(root, tree::EMPTY_NODE.to_vec())]);
//! let edit = tree::put(|cid| Ok::<_, Infallible>(nodes.get(cid)), &root, "a/b", &Cid::of(b"record"))?;
//! for cid in &edit.drop {
//!     nodes.remove(cid);
//! }
//! nodes.extend(edit.add);
//! root = edit.root;
//! assert_eq!(tree::get(|cid| Ok::<_, Infallible>(nodes.get(cid)), &root, "a/b")?, Some(Cid::of(b"record")));
//! # Ok::<(), Box<dyn std::error::Error>>(())
//! ```
//!
//! Nodes are handed in as they stand, owned or lent. Each is hashed once, so that one that isn't of the CID that was asked for is refused.
//! A host whose database has each node under its CID, and which trusts that, hands them in as [`Known`]: then nothing is hashed but
//! what is new.
//!
//! ```
//! # use std::{collections::HashMap, convert::Infallible};
//! # use tizulgech::{Cid, tree};
//! # let root: Cid = tree::EMPTY_ROOT.parse()?;
//! # let nodes = HashMap::from([(root, tree::EMPTY_NODE.to_vec())]);
//! // SAFETY: each node stands under its own CID.
//! let known = |cid: &Cid| Ok::<_, Infallible>(nodes.get(cid).map(|node| unsafe { tree::Known::of(*cid, node) }));
//! let edit = tree::put(known, &root, "a/b", &Cid::of(b"record"))?;
//! assert_eq!(edit.drop, [root]);
//! # Ok::<(), Box<dyn std::error::Error>>(())
//! ```
//!
//! A mirror that knows the root before a batch, and is told the root after it and what each key had and has, undoes the batch
//! over some nodes of the tree after: what is true gives the root before, and as values before those that the keys have.
//!
//! ```
//! # use std::{collections::HashMap, convert::Infallible};
//! # use tizulgech::{Cid, tree};
//! # let before: Cid = tree::EMPTY_ROOT.parse()?;
//! # let edit = tree::put(|_| Ok::<_, Infallible>(Some(tree::EMPTY_NODE.to_vec())), &before, "a/b", &Cid::of(b"record"))?;
//! # let (after, nodes): (Cid, HashMap<Cid, Vec<u8>>) = (edit.root, edit.add.into_iter().collect());
//! let told = [("a/b", None, Some(Cid::of(b"record")))];
//! let undone = told.map(|(key, was, _)| tree::Change { key: key.as_bytes(), value: was });
//! let found = tree::apply(|cid| Ok::<_, Infallible>(nodes.get(cid)), &after, &undone)?;
//! assert!(found.root == before && found.previous == told.map(|(_, _, is)| is));
//! # Ok::<(), Box<dyn std::error::Error>>(())
//! ```
use crate::changes::ProvenChange;
pub use crate::faults::EditError;
use crate::faults::NodeFault;
use crate::framing::{Joined, Reader, filled};
use crate::sys;
use crate::values::{Cid, Proof, cids};
use std::collections::HashMap;
use std::ops::Range;

/// The node without entries, which is the tree of no pairs.
pub const EMPTY_NODE: &[u8] = b"\xa2\x61e\x80\x61l\xf6";
/// Its CID.
pub const EMPTY_ROOT: &str = "bafyreie5737gdxlw5i64vzichcalba3z2v5n6icifvx5xytvske7mr3hpm";

/// A key, and the value that it is to have, or none where it is to go.
#[derive(Clone, Copy, Debug, PartialEq, Eq)]
pub struct Change<'a> {
    /// The key: 1 to 1,024 bytes.
    pub key: &'a [u8],
    /// The CID of its record.
    pub value: Option<Cid>,
}

/// What changes do to the set of a tree's nodes.
#[derive(Clone, Debug, PartialEq, Eq)]
pub struct Edit {
    /// The root after them.
    pub root: Cid,
    /// New nodes, to insert, each under its CID.
    pub add: Vec<(Cid, Vec<u8>)>,
    /// The CIDs of the nodes that the tree doesn't have any more, to remove.
    pub drop: Vec<Cid>,
    /// The value that the key of each change had before.
    pub previous: Vec<Option<Cid>>,
}

/// A key that two trees differ in.
#[derive(Clone, Debug, PartialEq, Eq)]
pub struct Differing {
    /// The key.
    pub key: Vec<u8>,
    /// The CID of its record in the tree before.
    pub before: Option<Cid>,
    /// The CID of its record in the tree after.
    pub after: Option<Cid>,
}

/// What makes one tree of another.
#[derive(Clone, Debug, PartialEq, Eq)]
pub struct Difference {
    /// The keys that differ, in their order.
    pub changes: Vec<Differing>,
    /// The nodes of the tree after that the other lacks, to insert, each under its CID.
    pub add: Vec<(Cid, Vec<u8>)>,
    /// The CIDs of the nodes of the tree before that the other lacks, to remove.
    pub drop: Vec<Cid>,
}

/// A node as a host hands it in for the CID that it is asked for: its bytes, owned or lent, which are hashed to see whether they are of
/// that CID, or [`Known`].
///
/// Lent they are as of a map, whose nodes needn't be copied:
///
/// ```
/// # use std::{collections::HashMap, convert::Infallible};
/// # use tizulgech::{Cid, tree};
/// # let root: Cid = tree::EMPTY_ROOT.parse()?;
/// let nodes: HashMap<Cid, Vec<u8>> = HashMap::from([(root, tree::EMPTY_NODE.to_vec())]);
/// assert_eq!(tree::get(|cid| Ok::<_, Infallible>(nodes.get(cid)), &root, "a/b")?, None);
/// # Ok::<(), Box<dyn std::error::Error>>(())
/// ```
pub trait Node: sealed::Sealed {
    /// Whether the host owes that the bytes are those of the CID.
    #[doc(hidden)]
    const IS_KNOWN: bool;

    /// The bytes.
    #[doc(hidden)]
    fn bytes(&self) -> &[u8];

    /// Whether they may be those of a CID, as far as is said without hashing them.
    #[doc(hidden)]
    fn may_be_of(&self, cid: &Cid) -> bool;
}

impl<B: AsRef<[u8]>> Node for B {
    const IS_KNOWN: bool = false;

    fn bytes(&self) -> &[u8] {
        self.as_ref()
    }

    fn may_be_of(&self, _: &Cid) -> bool {
        true
    }
}

/// The bytes of a node, owned or lent, that a host knows to be those of a CID, as they stand under it in its own database. They aren't
/// hashed; where another CID was asked for, they are refused as [`EditError::BadNode`].
#[derive(Clone, Debug, PartialEq, Eq)]
pub struct Known<B = Vec<u8>> {
    cid: Cid,
    node: B,
}

impl<B: AsRef<[u8]>> Known<B> {
    /// These bytes, as those of this CID.
    ///
    /// # Safety
    ///
    /// They are those of this CID. What is proved of the library is proved for callers that see to it: with other bytes nothing is
    /// known of what a call does.
    pub unsafe fn of(cid: Cid, node: B) -> Known<B> {
        Known { cid, node }
    }
}

impl<B: AsRef<[u8]>> Node for Known<B> {
    const IS_KNOWN: bool = true;

    fn bytes(&self) -> &[u8] {
        self.node.as_ref()
    }

    fn may_be_of(&self, cid: &Cid) -> bool {
        self.cid == *cid
    }
}

mod sealed {
    pub trait Sealed {}
    impl<B: AsRef<[u8]>> Sealed for B {}
    impl<B: AsRef<[u8]>> Sealed for super::Known<B> {}
}

/// What stands below a node.
#[derive(Clone, Copy, Debug, PartialEq, Eq, Hash)]
pub enum Link {
    /// Another node.
    Node(Cid),
    /// A record.
    Record(Cid),
}

/// What stands below a node, in the order of a CAR file.
///
/// ```
/// use tizulgech::{NodeFault, tree};
/// assert_eq!(tree::links(tree::EMPTY_NODE), Ok(vec![]));
/// assert_eq!(tree::links(b"another block"), Err(NodeFault::BadNode));
/// ```
pub fn links(node: impl AsRef<[u8]>) -> Result<Vec<Link>, NodeFault> {
    links_of(node.as_ref()).map_err(NodeFault::of)
}

pub(crate) fn links_of(node: &[u8]) -> Result<Vec<Link>, u8> {
    let links = filled(37 * 64, |out, size| sys::links(node, out, size))?;
    let cids = links.chunks_exact(37).map(|link| (link[0], Cid(link[1..].try_into().expect("36 bytes"))));
    Ok(cids.map(|(kind, cid)| if kind == 1 { Link::Node(cid) } else { Link::Record(cid) }).collect())
}

/// The pairs and the links of a node, from the front.
#[derive(Clone, Debug, PartialEq, Eq)]
pub struct Entries {
    /// The link before the first key.
    pub left: Option<Cid>,
    /// The pairs, each with the link behind it.
    pub pairs: Vec<Entry>,
}

/// A pair of a node.
#[derive(Clone, Debug, PartialEq, Eq)]
pub struct Entry {
    /// The key.
    pub key: Vec<u8>,
    /// The CID of its record.
    pub value: Cid,
    /// The link behind it.
    pub link: Option<Cid>,
}

/// The pairs and the links of a node.
///
/// ```
/// use tizulgech::{NodeFault, tree};
/// assert_eq!(tree::entries(tree::EMPTY_NODE), Ok(tree::Entries { left: None, pairs: vec![] }));
/// assert_eq!(tree::entries(b"another block"), Err(NodeFault::BadNode));
/// ```
pub fn entries(node: impl AsRef<[u8]>) -> Result<Entries, NodeFault> {
    entries_of(node.as_ref()).map_err(NodeFault::of)
}

fn entries_of(node: &[u8]) -> Result<Entries, u8> {
    let bytes = filled(36 + 2 * node.len(), |out, size| sys::node_entries(node, out, size))?;
    let mut reader = Reader(&bytes);
    let (left, mut pairs) = (reader.value(), Vec::new());
    while !reader.is_empty() {
        pairs.push(Entry { key: reader.part().to_vec(), value: reader.cid(), link: reader.value() });
    }
    Ok(Entries { left, pairs })
}

/// The nodes that a host was asked for, each once, and their CIDs, 36 bytes each, in the same order.
struct Asked<F> {
    nodes: F,
    given: Joined,
    cids: Vec<u8>,
    places: HashMap<Cid, usize>,
}

impl<F> Asked<F> {
    fn new(nodes: F) -> Asked<F> {
        Asked { nodes, given: Joined::default(), cids: Vec::new(), places: HashMap::new() }
    }

    fn node<N: Node, E>(&mut self, cid: &Cid) -> Result<&[u8], EditError<E>>
    where
        F: FnMut(&Cid) -> Result<Option<N>, E>,
    {
        let next = self.places.len();
        let place = *self.places.entry(*cid).or_insert(next);
        if place == next {
            let node = (self.nodes)(cid).map_err(EditError::Source)?.ok_or(EditError::Missing(*cid))?;
            if !node.may_be_of(cid) {
                return Err(EditError::BadNode(*cid));
            }
            self.given.push(node.bytes());
            self.cids.extend(cid.0);
        }
        Ok(self.given.part(place))
    }

    /// Goes from a root down to a key, and answers its value.
    fn walk<N: Node, E>(&mut self, root: &Cid, key: &[u8]) -> Result<Option<Cid>, EditError<E>>
    where
        F: FnMut(&Cid) -> Result<Option<N>, E>,
    {
        let mut cid = *root;
        // No tree has more layers.
        for _ in 0..=128 {
            let mut out = [0; 36];
            match sys::step(self.node(&cid)?, key, &mut out) {
                0 => return Ok(Some(Cid(out))),
                1 => cid = Cid(out),
                24 => return Ok(None),
                _ => return Err(EditError::BadNode(cid)),
            }
        }
        Err(EditError::TooDeep)
    }

    /// Goes from a root down to all nodes that changes need, layer by layer. Each is asked for once, whatever leads to it.
    fn walk_all<N: Node, E>(&mut self, root: &Cid, wanted: &Wanted) -> Result<(), EditError<E>>
    where
        F: FnMut(&Cid) -> Result<Option<N>, E>,
    {
        let mut left = vec![(*root, 0..wanted.keys.parts().ends.len())];
        // No tree has more layers.
        for _ in 0..=128 {
            let mut next = Vec::new();
            for (cid, changes) in left {
                if !self.places.contains_key(&cid) {
                    wanted.below(self.node(&cid)?, changes, &mut next).map_err(|number| EditError::of(number, cid))?;
                }
            }
            if next.is_empty() {
                return Ok(());
            }
            left = next;
        }
        Err(EditError::TooDeep)
    }

    /// Whether all nodes so far are those of the CIDs that were asked for.
    fn check<E>(&self) -> Result<(), EditError<E>> {
        let found = cids(&self.given).map_err(|_| EditError::NoMemory)?;
        match self.cids.chunks(36).zip(found.chunks(36)).find(|(asked, found)| asked != found) {
            Some((asked, _)) => Err(EditError::BadNode(Cid(asked.try_into().expect("36 bytes")))),
            None => Ok(()),
        }
    }
}

/// Changes as the library takes them: keys, and 36 bytes for each.
pub(crate) struct Wanted {
    pub keys: Joined,
    pub values: Vec<u8>,
}

impl Wanted {
    pub fn of(changes: &[Change<'_>]) -> Wanted {
        let values = changes.iter().flat_map(|change| change.value.map_or([0; 36], |cid| cid.0)).collect();
        Wanted { keys: Joined::of(changes.iter().map(|change| change.key)), values }
    }

    /// Puts the links of a node below which some of these changes go at the end of a list, each with its changes.
    fn below(&self, node: &[u8], changes: Range<usize>, links: &mut Vec<(Cid, Range<usize>)>) -> Result<(), u8> {
        let (bytes, ends) = self.keys.range(changes.clone());
        let values = &self.values[36 * changes.start..36 * changes.end];
        let keys = sys::Parts { bytes, ends: &ends };
        // A change goes below two links at most.
        let answer = filled(2 * 52 * changes.len(), |out, size| sys::below(node, keys, values, out, size))?;
        let mut reader = Reader(&answer);
        while !reader.is_empty() {
            let (cid, first, count) = (reader.cid(), changes.start + reader.number(), reader.number());
            links.push((cid, first..first + count));
        }
        Ok(())
    }
}

/// The value of a key. The nodes are taken to have the CIDs that they stand under: nothing is hashed.
pub fn get<N: Node, E>(
    nodes: impl FnMut(&Cid) -> Result<Option<N>, E>,
    root: &Cid,
    key: impl AsRef<[u8]>,
) -> Result<Option<Cid>, EditError<E>> {
    path(nodes, root, key).map(|(_, value)| value)
}

/// The nodes from a root down to a key, which prove what the tree has under it, and the value of the key. Nothing is hashed.
///
/// ```
/// # use std::{collections::HashMap, convert::Infallible};
/// # use tizulgech::{Cid, tree};
/// # let root: Cid = tree::EMPTY_ROOT.parse()?;
/// # let nodes: HashMap<Cid, Vec<u8>> = HashMap::from([(root, tree::EMPTY_NODE.to_vec())]);
/// let (proof, value) = tree::path(|cid| Ok::<_, Infallible>(nodes.get(cid)), &root, "a/b")?;
/// assert_eq!(proof.verify(&root, "a/b")?, value);
/// # Ok::<(), Box<dyn std::error::Error>>(())
/// ```
pub fn path<N: Node, E>(
    nodes: impl FnMut(&Cid) -> Result<Option<N>, E>,
    root: &Cid,
    key: impl AsRef<[u8]>,
) -> Result<(Proof, Option<Cid>), EditError<E>> {
    let mut asked = Asked::new(nodes);
    let value = asked.walk(root, key.as_ref())?;
    Ok((Proof { nodes: asked.given.each().map(<[u8]>::to_vec).collect() }, value))
}

/// The first pairs from a key on, so many at most. The nodes are taken to have the CIDs that they stand under: nothing is hashed. The
/// next ones begin at the last key with a zero byte behind it.
///
/// ```
/// # use std::{collections::HashMap, convert::Infallible};
/// # use tizulgech::{Cid, tree};
/// # let edit = tree::put(|_| Ok::<_, Infallible>(Some(tree::EMPTY_NODE)), &tree::EMPTY_ROOT.parse()?, "a/b", &Cid::of(b""))?;
/// # let (root, nodes): (Cid, HashMap<Cid, Vec<u8>>) = (edit.root, edit.add.into_iter().collect());
/// let pairs = tree::list(|cid| Ok::<_, Infallible>(nodes.get(cid)), &root, "a", 100)?;
/// assert_eq!(pairs, [(b"a/b".to_vec(), Cid::of(b""))]);
/// # Ok::<(), Box<dyn std::error::Error>>(())
/// ```
pub fn list<N: Node, E>(
    mut nodes: impl FnMut(&Cid) -> Result<Option<N>, E>,
    root: &Cid,
    from: impl AsRef<[u8]>,
    most: usize,
) -> Result<Vec<(Vec<u8>, Cid)>, EditError<E>> {
    let (from, mut found) = (from.as_ref(), Vec::new());
    // What is left, the next last: a node to be opened, with how many layers it may have, or a pair.
    enum Left {
        Node(Cid, usize),
        Pair(Vec<u8>, Cid),
    }
    let mut left = vec![Left::Node(*root, 129)];
    while found.len() < most {
        match left.pop() {
            None => break,
            Some(Left::Pair(key, value)) => found.push((key, value)),
            Some(Left::Node(_, 0)) => return Err(EditError::TooDeep),
            Some(Left::Node(cid, layers)) => {
                let node = nodes(&cid).map_err(EditError::Source)?.ok_or(EditError::Missing(cid))?;
                if !node.may_be_of(&cid) {
                    return Err(EditError::BadNode(cid));
                }
                let Entries { left: first, pairs } = entries_of(node.bytes()).map_err(|number| EditError::of(number, cid))?;
                let passed = pairs.iter().take_while(|pair| pair.key.as_slice() < from).count();
                let before = if passed == 0 { first } else { pairs[passed - 1].link };
                for Entry { key, value, link } in pairs.into_iter().skip(passed).rev() {
                    left.extend(link.map(|link| Left::Node(link, layers - 1)));
                    left.push(Left::Pair(key, value));
                }
                left.extend(before.map(|link| Left::Node(link, layers - 1)));
            }
        }
    }
    Ok(found)
}

/// Puts a key with a value into a tree: a batch of one change.
pub fn put<N: Node, E>(
    nodes: impl FnMut(&Cid) -> Result<Option<N>, E>,
    root: &Cid,
    key: impl AsRef<[u8]>,
    value: &Cid,
) -> Result<Edit, EditError<E>> {
    apply(nodes, root, &[Change { key: key.as_ref(), value: Some(*value) }])
}

/// Takes a key out of a tree: a batch of one change. Where the tree doesn't have it, nothing changes, and `previous` says so.
pub fn delete<N: Node, E>(
    nodes: impl FnMut(&Cid) -> Result<Option<N>, E>,
    root: &Cid,
    key: impl AsRef<[u8]>,
) -> Result<Edit, EditError<E>> {
    apply(nodes, root, &[Change { key: key.as_ref(), value: None }])
}

/// Changes keys of a tree at once. The keys ascend.
///
/// The nodes that the changes need are asked for layer by layer, each once, and then hashed several side by side, unless they are
/// [`Known`]. [`EditError::BadNode`] comes where one isn't of its CID.
pub fn apply<N: Node, E>(
    nodes: impl FnMut(&Cid) -> Result<Option<N>, E>,
    root: &Cid,
    changes: &[Change<'_>],
) -> Result<Edit, EditError<E>> {
    let told = |asked: &Asked<_>, wanted: &Wanted, missing: &mut [u8; 36]| {
        // Room for the answer of nearly any edit: where it is too small all is made once more.
        let first = asked.given.len() + 128 * asked.places.len() + wanted.keys.len() + 256 * changes.len() + 1024;
        filled(first, |out, size| {
            let (nodes, keys) = (asked.given.parts(), wanted.keys.parts());
            sys::tree_apply(nodes, &asked.cids, &root.0, keys, &wanted.values, missing, out, size)
        })
    };
    Ok(read(&over_asked(nodes, root, changes, told)?, changes.len()))
}

/// What changes make of a tree, and the nodes that show it to whoever knows its root: as
/// [`Repository::prove_change`](crate::Repository::prove_change) has it of a repository in memory. Nothing is changed by it. The nodes
/// are asked for, and the faults come, as of [`apply`].
///
/// ```
/// # use std::{collections::HashMap, convert::Infallible};
/// # use tizulgech::{Cid, tree};
/// let root: Cid = tree::EMPTY_ROOT.parse()?;
/// let change = tree::Change { key: b"a/b", value: Some(Cid::of(b"record")) };
/// let proven = tree::prove_change(|_| Ok::<_, Infallible>(Some(tree::EMPTY_NODE)), &root, &[change])?;
/// assert_eq!(proven.proof.verify(&root, &proven.after, &proven.changes), Ok(()));
/// # Ok::<(), Box<dyn std::error::Error>>(())
/// ```
pub fn prove_change<'k, N: Node, E>(
    nodes: impl FnMut(&Cid) -> Result<Option<N>, E>,
    root: &Cid,
    changes: &[Change<'k>],
) -> Result<ProvenChange<'k>, EditError<E>> {
    let told = |asked: &Asked<_>, wanted: &Wanted, missing: &mut [u8; 36]| {
        let first = asked.given.len() + 8 * asked.places.len() + 36 * changes.len() + 1024;
        filled(first, |out, size| {
            let (nodes, keys) = (asked.given.parts(), wanted.keys.parts());
            sys::tree_prove_change(nodes, &asked.cids, &root.0, keys, &wanted.values, missing, out, size)
        })
    };
    Ok(ProvenChange::read(&over_asked(nodes, root, changes, told)?, changes))
}

/// What the tree with the root `after` differs by from that with the root `before`. Of each tree just the nodes are asked for that the
/// other lacks, and both roots: layer by layer, each once, and each is hashed unless it is [`Known`].
///
/// ```
/// # use std::{collections::HashMap, convert::Infallible};
/// # use tizulgech::{Cid, tree};
/// # let before: Cid = tree::EMPTY_ROOT.parse()?;
/// # let edit = tree::put(|_| Ok::<_, Infallible>(Some(tree::EMPTY_NODE)), &before, "a/b", &Cid::of(b""))?;
/// # let mut nodes: HashMap<Cid, Vec<u8>> = edit.add.into_iter().collect();
/// # nodes.insert(before, tree::EMPTY_NODE.to_vec());
/// # let after = edit.root;
/// let found = tree::difference(|cid| Ok::<_, Infallible>(nodes.get(cid)), &before, &after)?;
/// assert_eq!(found.changes, [tree::Differing { key: b"a/b".to_vec(), before: None, after: Some(Cid::of(b"")) }]);
/// # Ok::<(), Box<dyn std::error::Error>>(())
/// ```
pub fn difference<N: Node, E>(
    nodes: impl FnMut(&Cid) -> Result<Option<N>, E>,
    before: &Cid,
    after: &Cid,
) -> Result<Difference, EditError<E>> {
    let (mut asked, mut bad) = (Asked::new(nodes), [0; 36]);
    loop {
        let missing = filled(36 * (asked.places.len() + 16), |out, size| {
            sys::missing(asked.given.parts(), &asked.cids, &before.0, &after.0, &mut bad, out, size)
        });
        let missing = missing.map_err(|number| EditError::of(number, Cid(bad)))?;
        if missing.is_empty() {
            break;
        }
        for cid in missing.chunks_exact(36).map(|cid| Cid(cid.try_into().expect("36 bytes"))) {
            let node = asked.node(&cid)?;
            if !N::IS_KNOWN && Cid::of(node) != cid {
                return Err(EditError::BadNode(cid));
            }
        }
    }
    let bytes = filled(1024 + 2 * asked.given.len(), |out, size| {
        sys::difference(asked.given.parts(), &asked.cids, &before.0, &after.0, &mut bad, out, size)
    });
    let bytes = bytes.map_err(|number| EditError::of(number, Cid(bad)))?;
    let (mut reader, mut add) = (Reader(&bytes), Vec::new());
    let count = reader.number();
    let mut next = || Differing { key: reader.part().to_vec(), before: reader.value(), after: reader.value() };
    let changes = (0..count).map(|_| next()).collect();
    let gone = reader.number();
    let drop = (0..gone).map(|_| reader.cid()).collect();
    while !reader.is_empty() {
        add.push((reader.cid(), reader.part().to_vec()));
    }
    Ok(Difference { changes, add, drop })
}

/// The answer of a call over the nodes that changes need, for which a host is asked layer by layer.
fn over_asked<N: Node, E, F: FnMut(&Cid) -> Result<Option<N>, E>>(
    nodes: F,
    root: &Cid,
    changes: &[Change<'_>],
    told: impl Fn(&Asked<F>, &Wanted, &mut [u8; 36]) -> Result<Vec<u8>, u8>,
) -> Result<Vec<u8>, EditError<E>> {
    let wanted = Wanted::of(changes);
    if !changes.iter().all(|change| sys::is_key(change.key)) || !changes.is_sorted_by(|one, other| one.key < other.key) {
        return Err(EditError::BadKeys);
    }
    let mut asked = Asked::new(nodes);
    let walked = asked.walk_all(root, &wanted);
    // A node that isn't of its CID may have led anywhere.
    if !N::IS_KNOWN {
        asked.check()?;
    }
    walked?;
    loop {
        let mut missing = [0; 36];
        match told(&asked, &wanted, &mut missing) {
            Ok(bytes) => return Ok(bytes),
            // Nodes that are no tree's may need another one.
            Err(2) => {
                let cid = Cid(missing);
                if asked.places.contains_key(&cid) {
                    return Err(EditError::BadNode(cid));
                }
                let node = asked.node(&cid)?;
                if !N::IS_KNOWN && Cid::of(node) != cid {
                    return Err(EditError::BadNode(cid));
                }
            }
            Err(number) => return Err(EditError::of(number, Cid(missing))),
        }
    }
}

/// The edit of so many changes.
fn read(bytes: &[u8], changes: usize) -> Edit {
    let mut reader = Reader(bytes);
    let root = reader.cid();
    let previous = (0..changes).map(|_| reader.value()).collect();
    let gone = reader.number();
    let drop = (0..gone).map(|_| reader.cid()).collect();
    let mut add = Vec::new();
    while !reader.is_empty() {
        add.push((reader.cid(), reader.part().to_vec()));
    }
    Edit { root, add, drop, previous }
}
