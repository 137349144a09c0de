//! Which keys changed between two roots, as a proof shows: forward from the root before, or back from the root after.
use crate::faults::ChangeFault;
use crate::framing::{Joined, Reader};
use crate::sys;
use crate::tree::Change;
use crate::values::Cid;

/// A key, and the CID of its record before and after a change; `None` where there is no such key.
#[derive(Clone, Copy, Debug, PartialEq, Eq)]
pub struct KeyChange<'a> {
    /// The key: 1 to 1,024 bytes.
    pub key: &'a [u8],
    /// What it had.
    pub before: Option<Cid>,
    /// What it has.
    pub after: Option<Cid>,
}

/// Changes as the library takes them.
pub(crate) struct Told {
    keys: Joined,
    befores: Vec<u8>,
    afters: Vec<u8>,
}

impl Told {
    pub fn of(changes: &[KeyChange<'_>]) -> Told {
        let bytes = |value: Option<Cid>| value.map_or([0; 36], |cid| cid.0);
        Told {
            keys: Joined::of(changes.iter().map(|change| change.key)),
            befores: changes.iter().flat_map(|change| bytes(change.before)).collect(),
            afters: changes.iter().flat_map(|change| bytes(change.after)).collect(),
        }
    }

    pub fn lists(&self) -> sys::Told<'_> {
        sys::Told { keys: self.keys.parts(), befores: &self.befores, afters: &self.afters }
    }
}

/// Nodes of a tree that show what some changes make of it.
#[derive(Clone, Debug, PartialEq, Eq, Default)]
pub struct ChangeProof {
    /// The bytes of the nodes, in any order.
    pub nodes: Vec<Vec<u8>>,
}

/// What changes make of a tree, and what shows it: what `Repository::prove_change` and `tree::prove_change` make.
#[derive(Clone, Debug, PartialEq, Eq)]
pub struct ProvenChange<'a> {
    /// The root after the changes.
    pub after: Cid,
    /// The changes, each with what its key had before.
    pub changes: Vec<KeyChange<'a>>,
    /// The nodes of the tree before that doing them reads.
    pub proof: ChangeProof,
}

impl<'a> ProvenChange<'a> {
    /// What the library wrote of these changes.
    pub(crate) fn read(bytes: &[u8], changes: &[Change<'a>]) -> ProvenChange<'a> {
        let mut reader = Reader(bytes);
        let after = reader.cid();
        let told = |change: &Change<'a>| KeyChange { key: change.key, before: reader.value(), after: change.value };
        let changes = changes.iter().map(told).collect();
        ProvenChange { after, changes, proof: ChangeProof { nodes: reader.parts() } }
    }
}

impl ChangeProof {
    /// Whether the tree with the root `before` becomes that with the root `after` by these changes, whose keys ascend strictly.
    ///
    /// Nothing of whoever gave the proof is trusted. Where the root before is that of some records, `Ok` says that the root after is
    /// that of these records with the changes done: so whoever goes on from root to root begins with the empty tree's
    /// ([`tree::EMPTY_ROOT`](crate::tree::EMPTY_ROOT)), or with one that was computed from all records, and verifies step by step.
    ///
    /// ```
    /// use tizulgech::{ChangeFault, Cid, Repository, Stamp, Write, tree::Change};
    /// let mut repository = Repository::open(1000)?;
    /// let key = "app.bsky.feed.post/3jzfcijpj2z2a";
    /// let before = repository.root();
    /// let change = Change { key: key.as_bytes(), value: Some(Cid::of(b"\xa0")) };
    /// let proven = repository.prove_change(&[change])?;
    /// let stamp = Stamp { did: "did:web:example.com", rev: "3jzfcijpj2z2a" };
    /// assert_eq!(repository.apply(stamp, &[Write::Create(key, b"\xa0")])?.root, proven.after);
    /// // Whoever knows the root before is told the root after, the changes and the nodes.
    /// assert_eq!(proven.proof.verify(&before, &proven.after, &proven.changes), Ok(()));
    /// assert_eq!(proven.proof.verify(&before, &before, &proven.changes), Err(ChangeFault::OtherRoot));
    /// # Ok::<(), Box<dyn std::error::Error>>(())
    /// ```
    pub fn verify(&self, before: &Cid, after: &Cid, changes: &[KeyChange<'_>]) -> Result<(), ChangeFault> {
        let (nodes, told) = (Joined::of(&self.nodes), Told::of(changes));
        let (mut missing, mut place) = ([0; 36], 0);
        match sys::verify_change(nodes.parts(), &before.0, &after.0, told.lists(), &mut missing, &mut place) {
            0 => Ok(()),
            number => Err(ChangeFault::of(number, Cid(missing), place)),
        }
    }
}

/// Nodes of a tree that show that some changes undone lead back from it: what `Repository::prove_inversion` makes.
#[derive(Clone, Debug, PartialEq, Eq, Default)]
pub struct InversionProof {
    /// The bytes of the nodes, in any order.
    pub nodes: Vec<Vec<u8>>,
}

impl InversionProof {
    /// Whether these changes, whose keys ascend strictly, undone lead from the tree with the root `after` back to the root `before`:
    /// the operation inversion of the event stream.
    ///
    /// `Ok` speaks only of whatever records have the root after. **Of a root that no records have it says nothing**, and one can be
    /// made up that hides keys: so nobody goes on from a root after by it, but by [`ChangeProof::verify`].
    ///
    /// ```
    /// use tizulgech::{ChangeFault, Cid, KeyChange, Repository, Stamp, Write};
    /// let mut repository = Repository::open(1000)?;
    /// let key = "app.bsky.feed.post/3jzfcijpj2z2a";
    /// let stamp = Stamp { did: "did:web:example.com", rev: "3jzfcijpj2z2a" };
    /// let applied = repository.apply(stamp, &[Write::Create(key, b"\xa0")])?;
    /// let changes = [KeyChange { key: key.as_bytes(), before: None, after: Some(Cid::of(b"\xa0")) }];
    /// let proof = repository.prove_inversion(&changes)?;
    /// assert_eq!(proof.verify(&applied.previous, &applied.root, &changes), Ok(()));
    /// assert_eq!(proof.verify(&applied.root, &applied.root, &changes), Err(ChangeFault::OtherRoot));
    /// # Ok::<(), Box<dyn std::error::Error>>(())
    /// ```
    pub fn verify(&self, before: &Cid, after: &Cid, changes: &[KeyChange<'_>]) -> Result<(), ChangeFault> {
        let (nodes, told) = (Joined::of(&self.nodes), Told::of(changes));
        let (mut missing, mut place) = ([0; 36], 0);
        match sys::verify_inversion(nodes.parts(), &before.0, &after.0, told.lists(), &mut missing, &mut place) {
            0 => Ok(()),
            number => Err(ChangeFault::of(number, Cid(missing), place)),
        }
    }
}
