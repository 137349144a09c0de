//! Signed commits and the parts of files that a host puts together by itself, with no state.
use crate::faults::{CommitFault, TreeFault};
use crate::framing::{Reader, filled};
use crate::repository::Stamp;
use crate::sys;
use crate::values::Cid;

/// What a signed commit says (AT Protocol repository v3, commit objects).
#[derive(Clone, Debug, PartialEq, Eq)]
pub struct SignedCommit {
    /// Whose repository it is.
    pub did: String,
    /// The revision.
    pub rev: String,
    /// The root of the tree.
    pub root: Cid,
    /// The commit before, where one is named: today's name none.
    pub prev: Option<Cid>,
    /// The signature, which nothing here tests.
    pub sig: Vec<u8>,
    /// The bytes that were signed.
    pub unsigned: Vec<u8>,
}

impl SignedCommit {
    /// The bytes of the signed commit of a stamp, which isn't tested, over the root of a tree. What is signed is
    /// [`commit_bytes`](crate::commit_bytes) of the same stamp and root.
    ///
    /// ```
    /// use tizulgech::{Cid, SignedCommit, Stamp, commit_bytes, file_head, file_section, tree};
    /// // An account without records begins with a commit over the empty tree, and its file has two blocks.
    /// let (stamp, root) = (Stamp { did: "did:web:example.com", rev: "3jzfcijpj2z2a" }, tree::EMPTY_ROOT.parse()?);
    /// let signed = SignedCommit::bytes_of(stamp, &root, &[7; 64])?;
    /// let cid = Cid::of(&signed);
    /// let file = [file_head(&cid)?, file_section(&cid, &signed)?, file_section(&root, tree::EMPTY_NODE)?].concat();
    /// let read = SignedCommit::read(&signed)?;
    /// assert_eq!((read.root, &read.sig[..]), (root, &[7; 64][..]));
    /// assert_eq!(read.unsigned, commit_bytes(stamp, &root)?);
    /// # assert!(file.len() > 200);
    /// # Ok::<(), Box<dyn std::error::Error>>(())
    /// ```
    pub fn bytes_of(stamp: Stamp<'_>, root: &Cid, sig: &[u8]) -> Result<Vec<u8>, TreeFault> {
        let (did, rev) = (stamp.did.as_bytes(), stamp.rev.as_bytes());
        filled(160 + did.len() + sig.len(), |out, size| sys::signed_commit(did, rev, &root.0, sig, out, size))
            .map_err(TreeFault::of)
    }

    /// What the signed commit of these bytes says, or why they are none.
    pub fn read(bytes: &[u8]) -> Result<SignedCommit, CommitFault> {
        let found = filled(160 + 2 * bytes.len(), |out, size| sys::read_commit(bytes, out, size)).map_err(CommitFault::of)?;
        Ok(SignedCommit::of(&mut Reader(&found)))
    }

    /// The next one of an answer.
    pub(crate) fn of(reader: &mut Reader<'_>) -> SignedCommit {
        SignedCommit {
            did: reader.text(),
            rev: reader.text(),
            root: reader.cid(),
            prev: reader.value(),
            sig: reader.part().to_vec(),
            unsigned: reader.part().to_vec(),
        }
    }
}

/// The header of a file (CARv1) with this root. Behind it come the sections of its blocks.
pub fn file_head(root: &Cid) -> Result<Vec<u8>, TreeFault> {
    filled(64, |out, size| sys::file_head(&root.0, out, size)).map_err(TreeFault::of)
}

/// The section of a block with this CID in a file (CARv1). Nothing is hashed.
pub fn file_section(cid: &Cid, block: &[u8]) -> Result<Vec<u8>, TreeFault> {
    filled(46 + block.len(), |out, size| sys::file_section(&cid.0, block, out, size)).map_err(TreeFault::of)
}
