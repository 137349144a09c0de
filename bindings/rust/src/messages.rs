//! Messages `#commit` of the event stream (AT Protocol, sync 1.1): those of a repository's batches, and the check of any.
use crate::commits::SignedCommit;
use crate::faults::{MessageError, MessageFault};
use crate::framing::{Reader, filled};
use crate::sys;
use crate::values::Cid;

/// A key, and the CID of its record before and after a batch; `None` where there is none.
#[derive(Clone, Debug, PartialEq, Eq)]
pub struct Operation {
    /// The key.
    pub key: String,
    /// What it had.
    pub before: Option<Cid>,
    /// What it has.
    pub after: Option<Cid>,
}

/// What the writes of a batch will make of a repository: what `Repository::preview` tells.
#[derive(Clone, Debug, PartialEq, Eq)]
pub struct Preview {
    /// The root before the batch.
    pub previous: Cid,
    /// The root after it.
    pub root: Cid,
    /// The bytes of its unsigned commit: what is signed.
    pub unsigned: Vec<u8>,
    /// What each key that it writes has and will have, in the order of the keys.
    pub changes: Vec<Operation>,
}

/// What a message tells beside its batch, with the signature of the batch's commit.
#[derive(Clone, Copy, Debug, PartialEq, Eq)]
pub struct Told<'a> {
    /// The root before the batch that was signed.
    pub previous: &'a Cid,
    /// The signature of [`Preview::unsigned`].
    pub sig: &'a [u8],
    /// The message's number in the stream, below 2^63.
    pub seq: u64,
    /// When it is sent, as `2026-11-30T12:00:00Z`.
    pub time: &'a str,
    /// The revision of the batch before, if there was one.
    pub since: Option<&'a str>,
}

/// What a message says that is true of a repository that had the root before.
#[derive(Clone, Debug, PartialEq, Eq)]
pub struct CheckedCommit {
    /// The signed commit, whose root is that after the batch. Nothing tests the signature.
    pub commit: SignedCommit,
    /// The message's number in the stream.
    pub seq: u64,
    /// The CID of the signed commit.
    pub cid: Cid,
    /// The revision of the batch before, if there was one.
    pub since: Option<String>,
    /// When it was sent.
    pub time: String,
    /// What each key had and has, in the order of the message.
    pub operations: Vec<Operation>,
    /// Its blocks with their CIDs: the commit, nodes of the tree after the batch, and the records that come.
    pub blocks: Vec<(Cid, Vec<u8>)>,
}

/// What a message says, where it is true of the repository whose tree had the root `previous`; or its first fault.
///
/// What is taken is true of whatever records have the root after: each key of the operations has the record that it tells, and
/// the records with each operation undone have the root before. Who may sign, and whether the commit is signed, is for the caller
/// to see, by `commit.unsigned` and `commit.sig`.
///
/// ```
/// use tizulgech::{Repository, Stamp, Told, Write, check_commit};
/// let mut repository = Repository::open(1000)?;
/// let (did, rev) = ("did:web:example.com", "3jzfcijpj2z2a");
/// let writes = [Write::Create("app.bsky.feed.post/3jzfcijpj2z2a", b"\xa0")];
/// // The batch is told, its commit is signed, and it is accepted.
/// let preview = repository.preview(Stamp { did, rev }, &writes)?;
/// let told = Told { previous: &preview.previous, sig: &[7; 64], seq: 1, time: "2026-11-30T12:00:00Z", since: None };
/// let message = repository.apply_signed(Stamp { did, rev }, &writes, told)?;
/// // Who knows the root before takes the message, and has the root after.
/// let checked = check_commit(&preview.previous, &message)?;
/// assert_eq!((checked.commit.root, checked.operations), (repository.root(), preview.changes));
/// assert_eq!(checked.commit.unsigned, preview.unsigned);
/// # Ok::<(), Box<dyn std::error::Error>>(())
/// ```
pub fn check_commit(previous: &Cid, message: &[u8]) -> Result<CheckedCommit, MessageError> {
    let (mut place, mut missing) = (0, [0; 36]);
    let call = |out: &mut [u8], size: &mut usize| sys::check_commit(&previous.0, message, &mut place, &mut missing, out, size);
    match filled(512 + 2 * message.len(), call) {
        Ok(found) => Ok(CheckedCommit::of(Reader(&found))),
        Err(number) => {
            let has_node = number == 129 || number == 30;
            Err(MessageError { fault: MessageFault::of(number), place, node: has_node.then_some(Cid(missing)) })
        }
    }
}

impl CheckedCommit {
    fn of(mut reader: Reader<'_>) -> CheckedCommit {
        let commit = SignedCommit::of(&mut reader);
        let (seq, cid) = (reader.number() as u64, reader.cid());
        let since = Some(reader.text()).filter(|since| !since.is_empty());
        let (time, operations) = (reader.text(), operations_of(&mut reader));
        let blocks = std::iter::from_fn(|| (!reader.is_empty()).then(|| (reader.cid(), reader.part().to_vec()))).collect();
        CheckedCommit { commit, seq, cid, since, time, operations, blocks }
    }
}

/// The changes of an answer, of which it says how many they are.
fn operations_of(reader: &mut Reader<'_>) -> Vec<Operation> {
    let count = reader.number();
    (0..count).map(|_| Operation { key: reader.text(), before: reader.value(), after: reader.value() }).collect()
}

impl Preview {
    pub(crate) fn of(mut reader: Reader<'_>) -> Preview {
        let (previous, root, unsigned) = (reader.cid(), reader.cid(), reader.part().to_vec());
        Preview { previous, root, unsigned, changes: operations_of(&mut reader) }
    }
}
