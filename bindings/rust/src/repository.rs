//! A repository in memory.
use crate::changes::{self, InversionProof, KeyChange, ProvenChange};
use crate::faults::{
    BatchError, BatchFault, CheckError, CheckFault, NoMemory, OpenError, ProvingFault, SigningError, SigningFault,
};
use crate::framing::{Reader, filled};
use crate::messages::{Preview, Told};
use crate::sys;
use crate::tree::{self, Link, links_of};
use crate::values::{Cid, Proof};
use std::collections::HashSet;
use std::{fmt, io};

/// What a batch is stamped with.
#[derive(Clone, Copy, Debug, PartialEq, Eq)]
pub struct Stamp<'a> {
    /// Whose repository it is.
    pub did: &'a str,
    /// A timestamp identifier, bytewise after that of the batch before.
    pub rev: &'a str,
}

/// A write: a key, and the record's bytes in DAG-CBOR.
#[derive(Clone, Copy, Debug, PartialEq, Eq)]
pub enum Write<'a> {
    /// The record stands under the key, whatever stood there.
    Put(&'a str, &'a [u8]),
    /// The record stands under the key, where nothing stood there.
    Create(&'a str, &'a [u8]),
    /// The record stands under the key, where another one stood there.
    Update(&'a str, &'a [u8]),
    /// The key goes with its record.
    Delete(&'a str),
}

impl<'a> Write<'a> {
    pub(crate) fn parts(self) -> (u8, &'a str, &'a [u8]) {
        match self {
            Write::Put(key, record) => (0, key, record),
            Write::Create(key, record) => (1, key, record),
            Write::Update(key, record) => (2, key, record),
            Write::Delete(key) => (3, key, &[]),
        }
    }
}

/// What an accepted batch leaves.
#[derive(Clone, Copy, Debug, PartialEq, Eq)]
pub struct Applied {
    /// The root of the tree.
    pub root: Cid,
    /// The root before the batch.
    pub previous: Cid,
    /// The CID of the batch's commit.
    pub commit: Cid,
}

/// A repository in memory. Its root and its blocks are always those of the tree built from scratch of its records: this is
/// proved.
///
/// It keeps all its writes, and takes 1,048,576 of them at most.
///
/// It may go to another thread, which is proved of what the library keeps behind its pointer:
///
/// ```
/// let repository = tizulgech::Repository::open(10)?;
/// let owner = std::thread::spawn(move || repository.number());
/// assert_eq!(owner.join().unwrap(), 0);
/// # Ok::<(), tizulgech::OpenError>(())
/// ```
///
/// But one call at a time has it, so no two threads do, unless a lock stands round it:
///
/// ```compile_fail
/// let repository = tizulgech::Repository::open(10).unwrap();
/// std::thread::scope(|scope| scope.spawn(|| repository.number()).join().unwrap()); // it isn't `Sync`
/// ```
///
/// Or by way of the thread that has it:
///
/// ```
/// use std::{sync::mpsc, thread};
/// use tizulgech::{Repository, Stamp, Write};
///
/// let (sender, batches) = mpsc::channel::<(String, Vec<u8>)>();
/// let owner = thread::spawn(move || {
///     let mut repository = Repository::open(1000).unwrap();
///     for (turn, (key, record)) in batches.into_iter().enumerate() {
///         let rev = format!("3jzfcijpj2z2{}", char::from(b'a' + turn as u8));
///         repository.apply(Stamp { did: "did:web:example.com", rev: &rev }, &[Write::Put(&key, &record)]).unwrap();
///     }
///     (repository.number(), repository.root())
/// });
/// thread::scope(|scope| {
///     for key in ["app.bsky.feed.post/3jzfcijpj2z2a", "app.bsky.feed.post/3jzfcijpj2z2b"] {
///         let sender = sender.clone();
///         scope.spawn(move || sender.send((key.into(), b"\xa0".to_vec())));
///     }
/// });
/// drop(sender);
/// assert_eq!(owner.join().unwrap().0, 2);
/// ```
pub struct Repository {
    handle: sys::Handle,
}

impl Repository {
    /// A repository that takes at most so many writes.
    pub fn open(limit: usize) -> Result<Repository, OpenError> {
        match sys::Handle::open(limit) {
            Ok(handle) => Ok(Repository { handle }),
            Err(252) => Err(OpenError::Limit),
            Err(_) => Err(OpenError::NoMemory),
        }
    }

    /// A repository with the records of a CAR file, as `com.atproto.sync.getRepo` serves it, that takes at most so many writes: its
    /// records are one batch, under the DID and the revision of the file's commit, and its root is the one that the commit names.
    /// Its own commit has no signature, and so another CID than the file's. A file without records gives one without writes.
    ///
    /// ```
    /// use tizulgech::{CheckFault, Repository};
    /// assert_eq!(Repository::open_car(1000, b"no file").err().unwrap().fault, CheckFault::CarHeader);
    /// ```
    pub fn open_car(limit: usize, file: &[u8]) -> Result<Repository, CheckError> {
        let mut place = 0;
        match sys::Handle::open_car(limit, file, &mut place) {
            Ok(handle) => Ok(Repository { handle }),
            Err(number) => Err(CheckError { place, fault: CheckFault::of(number) }),
        }
    }

    /// Accepts all writes of a batch, in order, or none of them.
    ///
    /// ```
    /// use tizulgech::{BatchFault, Repository, Stamp, Write};
    /// let mut repository = Repository::open(1000)?;
    /// let (did, key) = ("did:web:example.com", "app.bsky.feed.post/3jzfcijpj2z2a");
    /// let applied = repository.apply(Stamp { did, rev: "3jzfcijpj2z2a" }, &[Write::Create(key, b"\xa0")])?;
    /// let writes = [Write::Delete(key), Write::Update(key, b"\xa0")];
    /// let refused = repository.apply(Stamp { did, rev: "3jzfcijpj2z2b" }, &writes).unwrap_err();
    /// assert_eq!((refused.place, refused.fault), (1, BatchFault::NoSuchKey));
    /// assert_eq!((repository.root(), repository.number()), (applied.root, 1));
    /// # Ok::<(), Box<dyn std::error::Error>>(())
    /// ```
    pub fn apply(&mut self, stamp: Stamp<'_>, writes: &[Write<'_>]) -> Result<Applied, BatchError> {
        self.stage(writes)?;
        let (mut place, mut root, mut previous, mut commit) = (0, [0; 36], [0; 36], [0; 36]);
        let (did, rev) = (stamp.did.as_bytes(), stamp.rev.as_bytes());
        match self.handle.apply(did, rev, &mut place, &mut root, &mut previous, &mut commit) {
            0 => Ok(Applied { root: Cid(root), previous: Cid(previous), commit: Cid(commit) }),
            number => Err(BatchError { place, fault: BatchFault::of(number) }),
        }
    }

    /// The writes of a batch wait for their stamp, or none does.
    fn stage(&mut self, writes: &[Write<'_>]) -> Result<(), BatchError> {
        for write in writes {
            let (kind, key, record) = write.parts();
            if self.handle.stage(kind, key.as_bytes(), record) != 0 {
                self.handle.clear();
                return Err(BatchError { place: 0, fault: BatchFault::NoMemory });
            }
        }
        Ok(())
    }

    /// What a batch would make of the repository, which stays as it is: the roots before and after, the bytes of its commit, which
    /// are signed, and what each key has and will have. [`check_commit`](crate::check_commit) has an example.
    pub fn preview(&mut self, stamp: Stamp<'_>, writes: &[Write<'_>]) -> Result<Preview, BatchError> {
        self.stage(writes)?;
        let (did, rev, mut place) = (stamp.did.as_bytes(), stamp.rev.as_bytes(), 0);
        let found = filled(512 + 256 * writes.len(), |out, size| self.handle.preview(did, rev, &mut place, out, size));
        self.handle.clear();
        match found {
            Ok(found) => Ok(Preview::of(Reader(&found))),
            Err(number) => Err(BatchError { place, fault: BatchFault::of(number) }),
        }
    }

    /// Accepts a batch whose commit was signed, as [`preview`](Repository::preview) told it, and answers the message `#commit` that
    /// tells of it; or refuses it, and leaves all as it was. A batch that no message can tell of is accepted by
    /// [`apply`](Repository::apply).
    pub fn apply_signed(&mut self, stamp: Stamp<'_>, writes: &[Write<'_>], told: Told<'_>) -> Result<Vec<u8>, SigningError> {
        if self.stage(writes).is_err() {
            return Err(SigningError { place: 0, fault: SigningFault::NoMemory });
        }
        let (did, rev, mut place) = (stamp.did.as_bytes(), stamp.rev.as_bytes(), 0);
        let (time, since) = (told.time.as_bytes(), told.since.unwrap_or("").as_bytes());
        let first = 4096 + writes.iter().map(|write| 2048 + write.parts().2.len()).sum::<usize>();
        let message = filled(first, |out, size| {
            self.handle.apply_signed(&told.previous.0, did, rev, told.sig, told.seq, time, since, &mut place, out, size)
        });
        self.handle.clear();
        message.map_err(|number| SigningError { place, fault: SigningFault::of(number) })
    }

    /// The record of a key.
    pub fn get(&self, key: impl AsRef<[u8]>) -> Result<Option<Vec<u8>>, NoMemory> {
        match filled(1024, |out, size| self.handle.get(key.as_ref(), out, size)) {
            Ok(record) => Ok(Some(record)),
            Err(24) => Ok(None),
            Err(_) => Err(NoMemory),
        }
    }

    /// The first keys from a key on, so many at most, each with its record's CID.
    pub fn list(&self, from: impl AsRef<[u8]>, most: usize) -> Result<Vec<(Vec<u8>, Cid)>, NoMemory> {
        let bytes =
            filled(96 * most.min(1024), |out, size| self.handle.list(from.as_ref(), most, out, size)).map_err(|_| NoMemory)?;
        Ok(Reader(&bytes).pairs())
    }

    /// All pairs from a key on, in the order of the keys, read page by page.
    ///
    /// ```
    /// # use tizulgech::{Cid, Repository, Stamp, Write};
    /// # let mut repository = Repository::open(1000)?;
    /// let stamp = Stamp { did: "did:web:example.com", rev: "3jzfcijpj2z2a" };
    /// repository.apply(stamp, &[Write::Put("a.b.c/two", b"\xa0"), Write::Put("a.b.c/one", b"\xa0")])?;
    /// let keys: Vec<Vec<u8>> = repository.pairs("a.b.c/").map(|(key, _)| key).collect();
    /// assert_eq!(keys, [b"a.b.c/one", b"a.b.c/two"]);
    /// # Ok::<(), Box<dyn std::error::Error>>(())
    /// ```
    pub fn pairs(&self, from: impl AsRef<[u8]>) -> Pairs<'_> {
        Pairs { repository: self, next: Some(from.as_ref().to_vec()), page: Vec::new().into_iter() }
    }

    /// The root of the tree.
    pub fn root(&self) -> Cid {
        let mut root = [0; 36];
        let number = self.handle.root(&mut root);
        debug_assert_eq!(number, 0);
        Cid(root)
    }

    /// The CID of the last batch's commit.
    pub fn commit(&self) -> Option<Cid> {
        let mut commit = [0; 36];
        (self.handle.commit(&mut commit) == 0).then_some(Cid(commit))
    }

    /// The revision of the last batch.
    pub fn rev(&self) -> Option<String> {
        let rev = filled(13, |out, size| self.handle.rev(out, size)).ok()?;
        String::from_utf8(rev).ok()
    }

    /// How many writes are accepted.
    pub fn number(&self) -> u64 {
        let mut count = 0;
        let number = self.handle.number(&mut count);
        debug_assert_eq!(number, 0);
        count
    }

    /// The repository as one file (CARv1).
    pub fn car(&self) -> Result<Vec<u8>, NoMemory> {
        let length = usize::try_from(self.car_length()?).map_err(|_| NoMemory)?;
        filled(length, |out, size| self.handle.car(out, size)).map_err(|_| NoMemory)
    }

    /// How many bytes that file has. None of them is made.
    pub fn car_length(&self) -> Result<u64, NoMemory> {
        let mut length = 0;
        match self.handle.car_length(&mut length) {
            0 => Ok(length),
            _ => Err(NoMemory),
        }
    }

    /// The bytes of that file from a place on, to the front of `out`, and how many they are: fewer than there is room for only
    /// where the file ends.
    pub fn car_part(&self, from: u64, out: &mut [u8]) -> Result<usize, NoMemory> {
        let mut size = 0;
        match self.handle.car_part(from, out, &mut size) {
            0 => Ok(size),
            _ => Err(NoMemory),
        }
    }

    /// That file into a writer, section by section: each is made once, and the whole is never in memory.
    ///
    /// ```
    /// # let repository = tizulgech::Repository::open(1000)?;
    /// let mut file = Vec::new();
    /// assert_eq!(repository.write_car(&mut file)?, repository.car_length()?);
    /// assert_eq!(file, repository.car()?);
    /// # Ok::<(), Box<dyn std::error::Error>>(())
    /// ```
    pub fn write_car(&self, out: &mut impl io::Write) -> io::Result<u64> {
        let mut done = 0;
        for part in self.car_parts() {
            let part = part.map_err(|_| io::Error::from(io::ErrorKind::OutOfMemory))?;
            out.write_all(&part)?;
            done += part.len() as u64;
        }
        Ok(done)
    }

    /// That file in parts: its header, and a section for each block.
    ///
    /// ```
    /// # let repository = tizulgech::Repository::open(1000)?;
    /// let parts: Vec<Vec<u8>> = repository.car_parts().collect::<Result<_, _>>()?;
    /// assert_eq!(parts.concat(), repository.car()?);
    /// # Ok::<(), Box<dyn std::error::Error>>(())
    /// ```
    pub fn car_parts(&self) -> CarParts<'_> {
        let mut left = vec![Link::Node(self.root())];
        left.extend(self.commit().map(Link::Record));
        CarParts { repository: self, is_begun: false, left, seen: HashSet::new() }
    }

    /// The proof of a key, there or not: the nodes of its path.
    ///
    /// ```
    /// # let repository = tizulgech::Repository::open(1000)?;
    /// let proof = repository.prove("app.bsky.feed.post/3jzfcijpj2z2a")?;
    /// assert_eq!(proof.verify(&repository.root(), "app.bsky.feed.post/3jzfcijpj2z2a")?, None);
    /// # Ok::<(), Box<dyn std::error::Error>>(())
    /// ```
    pub fn prove(&self, key: impl AsRef<[u8]>) -> Result<Proof, NoMemory> {
        let bytes = filled(8192, |out, size| self.handle.prove(key.as_ref(), out, size)).map_err(|_| NoMemory)?;
        Ok(Proof { nodes: Reader(&bytes).parts() })
    }

    /// What some changes, whose keys ascend strictly, make of the repository as it is, and what shows it to whoever knows its root:
    /// ask before they are applied. Nothing is changed by it.
    pub fn prove_change<'a>(&self, changes: &[tree::Change<'a>]) -> Result<ProvenChange<'a>, ProvingFault> {
        let wanted = tree::Wanted::of(changes);
        let bytes = filled(room_for_proof(changes.len()), |out, size| {
            self.handle.prove_change(wanted.keys.parts(), &wanted.values, out, size)
        });
        let bytes = bytes.map_err(|number| ProvingFault::of(number, 0))?;
        Ok(ProvenChange::read(&bytes, changes))
    }

    /// The proof that some changes, whose keys ascend strictly, undone lead back from the repository as it is. Whoever has it and
    /// both roots can see that they do; that each key had before what is told is for them to see, as this repository knows nothing
    /// of it. To who doesn't know that some records have the root after it says nothing: [`prove_change`](Self::prove_change) shows
    /// a step.
    pub fn prove_inversion(&self, changes: &[KeyChange<'_>]) -> Result<InversionProof, ProvingFault> {
        let (told, mut place) = (changes::Told::of(changes), 0);
        let bytes =
            filled(room_for_proof(changes.len()), |out, size| self.handle.prove_inversion(told.lists(), &mut place, out, size));
        let bytes = bytes.map_err(|number| ProvingFault::of(number, place))?;
        Ok(InversionProof { nodes: Reader(&bytes).parts() })
    }
}

/// Room for most proofs of so many changes: where it is too small all is made once more.
fn room_for_proof(changes: usize) -> usize {
    8192 + 4096 * changes.min(4096)
}

/// The parts of a repository's file. It ends with the first fault.
pub struct CarParts<'a> {
    repository: &'a Repository,
    is_begun: bool,
    /// What is still to come, the last first.
    left: Vec<Link>,
    seen: HashSet<Cid>,
}

impl CarParts<'_> {
    fn part(&mut self) -> Result<Option<Vec<u8>>, u8> {
        let handle = &self.repository.handle;
        if !self.is_begun {
            self.is_begun = true;
            return filled(64, |out, size| handle.car_head(out, size)).map(Some);
        }
        let section = |cid: &Cid| filled(4096, |out, size| handle.car_section(&cid.0, out, size));
        while let Some(link) = self.left.pop() {
            match link {
                // A node's block may come as a record too: what is below it comes where it stands as a node.
                Link::Node(cid) => {
                    let section = section(&cid)?;
                    self.left.extend(links_of(block_of(&section))?.into_iter().rev());
                    if self.seen.insert(cid) {
                        return Ok(Some(section));
                    }
                }
                Link::Record(cid) if self.seen.insert(cid) => return section(&cid).map(Some),
                Link::Record(_) => {}
            }
        }
        Ok(None)
    }
}

/// The block of a section: it stands behind a length, of which each byte but the last is 128 or more, and a CID.
fn block_of(section: &[u8]) -> &[u8] {
    let length = section.iter().take_while(|byte| **byte >= 128).count() + 1;
    &section[length + 36..]
}

impl Iterator for CarParts<'_> {
    type Item = Result<Vec<u8>, NoMemory>;
    fn next(&mut self) -> Option<Result<Vec<u8>, NoMemory>> {
        let part = self.part();
        if part.is_err() {
            self.left.clear();
        }
        part.map_err(|_| NoMemory).transpose()
    }
}

impl fmt::Debug for Repository {
    fn fmt(&self, f: &mut fmt::Formatter<'_>) -> fmt::Result {
        f.debug_struct("Repository").field("number", &self.number()).field("root", &self.root()).finish()
    }
}

/// The pairs of a repository. It ends early where memory is refused.
pub struct Pairs<'a> {
    repository: &'a Repository,
    next: Option<Vec<u8>>,
    page: std::vec::IntoIter<(Vec<u8>, Cid)>,
}

impl Pairs<'_> {
    /// As many pairs from a key on as a room of so many bytes has.
    fn page(&self, from: &[u8]) -> Option<Vec<(Vec<u8>, Cid)>> {
        let handle = &self.repository.handle;
        let bytes = filled(24_576, |out, size| handle.entries(from, 512, out, size)).ok()?;
        Some(Reader(&bytes).pairs())
    }
}

impl Iterator for Pairs<'_> {
    type Item = (Vec<u8>, Cid);
    fn next(&mut self) -> Option<(Vec<u8>, Cid)> {
        if let Some(pair) = self.page.next() {
            return Some(pair);
        }
        let from = self.next.take()?;
        let page = self.page(&from)?;
        // the least key after the last one
        self.next = page.last().map(|(last, _)| [last, &[0][..]].concat());
        self.page = page.into_iter();
        self.page.next()
    }
}
