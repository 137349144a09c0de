//! A verified AT Protocol repository: safe calls over a static library whose code is proved.
//!
//! - [`Repository`] is a whole repository in memory: batches in, records, listings, roots, commits, CAR files and proofs out.
//! - [`tree`] changes a tree whose nodes stand elsewhere, as in a database.
//! - [`ChangeProof`] shows which keys changed from one root to the next to whoever knows the first, step by step; [`InversionProof`]
//!   undoes changes, as the event stream's operation inversion does.
//! - [`SignedCommit`] is written and read; [`Repository::preview`] and [`Repository::apply_signed`] accept a batch whose commit is
//!   signed, with its message, and [`check_commit`] checks any message `#commit` of the event stream.
//! - [`record_json`] and [`json_record`] are records as JSON, [`link_text`] the text of a blob's CID, and [`check_car`] tells whose
//!   repository a file is the export of.
//! - [`Cid`], [`check_record`], [`check_write`], [`check_stamp`], [`commit_bytes`], [`tree_root`], [`listing_car`] and [`Proof`] need no state.
//!
//! ```
//! use tizulgech::{Cid, Repository, Stamp, Write};
//!
//! let mut repository = Repository::open(1000)?;
//! let key = "app.bsky.feed.post/3jzfcijpj2z2a";
//! let stamp = Stamp { did: "did:web:example.com", rev: "3jzfcijpj2z2a" };
//! let applied = repository.apply(stamp, &[Write::Create(key, b"\xa1\x64text\x65hello")])?;
//! assert_eq!(repository.get(key)?.as_deref(), Some(&b"\xa1\x64text\x65hello"[..]));
//!
//! // Whoever knows the root alone can check the record.
//! let proof = repository.prove(key)?;
//! assert_eq!(proof.verify(&applied.root, key)?, Some(Cid::of(b"\xa1\x64text\x65hello")));
//! # Ok::<(), Box<dyn std::error::Error>>(())
//! ```
//!
//! What a call refuses is an enum, whose `number` and `name` are those of the C header:
//!
//! ```
//! use tizulgech::{CidFault, RecordFault, check_record};
//!
//! let fault = check_record(b"").unwrap_err();
//! assert_eq!((fault, fault.number(), fault.name()), (RecordFault::Truncated, 1, "TRUNCATED"));
//! assert_eq!((CidFault::BadLength.number(), CidFault::BadLength.name()), (1, "CID_LENGTH"));
//! ```
//!
//! # What is proved, and what is trusted
//!
//! What is proved ends at the calls of the C interface: each has a contract, which is proved of its code together with its
//! safety and its end. Of this crate nothing is proved: 2,400 lines of code, which tests try call by call.
//! Trusted are:
//!
//! - that the declarations in `sys` are those of the library, and pass on what they are given in its order (a script of the
//!   repository compares both);
//! - that `sys`, where all `unsafe` calls stand, passes slices as they are, and arrays where a call wants a fixed length;
//! - that a repository is given to one call at a time: it isn't `Sync`. That it may go to another thread between two calls, as
//!   `Send` says, is proved of what stands behind its pointer;
//! - that `framing` reads answers and writes lists as the library spells them;
//! - that the numbers of `faults` are those of the library (the same script compares them);
//! - of [`tree`], that a host's nodes are asked for as the library wants them, and compared with the CIDs that were asked for: so a
//!   wrong node is refused by `apply`, `put` and `delete`. A host that hands in [`tree::Known`] nodes says by
//!   `unsafe` that they are of the CIDs beside them; `get` and `path` hash nothing, and believe any;
//! - the program's `malloc`, `realloc` and `free`, the compilers and the linker.
#![deny(missing_docs)]
#![deny(unsafe_op_in_unsafe_fn)]

mod changes;
mod commits;
mod faults;
mod framing;
mod messages;
mod records;
mod repository;
#[allow(missing_docs)]
mod sys;
pub mod tree;
mod values;

pub use changes::{ChangeProof, InversionProof, KeyChange, ProvenChange};
pub use commits::{SignedCommit, file_head, file_section};
pub use faults::{
    BatchError, BatchFault, ChangeFault, CheckError, CheckFault, CidFault, CommitFault, JsonError, JsonFault, LinkFault,
    MessageError, MessageFault, NoMemory, NodeFault, OpenError, ProofFault, ProvingFault, RecordFault, RecordJsonFault,
    SigningError, SigningFault, StampFault, TidFault, TreeFault,
};
pub use messages::{CheckedCommit, Operation, Preview, Told, check_commit};
pub use records::{Export, check_car, json_record, link_from_text, link_text, record_json};
pub use repository::{Applied, CarParts, Pairs, Repository, Stamp, Write};
pub use values::{
    Cid, Proof, VERSION, check_record, check_stamp, check_write, commit_bytes, is_did, is_key, is_repository_key, is_tid, layer,
    listing_car, next_tid, tree_root, version,
};
