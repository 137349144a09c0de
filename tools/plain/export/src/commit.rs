//! Signed commits.

use crate::cbor::Cursor;
use crate::cid::{self, Cid};

pub struct Commit<'f> {
    pub did: &'f [u8],
    pub rev: &'f [u8],
    pub root: &'f Cid,
}

pub fn link<'f>(cursor: &mut Cursor<'f>) -> Option<&'f Cid> {
    cursor.exactly(b"\xd8\x2a\x58\x25\x00")?;
    let cid: &Cid = cursor.take(36).ok()?.try_into().ok()?;
    cid.starts_with(&cid::PREFIX).then_some(cid)
}

pub fn link_or_null<'f>(cursor: &mut Cursor<'f>) -> Option<Option<&'f Cid>> {
    match cursor.0.first() {
        Some(0xf6) => cursor.exactly(b"\xf6").map(|()| None),
        _ => link(cursor).map(Some),
    }
}

fn parts(block: &[u8]) -> Option<Commit<'_>> {
    let mut cursor = Cursor(block);
    cursor.exactly(b"\xa6\x63did")?;
    let did = cursor.string(3)?;
    cursor.exactly(b"\x63rev")?;
    let rev = cursor.string(3)?;
    cursor.exactly(b"\x63sig")?;
    cursor.string(2)?;
    cursor.exactly(b"\x64data")?;
    let root = link(&mut cursor)?;
    cursor.exactly(b"\x64prev")?;
    link_or_null(&mut cursor)?;
    cursor.exactly(b"\x67version\x03")?;
    cursor.0.is_empty().then_some(Commit { did, rev, root })
}

pub fn is_did(did: &[u8]) -> bool {
    let Some(rest) = did.strip_prefix(b"did:").filter(|_| did.len() <= 2048) else {
        return false;
    };
    let Some(colon) = rest.iter().position(|c| *c == b':') else {
        return false;
    };
    let (method, id) = (&rest[..colon], &rest[colon + 1..]);
    let is_id = |c: &u8| c.is_ascii_alphanumeric() || b"._:%-".contains(c);
    let ends_well = id.last().is_some_and(|c| !b":%".contains(c));
    !method.is_empty() && method.iter().all(u8::is_ascii_lowercase) && id.iter().all(is_id) && ends_well
}

pub fn is_revision(rev: &[u8]) -> bool {
    let is_letter = |c: &u8| matches!(c, b'2'..=b'7' | b'a'..=b'z');
    rev.len() == 13 && rev.iter().all(is_letter) && rev[0] <= b'j'
}

pub fn read(block: &[u8]) -> Result<Commit<'_>, &'static str> {
    let commit = parts(block).ok_or("Commit(NotACommit)")?;
    if !is_did(commit.did) {
        return Err("Commit(BadDid)");
    }
    if !is_revision(commit.rev) {
        return Err("Commit(BadRev)");
    }
    Ok(commit)
}
