//! CAR files of one root.

use crate::cid::{self, Blocks, Cid};

const BEFORE_ROOT: &[u8] = b"\x3a\xa2\x65roots\x81\xd8\x2a\x58\x25\x00";
const BEHIND_ROOT: &[u8] = b"\x67version\x01";

fn own(bytes: &[u8]) -> Option<&Cid> {
    let cid: &Cid = bytes.get(..36)?.try_into().ok()?;
    cid.starts_with(&cid::PREFIX).then_some(cid)
}

/// A number of at most nine bytes in its shortest form, and what is behind it.
fn number(bytes: &[u8]) -> Option<(u64, &[u8])> {
    let mut number = 0;
    for (i, byte) in bytes.iter().take(9).enumerate() {
        number |= u64::from(byte & 127) << (7 * i);
        if *byte < 128 {
            return (*byte != 0 || i == 0).then(|| (number, &bytes[i + 1..]));
        }
    }
    None
}

/// The root and the sections, of which none is hashed yet.
fn sections(file: &[u8]) -> Result<(&Cid, Vec<(&Cid, &[u8])>), &'static str> {
    let header = || {
        let rest = file.strip_prefix(BEFORE_ROOT)?;
        let root = own(rest)?;
        Some((root, rest[36..].strip_prefix(BEHIND_ROOT)?))
    };
    let (root, mut rest) = header().ok_or("Car(BadHeader)")?;
    let mut found = Vec::new();
    while !rest.is_empty() {
        let (length, behind) = number(rest).ok_or("Car(BadLength)")?;
        let length = usize::try_from(length).map_err(|_| "Car(Truncated)")?;
        let (section, behind) = behind.split_at_checked(length).ok_or("Car(Truncated)")?;
        found.push((own(section).ok_or("Car(BadCid)")?, &section[36..]));
        rest = behind;
    }
    Ok((root, found))
}

/// The root of a file and its blocks, each hashed.
pub fn read(file: &[u8]) -> Result<(&Cid, Blocks<'_>), &'static str> {
    let (root, sections) = sections(file)?;
    if sections.iter().any(|(cid, block)| cid::of(block) != **cid) {
        return Err("Misnamed");
    }
    let mut blocks = Blocks::with_capacity_and_hasher(sections.len(), Default::default());
    blocks.extend(sections);
    Ok((root, blocks))
}
