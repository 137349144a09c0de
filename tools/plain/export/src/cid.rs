//! CIDs of the AT Protocol's blocks: version 1, DAG-CBOR, SHA-256.

use crate::sha256;
use std::collections::HashMap;
use std::hash::{BuildHasherDefault, Hasher};

pub type Cid = [u8; 36];

pub const PREFIX: [u8; 4] = [0x01, 0x71, 0x12, 0x20];

pub fn of(block: &[u8]) -> Cid {
    let mut cid = [0; 36];
    cid[..4].copy_from_slice(&PREFIX);
    cid[4..].copy_from_slice(&sha256::digest(block));
    cid
}

pub fn text(cid: &Cid) -> String {
    const LETTERS: &[u8; 32] = b"abcdefghijklmnopqrstuvwxyz234567";
    let mut text = String::from("b");
    let (mut bits, mut count) = (0u32, 0);
    for byte in cid {
        bits = bits << 8 | u32::from(*byte);
        count += 8;
        while count >= 5 {
            count -= 5;
            text.push(LETTERS[(bits >> count) as usize & 31] as char);
        }
    }
    text.push(LETTERS[(bits << (5 - count)) as usize & 31] as char);
    text
}

/// Eight bytes of a digest, which serve as a hash once each block is known to have its CID.
#[derive(Default)]
pub struct OfDigest(u64);

impl Hasher for OfDigest {
    fn write(&mut self, bytes: &[u8]) {
        if let Some(word) = bytes.get(8..16) {
            self.0 = u64::from_le_bytes(word.try_into().unwrap());
        }
    }

    fn finish(&self) -> u64 {
        self.0
    }
}

/// The blocks of a file by their CIDs, which the file lends too.
pub type Blocks<'f> = HashMap<&'f Cid, &'f [u8], BuildHasherDefault<OfDigest>>;
