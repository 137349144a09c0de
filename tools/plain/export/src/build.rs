//! The tree of pairs in ascending order, built from left to right: each key and each node is hashed once.

use crate::cid::{self, Cid};
use crate::sha256;

pub fn layer(key: &[u8]) -> usize {
    let digest = sha256::digest(key);
    let zeros = digest.iter().position(|byte| *byte != 0).unwrap_or(32);
    4 * zeros + digest.get(zeros).map_or(0, |byte| byte.leading_zeros() as usize / 2)
}

fn head(out: &mut Vec<u8>, kind: u8, number: usize) {
    let kind = kind << 5;
    match number {
        0..24 => out.push(kind | number as u8),
        24..0x100 => out.extend_from_slice(&[kind | 24, number as u8]),
        0x100..0x1_0000 => {
            out.push(kind | 25);
            out.extend_from_slice(&(number as u16).to_be_bytes());
        }
        _ => {
            out.push(kind | 26);
            out.extend_from_slice(&(number as u32).to_be_bytes());
        }
    }
}

fn put_link(out: &mut Vec<u8>, link: Option<&Cid>) {
    match link {
        None => out.push(0xf6),
        Some(cid) => {
            out.extend_from_slice(b"\xd8\x2a\x58\x25\x00");
            out.extend_from_slice(cid);
        }
    }
}

/// A node that is made from left to right.
#[derive(Default)]
struct Open<'f> {
    entries: Vec<u8>,
    count: usize,
    left: Option<Cid>,
    last_key: usize,
    /// The last entry's value, until the link before it is known.
    value: Option<&'f Cid>,
    /// The node that was closed last, not linked yet.
    below: Option<Cid>,
    is_begun: bool,
}

impl Open<'_> {
    fn settle(&mut self) {
        let below = self.below.take();
        match self.value.take() {
            None => self.left = below,
            Some(value) => {
                put_link(&mut self.entries, below.as_ref());
                self.entries.extend_from_slice(b"\x61v");
                put_link(&mut self.entries, Some(value));
            }
        }
    }

    fn close(&mut self, block: &mut Vec<u8>) {
        self.settle();
        block.clear();
        block.extend_from_slice(b"\xa2\x61e");
        head(block, 4, self.count);
        block.extend_from_slice(&self.entries);
        block.extend_from_slice(b"\x61l");
        put_link(block, self.left.as_ref());
        self.entries.clear();
        self.count = 0;
        self.left = None;
        self.is_begun = false;
    }
}

fn common(a: &[u8], b: &[u8]) -> usize {
    a.iter().zip(b).take_while(|(x, y)| x == y).count()
}

/// Builds the tree of so many pairs, hands each of its nodes over, those below a node first, and answers its root; `None` where a node
/// isn't taken.
pub fn build<'p>(count: usize, pair: impl Fn(usize) -> (&'p [u8], &'p Cid), mut take: impl FnMut(&Cid, &[u8]) -> bool) -> Option<Cid> {
    let mut open: Vec<Open> = vec![Open::default()];
    let mut block = Vec::new();
    // Closes the node of this height and hands it to the one above.
    let mut close = |open: &mut Vec<Open<'p>>, height: usize| {
        open[height].close(&mut block);
        let cid = cid::of(&block);
        if let Some(above) = open.get_mut(height + 1) {
            above.below = Some(cid);
            above.is_begun = true;
        }
        take(&cid, &block).then_some(cid)
    };
    for at in 0..count {
        let (key, value) = pair(at);
        let height = layer(key);
        if open.len() <= height {
            open.resize_with(height + 1, Open::default);
        }
        for low in 0..height {
            if open[low].is_begun {
                close(&mut open, low)?;
            }
        }
        let node = &mut open[height];
        node.settle();
        let same = if node.count == 0 { 0 } else { common(pair(node.last_key).0, key) };
        node.entries.extend_from_slice(b"\xa4\x61k");
        head(&mut node.entries, 2, key.len() - same);
        node.entries.extend_from_slice(&key[same..]);
        node.entries.extend_from_slice(b"\x61p");
        head(&mut node.entries, 0, same);
        node.entries.extend_from_slice(b"\x61t");
        node.value = Some(value);
        node.last_key = at;
        node.count += 1;
        node.is_begun = true;
    }
    let top = open.len() - 1;
    for low in 0..top {
        if open[low].is_begun {
            close(&mut open, low)?;
        }
    }
    close(&mut open, top)
}
