//! Trees: the pairs that the nodes of a file list, and the nodes that these pairs have.

use crate::cbor::Cursor;
use crate::build::build;
use crate::cid::{Blocks, Cid};
use crate::commit::{link, link_or_null};

/// Keys behind each other, and for each where it ends and the CID of its record.
#[derive(Default)]
pub struct Pairs<'f> {
    keys: Vec<u8>,
    ends: Vec<(usize, &'f Cid)>,
}

impl<'f> Pairs<'f> {
    pub fn len(&self) -> usize {
        self.ends.len()
    }

    pub fn key(&self, at: usize) -> &[u8] {
        let begin = if at == 0 { 0 } else { self.ends[at - 1].0 };
        &self.keys[begin..self.ends[at].0]
    }

    pub fn value(&self, at: usize) -> &'f Cid {
        self.ends[at].1
    }

    fn push(&mut self, key: &[u8], value: &'f Cid) -> Option<()> {
        let last = if self.len() == 0 { &[] } else { self.key(self.len() - 1) };
        if key <= last {
            return None;
        }
        self.keys.extend_from_slice(key);
        self.ends.push((self.keys.len(), value));
        Some(())
    }
}

/// The pairs below a node, in order; `None` where the blocks aren't those of a tree. It needn't see that they are all of it.
pub fn listed<'f>(blocks: &Blocks<'f>, pairs: &mut Pairs<'f>, node: &Cid, most: usize, is_top: bool) -> Option<()> {
    let mut cursor = Cursor(blocks.get(node)?);
    cursor.exactly(b"\xa2\x61e")?;
    let count = cursor.argument(4)?;
    // The link before all stands at the end of a node.
    let end = cursor.0.len();
    let left = match cursor.0.get(end.checked_sub(3)?..)? {
        b"\x61l\xf6" => None,
        _ => {
            let mut last = Cursor(cursor.0.get(end.checked_sub(43)?..)?);
            last.exactly(b"\x61l")?;
            Some(link(&mut last)?)
        }
    };
    if count == 0 && left.is_none() && !is_top {
        return None;
    }
    below(blocks, pairs, left, most)?;
    let mut key = Vec::new();
    for _ in 0..count {
        cursor.exactly(b"\xa4\x61k")?;
        let rest = cursor.string(2)?;
        cursor.exactly(b"\x61p")?;
        let same = usize::try_from(cursor.argument(0)?).ok().filter(|same| *same <= key.len())?;
        cursor.exactly(b"\x61t")?;
        let behind = link_or_null(&mut cursor)?;
        cursor.exactly(b"\x61v")?;
        let value = link(&mut cursor)?;
        key.truncate(same);
        key.extend_from_slice(rest);
        if key.len() > 1024 {
            return None;
        }
        pairs.push(&key, value)?;
        below(blocks, pairs, behind, most)?;
    }
    cursor.exactly(b"\x61l")?;
    link_or_null(&mut cursor)?;
    cursor.0.is_empty().then_some(())
}

fn below<'f>(blocks: &Blocks<'f>, pairs: &mut Pairs<'f>, link: Option<&Cid>, most: usize) -> Option<()> {
    match link {
        None => Some(()),
        Some(node) => listed(blocks, pairs, node, most.checked_sub(1)?, false),
    }
}

/// Whether the tree of these pairs has this root, and all of its nodes are here.
pub fn is_rebuilt(blocks: &Blocks<'_>, pairs: &Pairs<'_>, root: &Cid) -> bool {
    let pair = |at| (pairs.key(at), pairs.value(at));
    build(pairs.len(), pair, |cid, block| blocks.get(cid) == Some(&block)) == Some(*root)
}
