//! A place in a tree, in the order of the keys. Nodes are read in place and not tested, as they are the program's own.

use crate::build::layer;
use crate::cid::Cid;
use std::collections::BTreeMap;

pub type Nodes = BTreeMap<Cid, Box<[u8]>>;

/// What stands at a place: a link with the layer of its node, or a pair with this key.
pub enum Head<'c, 'a> {
    Link(&'a Cid, usize),
    Pair(&'c [u8]),
    End,
}

/// What is left of a node: the link that stands at its front, if there is one, else the pair whose key this is.
struct Frame<'a> {
    rest: &'a [u8],
    count: usize,
    link: Option<&'a Cid>,
    key: Vec<u8>,
    value: Option<&'a Cid>,
    behind: Option<&'a Cid>,
    layer: usize,
}

fn head(rest: &mut &[u8]) -> usize {
    let size = match rest[0] & 31 {
        low @ 0..24 => {
            *rest = &rest[1..];
            return usize::from(low);
        }
        low => 1 << (low - 24),
    };
    let number = rest[1..=size].iter().fold(0, |number, byte| number << 8 | usize::from(*byte));
    *rest = &rest[1 + size..];
    number
}

fn link<'a>(rest: &mut &'a [u8]) -> Option<&'a Cid> {
    if rest[0] == 0xf6 {
        *rest = &rest[1..];
        return None;
    }
    let cid = rest[5..41].try_into().expect("36 bytes");
    *rest = &rest[41..];
    Some(cid)
}

impl<'a> Frame<'a> {
    fn of(block: &'a [u8], layer: usize) -> Frame<'a> {
        let mut rest = &block[3..];
        let count = head(&mut rest);
        let mut end = if block.ends_with(b"\x61l\xf6") { &block[block.len() - 1..] } else { &block[block.len() - 41..] };
        let mut frame = Frame { rest, count, link: link(&mut end), key: Vec::new(), value: None, behind: None, layer };
        if frame.link.is_none() {
            frame.next();
        }
        frame
    }

    /// Goes to the next entry, or to the end.
    fn next(&mut self) {
        self.value = None;
        if self.count == 0 {
            return;
        }
        self.count -= 1;
        self.rest = &self.rest[3..];
        let length = head(&mut self.rest);
        let (suffix, rest) = self.rest.split_at(length);
        self.rest = &rest[2..];
        let same = head(&mut self.rest);
        self.key.truncate(same);
        self.key.extend_from_slice(suffix);
        self.rest = &self.rest[2..];
        self.behind = link(&mut self.rest);
        self.rest = &self.rest[2..];
        self.value = link(&mut self.rest);
    }

    fn pass(&mut self) {
        if self.link.take().is_none() {
            self.value = None;
            self.link = self.behind.take();
        }
        if self.link.is_none() {
            self.next();
        }
    }
}

pub struct Cursor<'a> {
    nodes: &'a Nodes,
    root: Option<(&'a Cid, usize)>,
    frames: Vec<Frame<'a>>,
    pub opened: Vec<&'a Cid>,
}

impl<'a> Cursor<'a> {
    pub fn new(nodes: &'a Nodes, root: &'a Cid) -> Cursor<'a> {
        let mut first = Frame::of(&nodes[root], 0);
        if first.link.is_some() {
            first.pass();
        }
        Cursor { nodes, root: Some((root, layer(&first.key))), frames: Vec::new(), opened: Vec::new() }
    }

    pub fn head(&self) -> Head<'_, 'a> {
        if let Some((root, layer)) = self.root {
            return Head::Link(root, layer);
        }
        match self.frames.last() {
            None => Head::End,
            Some(frame) => match (frame.link, frame.value) {
                (Some(link), _) => Head::Link(link, frame.layer - 1),
                (None, Some(_)) => Head::Pair(&frame.key),
                (None, None) => Head::End,
            },
        }
    }

    pub fn key(&self) -> &[u8] {
        self.frames.last().map_or(&[], |frame| &frame.key)
    }

    pub fn value(&self) -> Option<&'a Cid> {
        self.frames.last().and_then(|frame| frame.value)
    }

    /// Passes over what stands here.
    pub fn pass(&mut self) {
        if self.root.take().is_none() {
            if let Some(frame) = self.frames.last_mut() {
                frame.pass();
            }
        }
        self.settle();
    }

    /// Leaves nodes that are at their end.
    fn settle(&mut self) {
        while self.frames.last().is_some_and(|frame| frame.link.is_none() && frame.value.is_none()) {
            self.frames.pop();
        }
    }

    /// Opens the node behind the link that stands here.
    pub fn open(&mut self) {
        let Head::Link(cid, layer) = self.head() else {
            return;
        };
        match self.frames.last_mut() {
            None => self.root = None,
            Some(frame) => frame.pass(),
        }
        self.opened.push(cid);
        self.frames.push(Frame::of(&self.nodes[cid], layer));
        self.settle();
    }
}
