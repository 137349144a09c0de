//! A reader of CAR files, of DAG-CBOR and of trees, by itself: of the library it takes the CID of a block alone.
use std::collections::{BTreeMap, HashMap};
use tizulgech::Cid;

/// A value, as far as commits and nodes have them.
#[derive(Debug, PartialEq)]
enum Value {
    Null,
    Number(u64),
    Bytes(Vec<u8>),
    Text(String),
    List(Vec<Value>),
    Map(BTreeMap<String, Value>),
    Link(Cid),
}

struct Reader<'a>(&'a [u8]);

impl<'a> Reader<'a> {
    fn take(&mut self, count: usize) -> &'a [u8] {
        let (taken, rest) = self.0.split_at(count);
        self.0 = rest;
        taken
    }

    fn cid(&mut self) -> Cid {
        Cid::from_bytes(self.take(36).try_into().unwrap()).expect("a CID")
    }

    /// A number of a CAR: seven bits a byte, the lowest first.
    fn varint(&mut self) -> usize {
        let mut number = 0;
        for place in 0.. {
            let byte = self.take(1)[0] as usize;
            number |= (byte & 0x7f) << (7 * place);
            if byte < 0x80 {
                break;
            }
        }
        number
    }

    fn value(&mut self) -> Value {
        let head = self.take(1)[0];
        let number = match head & 31 {
            small @ 0..24 => small as u64,
            long => self.take(1 << (long - 24)).iter().fold(0, |number, byte| number << 8 | *byte as u64),
        };
        let count = number as usize;
        match head >> 5 {
            0 => Value::Number(number),
            2 => Value::Bytes(self.take(count).to_vec()),
            3 => self.text(count),
            4 => Value::List((0..count).map(|_| self.value()).collect()),
            5 => Value::Map((0..count).map(|_| (self.value().text(), self.value())).collect()),
            6 => {
                assert_eq!((number, self.take(3)), (42, &[0x58, 37, 0][..]));
                Value::Link(self.cid())
            }
            _ => {
                assert_eq!(head, 0xf6);
                Value::Null
            }
        }
    }

    fn text(&mut self, count: usize) -> Value {
        Value::Text(String::from_utf8(self.take(count).to_vec()).unwrap())
    }
}

impl Value {
    fn of(block: &[u8]) -> Value {
        let mut reader = Reader(block);
        let value = reader.value();
        assert!(reader.0.is_empty());
        value
    }

    fn text(self) -> String {
        match self {
            Value::Text(text) => text,
            other => panic!("{other:?}"),
        }
    }

    fn map<const N: usize>(self, keys: [&str; N]) -> [Value; N] {
        match self {
            Value::Map(mut map) => {
                let values = keys.map(|key| map.remove(key).unwrap());
                assert!(map.is_empty());
                values
            }
            other => panic!("{other:?}"),
        }
    }

    fn link(self) -> Cid {
        match self {
            Value::Link(cid) => cid,
            other => panic!("{other:?}"),
        }
    }
}

/// What a CAR file says: its commit, whose revision and root stand in it, and the records of its tree.
#[derive(Debug, PartialEq)]
pub struct Car {
    pub did: String,
    pub rev: String,
    pub commit: Cid,
    pub root: Cid,
    pub records: BTreeMap<String, Vec<u8>>,
    /// How many blocks it has.
    pub blocks: usize,
}

/// Reads a file whole. Its blocks are those of its commit's tree and records, each once, and no others.
pub fn read(file: &[u8]) -> Car {
    let mut reader = Reader(file);
    let head = reader.varint();
    let [roots, version] = Value::of(reader.take(head)).map(["roots", "version"]);
    assert_eq!(version, Value::Number(1));
    let Value::List(mut roots) = roots else { panic!("{roots:?}") };
    let commit = roots.pop().unwrap().link();
    assert!(roots.is_empty());

    let mut blocks = HashMap::new();
    while !reader.0.is_empty() {
        let length = reader.varint();
        let cid = reader.cid();
        let block = reader.take(length - 36);
        assert_eq!(cid, Cid::of(block));
        assert!(blocks.insert(cid, block).is_none(), "a block stands twice");
    }
    let count = blocks.len();

    let [did, rev, data, prev, of_format] =
        Value::of(blocks.remove(&commit).unwrap()).map(["did", "rev", "data", "prev", "version"]);
    assert_eq!((prev, of_format), (Value::Null, Value::Number(3)));
    let root = data.link();
    let mut pairs = Vec::new();
    walk(&mut blocks, root, &mut pairs);
    assert!(pairs.is_sorted_by(|one, other| one.0 < other.0));
    let records = pairs.iter().map(|(key, cid)| (key.clone(), blocks[cid].to_vec())).collect();
    for (_, cid) in pairs {
        blocks.remove(&cid);
    }
    assert!(blocks.is_empty(), "blocks that nothing names");
    Car { did: did.text(), rev: rev.text(), commit, root, records, blocks: count }
}

/// The pairs below a node, whose blocks are taken.
fn walk(blocks: &mut HashMap<Cid, &[u8]>, cid: Cid, pairs: &mut Vec<(String, Cid)>) {
    let [left, entries] = Value::of(blocks.remove(&cid).unwrap()).map(["l", "e"]);
    below(blocks, left, pairs);
    let Value::List(entries) = entries else { panic!("{entries:?}") };
    let mut before = Vec::new();
    for entry in entries {
        let [same, rest, right, value] = entry.map(["p", "k", "t", "v"]);
        let (Value::Number(same), Value::Bytes(rest)) = (same, rest) else { panic!() };
        before.truncate(same as usize);
        before.extend(rest);
        pairs.push((String::from_utf8(before.clone()).unwrap(), value.link()));
        below(blocks, right, pairs);
    }
}

fn below(blocks: &mut HashMap<Cid, &[u8]>, link: Value, pairs: &mut Vec<(String, Cid)>) {
    if link != Value::Null {
        walk(blocks, link.link(), pairs);
    }
}
