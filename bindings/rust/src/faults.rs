//! The numbers that calls answer, as enums.
use crate::values::Cid;
use std::{error::Error, fmt};

/// The header's names of numbers, without `TIZULGECH_`.
type Names = &'static [(u8, &'static str)];

const OF_ALL: Names = &[
    (1, "TRUNCATED"),
    (2, "LONG_HEAD"),
    (3, "INDEFINITE"),
    (4, "BAD_TAG"),
    (5, "BAD_LINK"),
    (6, "KEY_NOT_TEXT"),
    (7, "KEY_ORDER"),
    (8, "BAD_UTF8"),
    (9, "FLOAT"),
    (10, "SIMPLE"),
    (11, "INTEGER_RANGE"),
    (12, "TOO_DEEP"),
    (13, "TRAILING"),
    (20, "BAD_KEY"),
    (21, "NOT_A_MAP"),
    (22, "RECORD_SIZE"),
    (23, "KEY_EXISTS"),
    (24, "NONE"),
    (25, "WRITES_FULL"),
    (26, "EMPTY_BATCH"),
    (27, "BAD_DID"),
    (28, "BAD_REV"),
    (29, "REV_ORDER"),
    (30, "BAD_NODE"),
    (31, "TOO_MANY_NODES"),
    (32, "NOT_BUILT"),
    (33, "OTHER_VALUE"),
    (34, "OTHER_ROOT"),
    (35, "NOT_TREE"),
    (60, "NOT_JSON"),
    (61, "DOUBLED_KEY"),
    (62, "JSON_FLOAT"),
    (63, "JSON_RANGE"),
    (64, "JSON_LINK"),
    (65, "JSON_BYTES"),
    (66, "JSON_DOLLAR"),
    (67, "JSON_DEPTH"),
    (68, "JSON_NOT_A_MAP"),
    (69, "NO_JSON_FORM"),
    (70, "NOT_THE_TREE"),
    (100, "NOT_A_COMMIT"),
    (101, "COMMIT_DID"),
    (102, "COMMIT_REV"),
    (103, "CAR_HEADER"),
    (104, "CAR_LENGTH"),
    (105, "CAR_TRUNCATED"),
    (106, "CAR_CID"),
    (107, "MESSAGE_SIZE"),
    (108, "NOT_A_MESSAGE"),
    (109, "MESSAGE_CBOR"),
    (110, "MESSAGE_NOT_A_MAP"),
    (111, "BAD_FIELD"),
    (112, "REBASE"),
    (113, "TOO_BIG"),
    (114, "TOO_MANY_OPS"),
    (115, "BLOCKS_SIZE"),
    (116, "BAD_SINCE"),
    (117, "SINCE_ORDER"),
    (118, "BAD_TIME"),
    (119, "BAD_OP"),
    (120, "DOUBLED_PATH"),
    (121, "OTHER_PREVIOUS"),
    (122, "NOT_THE_ROOT"),
    (123, "MISNAMED"),
    (124, "COMMIT_MISSING"),
    (125, "OTHER_DID"),
    (126, "OTHER_REV"),
    (127, "RECORD_MISSING"),
    (128, "MESSAGE_RECORD_SIZE"),
    (129, "NODE_MISSING"),
    (130, "ROOT_MOVED"),
    (131, "BAD_SEQ"),
    (132, "NO_BATCH"),
    (252, "BAD"),
    (253, "CLASH"),
    (254, "FULL"),
    (255, "NO_MEMORY"),
];
/// Those that say something else of the text of a CID, and of a tree.
const OF_CIDS: Names = &[(1, "CID_LENGTH"), (2, "CID_PREFIX"), (3, "CID_LETTER"), (4, "CID_BITS"), (5, "CID_PROFILE")];
const OF_TREES: Names = &[(2, "MISSING"), (3, "NOT_ASCENDING")];

/// The name of a number in a list, or else among those of all calls.
fn name_in(names: Names, number: u8) -> &'static str {
    let found = names.iter().chain(OF_ALL).find(|(own, _)| *own == number);
    found.map_or("", |(_, name)| name)
}

macro_rules! faults {
    ($(#[$doc:meta])* $name:ident { $($variant:ident = $number:literal $text:literal,)* } named by $names:ident) => {
        $(#[$doc])*
        #[derive(Clone, Copy, Debug, PartialEq, Eq, Hash)]
        #[non_exhaustive]
        pub enum $name { $(#[doc = $text] $variant,)* }
        impl $name {
            pub(crate) fn of(number: u8) -> $name {
                match number { $($number => $name::$variant,)* number => unreachable!("number {number}") }
            }

            /// The number that the C header has for it.
            pub fn number(&self) -> u8 {
                match self { $($name::$variant => $number,)* }
            }

            /// The name that the C header has for it, without `TIZULGECH_`.
            pub fn name(&self) -> &'static str {
                name_in($names, self.number())
            }
        }
        impl fmt::Display for $name {
            fn fmt(&self, f: &mut fmt::Formatter<'_>) -> fmt::Result {
                f.write_str(match self { $($name::$variant => $text,)* })
            }
        }
        impl Error for $name {}
    };
}

faults! {
    /// Why bytes are no record (DAG-CBOR).
    RecordFault {
        Truncated = 1 "the bytes end within a value",
        LongHead = 2 "a head is longer than it needs to be",
        Indefinite = 3 "an indefinite length",
        BadTag = 4 "a tag that isn't 42",
        BadLink = 5 "a link that is no CID",
        KeyNotText = 6 "a key of a map that isn't text",
        KeyOrder = 7 "keys of a map that are out of order or stand twice",
        BadUtf8 = 8 "text that isn't UTF-8",
        Float = 9 "a floating-point number",
        Simple = 10 "a simple value",
        IntegerRange = 11 "an integer outside of 64 bits with sign",
        TooDeep = 12 "values that are nested too deep",
        Trailing = 13 "bytes after the value",
        NoMemory = 255 "out of memory",
    } named by OF_ALL
}
faults! {
    /// Why text is no CID of this profile.
    CidFault {
        BadLength = 1 "the text doesn't have 59 letters",
        BadPrefix = 2 "the text doesn't begin with b",
        BadLetter = 3 "a letter that base32 doesn't have",
        BadBits = 4 "bits behind the last byte",
        NotThisProfile = 5 "not a CIDv1 of DAG-CBOR with SHA-256",
    } named by OF_CIDS
}
faults! {
    /// Why a stamp isn't taken.
    StampFault {
        BadDid = 27 "the DID is not one",
        BadRev = 28 "the revision is not a timestamp identifier",
        RevOrder = 29 "the revision is not after the last one",
    } named by OF_ALL
}
faults! {
    /// Why there is no root or no file of a listing.
    TreeFault {
        NotAscending = 3 "the keys don't ascend",
        NotBuilt = 32 "a repository doesn't take these records",
        Bad = 252 "an argument that is none",
        Clash = 253 "two blocks clash",
        StoreFull = 254 "the store is full",
        NoMemory = 255 "out of memory",
    } named by OF_TREES
}
faults! {
    /// Why blocks prove nothing of a key.
    ProofFault {
        BlockMissing = 2 "a block of the path is missing",
        KeyLength = 20 "a key has no bytes or more than 1,024",
        BadNode = 30 "a block of the path is no node",
        TooDeep = 31 "the path is longer than any tree is deep",
        NoMemory = 255 "out of memory",
    } named by OF_TREES
}
faults! {
    /// Why nothing stands below some bytes.
    NodeFault {
        BadNode = 30 "a block is no node",
        NoMemory = 255 "out of memory",
    } named by OF_TREES
}
faults! {
    /// What is wrong with a text that is to be a record as JSON.
    JsonFault {
        NotJson = 60 "the text is not JSON",
        DoubledKey = 61 "a key stands twice in an object",
        Float = 62 "a number has a point or an exponent",
        IntegerRange = 63 "a whole number is outside of -(2^53 - 1) to 2^53 - 1",
        BadLink = 64 "a link holds no CID of version 1 in base 32",
        BadBytes = 65 "bytes are not in base 64",
        BadDollar = 66 "an object with $link or $bytes has other keys",
        TooDeep = 67 "lists and maps lie more than 64 levels deep",
        NotAMap = 68 "the value is not a map",
        NoMemory = 255 "out of memory",
    } named by OF_ALL
}
faults! {
    /// Why bytes are no link's CID, or a text is none's.
    LinkFault {
        Bad = 252 "not a CID of version 1",
        NoMemory = 255 "out of memory",
    } named by OF_ALL
}

/// A record's text isn't taken: its first fault, and the way to it.
#[derive(Clone, Debug, PartialEq, Eq)]
pub struct JsonError {
    /// What is wrong.
    pub fault: JsonFault,
    /// The way to it from the outside, `.key` and `[place]`; empty where the whole text is faulty.
    pub path: String,
}

impl fmt::Display for JsonError {
    fn fmt(&self, f: &mut fmt::Formatter<'_>) -> fmt::Result {
        if self.path.is_empty() { self.fault.fmt(f) } else { write!(f, "{}: {}", self.path, self.fault) }
    }
}
impl Error for JsonError {}

/// Why a record has no JSON text.
#[derive(Clone, Copy, Debug, PartialEq, Eq)]
#[non_exhaustive]
pub enum RecordJsonFault {
    /// The bytes are no value in DAG-CBOR.
    BadRecord(RecordFault),
    /// It has a whole number outside of -(2^53 - 1) to 2^53 - 1, a link that isn't of version 1, or a key `$link` or `$bytes`.
    NoForm,
}

impl RecordJsonFault {
    pub(crate) fn of(number: u8) -> RecordJsonFault {
        use RecordJsonFault::*;
        match number {
            69 => NoForm,
            number => BadRecord(RecordFault::of(number)),
        }
    }

    /// The number that the C header has for it.
    pub fn number(&self) -> u8 {
        match self {
            RecordJsonFault::BadRecord(fault) => fault.number(),
            RecordJsonFault::NoForm => 69,
        }
    }

    /// The name that the C header has for it, without `TIZULGECH_`.
    pub fn name(&self) -> &'static str {
        name_in(OF_ALL, self.number())
    }
}

impl fmt::Display for RecordJsonFault {
    fn fmt(&self, f: &mut fmt::Formatter<'_>) -> fmt::Result {
        match self {
            RecordJsonFault::BadRecord(fault) => fault.fmt(f),
            RecordJsonFault::NoForm => f.write_str("the record has no JSON form"),
        }
    }
}
impl Error for RecordJsonFault {}

/// A file isn't the export of a repository: its first fault.
#[derive(Clone, Copy, Debug, PartialEq, Eq)]
pub struct CheckError {
    /// The place of the record that isn't taken, from 0; 0 where something else is faulty.
    pub place: usize,
    /// What is wrong.
    pub fault: CheckFault,
}

/// What is wrong with a file that is to be the export of a repository, in the order of the tests.
#[derive(Clone, Copy, Debug, PartialEq, Eq)]
#[non_exhaustive]
pub enum CheckFault {
    /// It doesn't begin as a CAR with one root.
    CarHeader,
    /// The length of a section is no number in its shortest form.
    CarLength,
    /// It ends within a section.
    CarTruncated,
    /// A section doesn't begin with a CID of a block.
    CarCid,
    /// The CID of a section isn't that of its block.
    Misnamed,
    /// It hasn't the block that its header names.
    CommitMissing,
    /// That block isn't a signed commit.
    NotACommit,
    /// The commit's DID isn't one.
    CommitDid,
    /// The commit's revision isn't a timestamp identifier.
    CommitRev,
    /// It hasn't the whole tree that the commit names.
    NotTheTree,
    /// A key isn't that of a record.
    BadKey,
    /// It hasn't a record.
    RecordMissing,
    /// A record has more than 1,048,576 bytes.
    RecordSize,
    /// A record isn't DAG-CBOR.
    BadRecord(RecordFault),
    /// A record is no map.
    NotAMap,
    /// The limit of the repository that was to be opened isn't 1 to 1,048,576: of [`Repository::open_car`](crate::Repository::open_car) alone.
    Limit,
    /// It has more records than that limit.
    WritesFull,
    /// Two different blocks have one CID.
    Clash,
    /// The repository's store is full.
    StoreFull,
    /// Memory was refused.
    NoMemory,
}

impl CheckFault {
    pub(crate) fn of(number: u8) -> CheckFault {
        use CheckFault::*;
        match number {
            20 => BadKey,
            21 => NotAMap,
            22 => RecordSize,
            25 => WritesFull,
            101 => CommitDid,
            102 => CommitRev,
            103 => CarHeader,
            104 => CarLength,
            105 => CarTruncated,
            106 => CarCid,
            123 => Misnamed,
            124 => CommitMissing,
            100 => NotACommit,
            70 => NotTheTree,
            127 => RecordMissing,
            252 => Limit,
            253 => Clash,
            254 => StoreFull,
            255 => NoMemory,
            number => BadRecord(RecordFault::of(number)),
        }
    }

    /// The number that the C header has for it.
    pub fn number(&self) -> u8 {
        match self {
            CheckFault::BadRecord(fault) => fault.number(),
            CheckFault::BadKey => 20,
            CheckFault::NotAMap => 21,
            CheckFault::RecordSize => 22,
            CheckFault::WritesFull => 25,
            CheckFault::CommitDid => 101,
            CheckFault::CommitRev => 102,
            CheckFault::CarHeader => 103,
            CheckFault::CarLength => 104,
            CheckFault::CarTruncated => 105,
            CheckFault::CarCid => 106,
            CheckFault::Misnamed => 123,
            CheckFault::CommitMissing => 124,
            CheckFault::NotACommit => 100,
            CheckFault::NotTheTree => 70,
            CheckFault::RecordMissing => 127,
            CheckFault::Limit => 252,
            CheckFault::Clash => 253,
            CheckFault::StoreFull => 254,
            CheckFault::NoMemory => 255,
        }
    }

    /// The name that the C header has for it, without `TIZULGECH_`.
    pub fn name(&self) -> &'static str {
        name_in(OF_ALL, self.number())
    }
}

impl fmt::Display for CheckError {
    fn fmt(&self, f: &mut fmt::Formatter<'_>) -> fmt::Result {
        use CheckFault::*;
        let text = match self.fault {
            CarHeader => "the file does not begin as a CAR with one root",
            CarLength => "the length of a section is not a number in its shortest form",
            CarTruncated => "the file ends within a section",
            CarCid => "a section does not begin with a CID of a block",
            Misnamed => "the CID of a section is not that of its block",
            CommitMissing => "the root is not in the file",
            NotACommit => "the root is not a signed commit",
            CommitDid => "the DID is not one",
            CommitRev => "the revision is not a timestamp identifier",
            NotTheTree => "the file does not have a whole tree under its commit",
            BadKey => return write!(f, "record {}: the key is not that of a record", self.place),
            RecordMissing => return write!(f, "record {}: it is not in the file", self.place),
            RecordSize => return write!(f, "record {}: it is too long", self.place),
            BadRecord(fault) => return write!(f, "record {}: it is not DAG-CBOR: {fault}", self.place),
            NotAMap => return write!(f, "record {}: it is not a map", self.place),
            Limit => "a repository may have 1 to 1,048,576 writes",
            WritesFull => "the file has more records than the repository takes",
            Clash => "two different blocks have one CID",
            StoreFull => "the store is full",
            NoMemory => "out of memory",
        };
        f.write_str(text)
    }
}
impl Error for CheckError {}

faults! {
    /// Why there is no next timestamp identifier.
    TidFault {
        BadRev = 28 "the last one is not a timestamp identifier",
        RevOrder = 29 "there is none after the last one",
        Bad = 252 "the microseconds or the clock are out of range",
    } named by OF_ALL
}
faults! {
    /// Why bytes are no signed commit.
    CommitFault {
        NotACommit = 100 "the bytes are not those of a signed commit",
        CommitDid = 101 "the DID of the commit is not one",
        CommitRev = 102 "the revision of the commit is not a timestamp identifier",
        NoMemory = 255 "out of memory",
    } named by OF_ALL
}
faults! {
    /// Why a message `#commit` isn't taken.
    MessageFault {
        Truncated = 1 "the bytes end within a value",
        LongHead = 2 "a head is longer than it needs to be",
        Indefinite = 3 "an indefinite length",
        BadTag = 4 "a tag that isn't 42",
        BadLink = 5 "a link that is no CID",
        KeyNotText = 6 "a key of a map that isn't text",
        KeyOrder = 7 "keys of a map that are out of order or stand twice",
        BadUtf8 = 8 "text that isn't UTF-8",
        Float = 9 "a floating-point number",
        Simple = 10 "a simple value",
        IntegerRange = 11 "an integer outside of 64 bits with sign",
        TooDeep = 12 "values that are nested too deep",
        Trailing = 13 "bytes after the value",
        NotAMap = 21 "the record is not a map",
        RecordSize = 22 "the record is too long",
        BadDid = 27 "the DID is not one",
        BadRev = 28 "the revision is not a timestamp identifier",
        BadNode = 30 "a block is no node",
        TooManyNodes = 31 "the path is longer than any tree is deep",
        OtherValue = 33 "a key has another value",
        OtherRoot = 34 "the changes lead to another root",
        NotTree = 35 "the nodes aren't a tree's",
        NotACommit = 100 "the bytes are not those of a signed commit",
        CommitDid = 101 "the DID of the commit is not one",
        CommitRev = 102 "the revision of the commit is not a timestamp identifier",
        CarHeader = 103 "the file does not begin as a CAR with one root",
        CarLength = 104 "the length of a section is not a number in its shortest form",
        CarTruncated = 105 "the file ends within a section",
        CarCid = 106 "a section does not begin with a CID of a block",
        MessageSize = 107 "the message is too long",
        NotAMessage = 108 "no message #commit",
        MessageCbor = 109 "the message is not DAG-CBOR",
        MessageNotAMap = 110 "the message is no map",
        BadField = 111 "a field is missing or of another kind",
        Rebase = 112 "a rebase",
        TooBig = 113 "the message does not hold all",
        TooManyOps = 114 "too many operations",
        BlocksSize = 115 "the blocks have too many bytes",
        BadSince = 116 "the revision before is not a timestamp identifier",
        SinceOrder = 117 "the revision is not after the one before",
        BadTime = 118 "the time is none",
        BadOp = 119 "an operation is none",
        DoubledPath = 120 "an operation has the path of another",
        OtherPrevious = 121 "the repository had another root before",
        NotTheRoot = 122 "the root of the blocks is not the commit",
        Misnamed = 123 "a block has another CID",
        CommitMissing = 124 "the commit is not among the blocks",
        OtherDid = 125 "the commit is of another repository",
        OtherRev = 126 "the commit has another revision",
        RecordMissing = 127 "the record of an operation is missing",
        MessageRecordSize = 128 "the record of an operation is too long for a message",
        NodeMissing = 129 "a node that is needed is not in the message",
        NoMemory = 255 "out of memory",
    } named by OF_ALL
}
faults! {
    /// Why a signed batch isn't accepted. Nothing has changed then.
    SigningFault {
        Truncated = 1 "the bytes end within a value",
        LongHead = 2 "a head is longer than it needs to be",
        Indefinite = 3 "an indefinite length",
        BadTag = 4 "a tag that isn't 42",
        BadLink = 5 "a link that is no CID",
        KeyNotText = 6 "a key of a map that isn't text",
        KeyOrder = 7 "keys of a map that are out of order or stand twice",
        BadUtf8 = 8 "text that isn't UTF-8",
        Float = 9 "a floating-point number",
        Simple = 10 "a simple value",
        IntegerRange = 11 "an integer outside of 64 bits with sign",
        TooDeep = 12 "values that are nested too deep",
        Trailing = 13 "bytes after the value",
        BadKey = 20 "the key is not that of a record",
        NotAMap = 21 "the record is not a map",
        RecordSize = 22 "the record is too long",
        KeyExists = 23 "the key is there already",
        NoSuchKey = 24 "there is no such key",
        WritesFull = 25 "the repository takes no more writes",
        EmptyBatch = 26 "the batch is empty",
        BadDid = 27 "the DID is not one",
        BadRev = 28 "the revision is not a timestamp identifier",
        RevOrder = 29 "the revision is not after the last one",
        OtherValue = 33 "a key has another value",
        MessageSize = 107 "the message is too long",
        NotAMessage = 108 "no message #commit",
        MessageCbor = 109 "the message is not DAG-CBOR",
        MessageNotAMap = 110 "the message is no map",
        BadField = 111 "a field is missing or of another kind",
        Rebase = 112 "a rebase",
        TooBig = 113 "the message does not hold all",
        TooManyOps = 114 "too many operations",
        BlocksSize = 115 "the blocks have too many bytes",
        BadSince = 116 "the revision before is not a timestamp identifier",
        SinceOrder = 117 "the revision is not after the one before",
        BadTime = 118 "the time is none",
        BadOp = 119 "an operation is none",
        MessageRecordSize = 128 "the record of an operation is too long for a message",
        RootMoved = 130 "the repository has another root than was signed over",
        BadSeq = 131 "the number is none of the stream",
        NoBatch = 132 "the repository has no batch",
        Clash = 253 "two blocks clash",
        StoreFull = 254 "the store is full",
        NoMemory = 255 "out of memory",
    } named by OF_ALL
}
/// Why a message isn't taken, and where.
#[derive(Clone, Copy, Debug, PartialEq, Eq)]
pub struct MessageError {
    /// The first fault.
    pub fault: MessageFault,
    /// The place of an operation, or of a field in the order of DAG-CBOR; of `MessageCbor` the number of a [`RecordFault`]; else 0.
    pub place: usize,
    /// The CID of the node that is missing, or is none.
    pub node: Option<Cid>,
}

impl fmt::Display for MessageError {
    fn fmt(&self, f: &mut fmt::Formatter<'_>) -> fmt::Result {
        write!(f, "{} ({}, at {})", self.fault, self.fault.name(), self.place)
    }
}
impl Error for MessageError {}

/// Why a signed batch isn't accepted, and where.
#[derive(Clone, Copy, Debug, PartialEq, Eq)]
pub struct SigningError {
    /// The place of a write, or of an operation of the message, from 0; else 0.
    pub place: usize,
    /// The first fault.
    pub fault: SigningFault,
}

impl fmt::Display for SigningError {
    fn fmt(&self, f: &mut fmt::Formatter<'_>) -> fmt::Result {
        write!(f, "{} ({}, at {})", self.fault, self.fault.name(), self.place)
    }
}
impl Error for SigningError {}

/// Why blocks don't show some changes.
///
/// Whose nodes are given is the tree before for `ChangeProof::verify`, and the tree after for `InversionProof::verify`.
#[derive(Clone, Copy, Debug, PartialEq, Eq)]
#[non_exhaustive]
pub enum ChangeFault {
    /// The keys don't ascend strictly, or one has no bytes or more than 1,024.
    BadKeys,
    /// The node with this CID is needed, and not given.
    Missing(Cid),
    /// What is given for this CID is no node.
    BadNode(Cid),
    /// A link stands below layer 0.
    TooDeep,
    /// The nodes aren't a tree's: keys would not ascend in a node, or more nodes are needed than a tree has for it.
    NotTree,
    /// The key of the change at this place has another value in the tree whose nodes are given.
    OtherValue(usize),
    /// The changes lead to another root: done to another one than that after, or undone to another one than that before.
    OtherRoot,
    /// Memory was refused.
    NoMemory,
}

impl ChangeFault {
    pub(crate) fn of(number: u8, cid: Cid, place: usize) -> ChangeFault {
        use ChangeFault::*;
        match number {
            2 => Missing(cid),
            30 => BadNode(cid),
            31 => TooDeep,
            33 => OtherValue(place),
            34 => OtherRoot,
            35 => NotTree,
            252 => BadKeys,
            _ => NoMemory,
        }
    }

    /// The number that the C header has for it.
    pub fn number(&self) -> u8 {
        match self {
            ChangeFault::Missing(_) => 2,
            ChangeFault::BadNode(_) => 30,
            ChangeFault::TooDeep => 31,
            ChangeFault::OtherValue(_) => 33,
            ChangeFault::OtherRoot => 34,
            ChangeFault::NotTree => 35,
            ChangeFault::BadKeys => 252,
            ChangeFault::NoMemory => 255,
        }
    }

    /// The name that the C header has for it, without `TIZULGECH_`.
    pub fn name(&self) -> &'static str {
        name_in(OF_TREES, self.number())
    }
}

impl fmt::Display for ChangeFault {
    fn fmt(&self, f: &mut fmt::Formatter<'_>) -> fmt::Result {
        use ChangeFault::*;
        match self {
            BadKeys => f.write_str("the keys don't ascend, or one is none"),
            Missing(cid) => write!(f, "there is no node {cid}"),
            BadNode(cid) => write!(f, "there is a block and no node {cid}"),
            TooDeep => f.write_str("a link stands below layer 0"),
            NotTree => f.write_str("the nodes aren't a tree's"),
            OtherValue(place) => write!(f, "the key of change {place} has another value"),
            OtherRoot => f.write_str("the changes lead to another root"),
            NoMemory => f.write_str("out of memory"),
        }
    }
}
impl Error for ChangeFault {}

/// Why a repository doesn't prove some changes.
#[derive(Clone, Copy, Debug, PartialEq, Eq)]
#[non_exhaustive]
pub enum ProvingFault {
    /// The keys don't ascend strictly, or one has no bytes or more than 1,024.
    BadKeys,
    /// The key of the change at this place has another value now than what is told after it: of `Repository::prove_inversion` alone.
    OtherValue(usize),
    /// Memory was refused.
    NoMemory,
}

impl ProvingFault {
    pub(crate) fn of(number: u8, place: usize) -> ProvingFault {
        use ProvingFault::*;
        match number {
            33 => OtherValue(place),
            252 => BadKeys,
            _ => NoMemory,
        }
    }

    /// The number that the C header has for it.
    pub fn number(&self) -> u8 {
        match self {
            ProvingFault::OtherValue(_) => 33,
            ProvingFault::BadKeys => 252,
            ProvingFault::NoMemory => 255,
        }
    }

    /// The name that the C header has for it, without `TIZULGECH_`.
    pub fn name(&self) -> &'static str {
        name_in(OF_TREES, self.number())
    }
}

impl fmt::Display for ProvingFault {
    fn fmt(&self, f: &mut fmt::Formatter<'_>) -> fmt::Result {
        match self {
            ProvingFault::BadKeys => f.write_str("the keys don't ascend, or one is none"),
            ProvingFault::OtherValue(place) => write!(f, "the key of change {place} has another value"),
            ProvingFault::NoMemory => f.write_str("out of memory"),
        }
    }
}
impl Error for ProvingFault {}

/// Why there is no edit or no value. `E` is the fault of whoever gives the nodes.
#[derive(Clone, Debug, PartialEq, Eq)]
#[non_exhaustive]
pub enum EditError<E> {
    /// A key has 1 to 1,024 bytes, and the keys of a batch ascend.
    BadKeys,
    /// There is no node with this CID.
    Missing(Cid),
    /// What is given for this CID is no node, or not the one of this CID.
    BadNode(Cid),
    /// A link stands below layer 0.
    TooDeep,
    /// The nodes aren't a tree's: keys would not ascend in a node, or more nodes are needed than a tree has for it.
    NotTree,
    /// Two nodes have one CID.
    Clash,
    /// Memory was refused.
    NoMemory,
    /// The fault of whoever gives the nodes.
    Source(E),
}

impl<E> EditError<E> {
    pub(crate) fn of(number: u8, cid: Cid) -> EditError<E> {
        use EditError::*;
        match number {
            2 => Missing(cid),
            30 => BadNode(cid),
            31 => TooDeep,
            35 => NotTree,
            252 => BadKeys,
            253 => Clash,
            _ => NoMemory,
        }
    }

    /// The number that the C header has for it; none for the fault of whoever gives the nodes.
    pub fn number(&self) -> Option<u8> {
        Some(match self {
            EditError::Missing(_) => 2,
            EditError::BadNode(_) => 30,
            EditError::TooDeep => 31,
            EditError::NotTree => 35,
            EditError::BadKeys => 252,
            EditError::Clash => 253,
            EditError::NoMemory => 255,
            EditError::Source(_) => return None,
        })
    }

    /// The name that the C header has for it, without `TIZULGECH_`; none for the fault of whoever gives the nodes.
    pub fn name(&self) -> Option<&'static str> {
        self.number().map(|number| name_in(OF_TREES, number))
    }
}

impl<E: fmt::Display> fmt::Display for EditError<E> {
    fn fmt(&self, f: &mut fmt::Formatter<'_>) -> fmt::Result {
        match self {
            EditError::BadKeys => f.write_str("keys have 1 to 1,024 bytes and ascend"),
            EditError::Missing(cid) => write!(f, "there is no node {cid}"),
            EditError::BadNode(cid) => write!(f, "what is given for {cid} is not its node"),
            EditError::TooDeep => f.write_str("a link stands below layer 0"),
            EditError::NotTree => f.write_str("the nodes aren't a tree's"),
            EditError::Clash => f.write_str("two different nodes have one CID"),
            EditError::NoMemory => f.write_str("out of memory"),
            EditError::Source(fault) => fault.fmt(f),
        }
    }
}

impl<E: Error + 'static> Error for EditError<E> {
    fn source(&self) -> Option<&(dyn Error + 'static)> {
        match self {
            EditError::Source(fault) => Some(fault),
            _ => None,
        }
    }
}

/// Memory was refused.
#[derive(Clone, Copy, Debug, PartialEq, Eq)]
pub struct NoMemory;

impl fmt::Display for NoMemory {
    fn fmt(&self, f: &mut fmt::Formatter<'_>) -> fmt::Result {
        f.write_str("out of memory")
    }
}
impl Error for NoMemory {}

/// Why a repository wasn't opened.
#[derive(Clone, Copy, Debug, PartialEq, Eq)]
#[non_exhaustive]
pub enum OpenError {
    /// The limit isn't 1 to 1,048,576.
    Limit,
    /// Memory was refused.
    NoMemory,
}

impl OpenError {
    /// The number that the C header has for it.
    pub fn number(&self) -> u8 {
        match self {
            OpenError::Limit => 252,
            OpenError::NoMemory => 255,
        }
    }

    /// The name that the C header has for it, without `TIZULGECH_`.
    pub fn name(&self) -> &'static str {
        name_in(OF_ALL, self.number())
    }
}

impl fmt::Display for OpenError {
    fn fmt(&self, f: &mut fmt::Formatter<'_>) -> fmt::Result {
        f.write_str(match self {
            OpenError::Limit => "a repository may have 1 to 1,048,576 writes",
            OpenError::NoMemory => "out of memory",
        })
    }
}
impl Error for OpenError {}

/// Why a batch was refused. Nothing has changed then.
#[derive(Clone, Copy, Debug, PartialEq, Eq)]
pub struct BatchError {
    /// The place of the refused write, from 0; 0 where the whole batch is refused.
    pub place: usize,
    /// Why it was refused.
    pub fault: BatchFault,
}

/// Why a write, or a batch, was refused.
#[derive(Clone, Copy, Debug, PartialEq, Eq)]
#[non_exhaustive]
pub enum BatchFault {
    /// The record isn't DAG-CBOR.
    BadRecord(RecordFault),
    /// The key isn't that of a record.
    BadKey,
    /// The record is no map.
    NotAMap,
    /// The record has more than 1,048,576 bytes.
    RecordSize,
    /// A create of a key that is there.
    KeyExists,
    /// An update or a delete of a key that isn't there.
    NoSuchKey,
    /// The repository takes no more writes.
    WritesFull,
    /// The batch has no write.
    EmptyBatch,
    /// The stamp's DID isn't one.
    BadDid,
    /// The stamp's revision isn't a timestamp identifier.
    BadRev,
    /// The stamp's revision isn't after the last one.
    RevOrder,
    /// Two different blocks have one CID.
    Clash,
    /// One of the sixteen parts of the repository's store, among which blocks go by their CIDs, has 1,048,576 of them.
    StoreFull,
    /// Memory was refused.
    NoMemory,
}

impl BatchFault {
    pub(crate) fn of(number: u8) -> BatchFault {
        use BatchFault::*;
        match number {
            20 => BadKey,
            21 => NotAMap,
            22 => RecordSize,
            23 => KeyExists,
            24 => NoSuchKey,
            25 => WritesFull,
            26 => EmptyBatch,
            27 => BadDid,
            28 => BadRev,
            29 => RevOrder,
            253 => Clash,
            254 => StoreFull,
            255 => NoMemory,
            number => BadRecord(RecordFault::of(number)),
        }
    }

    /// The number that the C header has for it.
    pub fn number(&self) -> u8 {
        match self {
            BatchFault::BadRecord(fault) => fault.number(),
            BatchFault::BadKey => 20,
            BatchFault::NotAMap => 21,
            BatchFault::RecordSize => 22,
            BatchFault::KeyExists => 23,
            BatchFault::NoSuchKey => 24,
            BatchFault::WritesFull => 25,
            BatchFault::EmptyBatch => 26,
            BatchFault::BadDid => 27,
            BatchFault::BadRev => 28,
            BatchFault::RevOrder => 29,
            BatchFault::Clash => 253,
            BatchFault::StoreFull => 254,
            BatchFault::NoMemory => 255,
        }
    }

    /// The name that the C header has for it, without `TIZULGECH_`.
    pub fn name(&self) -> &'static str {
        name_in(OF_ALL, self.number())
    }
}

impl fmt::Display for BatchError {
    fn fmt(&self, f: &mut fmt::Formatter<'_>) -> fmt::Result {
        use BatchFault::*;
        let text = match self.fault {
            BadRecord(fault) => return write!(f, "write {}: the record is not DAG-CBOR: {fault}", self.place),
            BadKey => "the key is not that of a record",
            NotAMap => "the record is not a map",
            RecordSize => "the record is too long",
            KeyExists => "the key is there already",
            NoSuchKey => "there is no such key",
            WritesFull => "the repository takes no more writes",
            EmptyBatch => "the batch is empty",
            BadDid => "the DID is not one",
            BadRev => "the revision is not a timestamp identifier",
            RevOrder => "the revision is not after the last one",
            Clash => "two different blocks have one CID",
            StoreFull => "the store is full",
            NoMemory => "out of memory",
        };
        write!(f, "write {}: {text}", self.place)
    }
}

impl Error for BatchError {
    fn source(&self) -> Option<&(dyn Error + 'static)> {
        match &self.fault {
            BatchFault::BadRecord(fault) => Some(fault),
            _ => None,
        }
    }
}
