/** The numbers that calls answer: the header's name of each and what it says, and an error for each kind of call. */

export const NONE = 24, BAD_NODE = 30, OTHER_VALUE = 33, MISSING = 2, BELOW = 1, TOO_MANY_NODES = 31, BAD_KEY = 20, NODE_MISSING = 129
export const CLOSED = 250, BUSY = 256, CHANGED = 257

export const OF_RECORDS = {
  1: ['TRUNCATED', 'the bytes end within a value'],
  2: ['LONG_HEAD', 'a head is longer than it needs to be'],
  3: ['INDEFINITE', 'an indefinite length'],
  4: ['BAD_TAG', "a tag that isn't 42"],
  5: ['BAD_LINK', 'a link that is no CID'],
  6: ['KEY_NOT_TEXT', "a key of a map that isn't text"],
  7: ['KEY_ORDER', 'keys of a map that are out of order or stand twice'],
  8: ['BAD_UTF8', "text that isn't UTF-8"],
  9: ['FLOAT', 'a floating-point number'],
  10: ['SIMPLE', 'a simple value'],
  11: ['INTEGER_RANGE', 'an integer outside of 64 bits with sign'],
  12: ['TOO_DEEP', 'values that are nested too deep'],
  13: ['TRAILING', 'bytes after the value'],
}
export const OF_CIDS = {
  1: ['CID_LENGTH', "the text doesn't have 59 letters"],
  2: ['CID_PREFIX', "the text doesn't begin with b"],
  3: ['CID_LETTER', "a letter that base32 doesn't have"],
  4: ['CID_BITS', 'bits behind the last byte'],
  5: ['CID_PROFILE', 'not a CIDv1 of DAG-CBOR with SHA-256'],
}
export const OF_TREES = {
  1: ['BELOW', 'the key is below another node'],
  2: ['MISSING', "a node that is needed isn't there"],
  3: ['NOT_ASCENDING', "the keys don't ascend"],
  20: ['BAD_KEY', 'a key has no bytes or more than 1,024'],
}
const OF_ALL = {
  20: ['BAD_KEY', 'the key is not that of a record'],
  21: ['NOT_A_MAP', 'the record is not a map'],
  22: ['RECORD_SIZE', 'the record is too long'],
  23: ['KEY_EXISTS', 'the key is there already'],
  24: ['NONE', 'there is no such key'],
  25: ['WRITES_FULL', 'the repository takes no more writes'],
  26: ['EMPTY_BATCH', 'the batch is empty'],
  27: ['BAD_DID', 'the DID is not one'],
  28: ['BAD_REV', 'the revision is not a timestamp identifier'],
  29: ['REV_ORDER', 'the revision is not after the last one'],
  30: ['BAD_NODE', 'a block is no node, or not the one of its CID'],
  31: ['TOO_MANY_NODES', 'the path is longer than any tree is deep'],
  32: ['NOT_BUILT', "a repository doesn't take these records"],
  33: ['OTHER_VALUE', 'a key has another value'],
  34: ['OTHER_ROOT', 'the changes lead to another root'],
  35: ['NOT_TREE', "the nodes aren't a tree's"],
  60: ['NOT_JSON', 'the text is not JSON'],
  61: ['DOUBLED_KEY', 'a key stands twice in an object'],
  62: ['JSON_FLOAT', 'a number has a point or an exponent'],
  63: ['JSON_RANGE', 'a whole number is outside of -(2^53 - 1) to 2^53 - 1'],
  64: ['JSON_LINK', 'a link holds no CID of version 1 in base 32'],
  65: ['JSON_BYTES', 'bytes are not in base 64'],
  66: ['JSON_DOLLAR', 'an object with $link or $bytes has other keys'],
  67: ['JSON_DEPTH', 'lists and maps lie more than 64 levels deep'],
  68: ['JSON_NOT_A_MAP', 'the value is not a map'],
  69: ['NO_JSON_FORM', 'the record has no JSON form'],
  70: ['NOT_THE_TREE', 'the file does not have a whole tree under its commit'],
  100: ['NOT_A_COMMIT', 'the bytes are not those of a signed commit'],
  101: ['COMMIT_DID', 'the DID of the commit is not one'],
  102: ['COMMIT_REV', 'the revision of the commit is not a timestamp identifier'],
  103: ['CAR_HEADER', 'the file does not begin as a CAR with one root'],
  104: ['CAR_LENGTH', 'the length of a section is not a number in its shortest form'],
  105: ['CAR_TRUNCATED', 'the file ends within a section'],
  106: ['CAR_CID', 'a section does not begin with a CID of a block'],
  107: ['MESSAGE_SIZE', 'the message is too long'],
  108: ['NOT_A_MESSAGE', 'no message #commit'],
  109: ['MESSAGE_CBOR', 'the message is not DAG-CBOR'],
  110: ['MESSAGE_NOT_A_MAP', 'the message is no map'],
  111: ['BAD_FIELD', 'a field is missing or of another kind'],
  112: ['REBASE', 'a rebase'],
  113: ['TOO_BIG', 'the message does not hold all'],
  114: ['TOO_MANY_OPS', 'too many operations'],
  115: ['BLOCKS_SIZE', 'the blocks have too many bytes'],
  116: ['BAD_SINCE', 'the revision before is not a timestamp identifier'],
  117: ['SINCE_ORDER', 'the revision is not after the one before'],
  118: ['BAD_TIME', 'the time is none'],
  119: ['BAD_OP', 'an operation is none'],
  120: ['DOUBLED_PATH', 'an operation has the path of another'],
  121: ['OTHER_PREVIOUS', 'the repository had another root before'],
  122: ['NOT_THE_ROOT', 'the root of the blocks is not the commit'],
  123: ['MISNAMED', 'a block has another CID'],
  124: ['COMMIT_MISSING', 'the commit is not among the blocks'],
  125: ['OTHER_DID', 'the commit is of another repository'],
  126: ['OTHER_REV', 'the commit has another revision'],
  127: ['RECORD_MISSING', 'a record is missing'],
  128: ['MESSAGE_RECORD_SIZE', 'the record of an operation is too long for a message'],
  129: ['NODE_MISSING', 'a node that is needed is not in the message'],
  130: ['ROOT_MOVED', 'the repository has another root than was signed over'],
  131: ['BAD_SEQ', 'the number is none of the stream'],
  132: ['NO_BATCH', 'the repository has no batch'],
  249: ['OPEN', 'the repository is open already'],
  250: ['CLOSED', 'the repository is closed'],
  251: ['SMALL', 'the room is too small'],
  252: ['BAD', 'an argument that is none'],
  253: ['CLASH', 'two blocks clash'],
  254: ['FULL', 'the store is full'],
  255: ['NO_MEMORY', 'out of memory'],
  // the package's own, behind those of a byte
  256: ['BUSY', 'another call has the repository'],
  257: ['CHANGED', 'a batch came between two parts of the repository'],
}

const sentence = (text, { cid, place, path, what = 'change' }) => {
  if (path) return `${path}: ${text}`
  if (cid) return `${text}: ${cid}`
  return place === undefined ? text : `${what} ${place}: ${text}`
}

/** A call was refused. */
export class TizulgechError extends Error {
  constructor(number, table = OF_ALL, more = {}) {
    const [code, text] = table[number] ?? OF_ALL[number] ?? [`NUMBER_${number}`, `number ${number}`]
    super(sentence(text, more))
    this.number = number
    this.code = code
    if (more.place !== undefined) this.place = more.place
    if (more.cid) this.cid = more.cid
    if (more.path !== undefined) this.path = more.path
  }
  get name() { return this.constructor.name }
}
/** Bytes are no record. */
export class RecordError extends TizulgechError {}
/** A text is no record as JSON, or a record has no JSON text, or bytes are no link's CID: `path` is the way to a text's first fault. */
export class JsonError extends TizulgechError {}
/** A file is no export of a repository: `place` is that of the record that isn't taken. */
export class FileError extends TizulgechError {}
/** A text, or bytes, are no CID of this profile. */
export class CidError extends TizulgechError {}
/** A batch, a write or a stamp was refused: `place` is that of the write. */
export class BatchError extends TizulgechError {}
/** Nodes or pairs show nothing, or there is no edit: `cid` is that of a node, `place` that of a change. */
export class TreeError extends TizulgechError {}
/** Bytes are no signed commit. */
export class CommitError extends TizulgechError {}
/** A message isn't taken: `place` is that of an operation or a field, `cid` that of a node. */
export class MessageError extends TizulgechError {}
/** A repository is closed, busy, or wasn't opened. */
export class RepositoryError extends TizulgechError {}

const isOfRepository = number => number === CLOSED || number === BUSY || number === CHANGED
export const repositoryFault = (number, Kind = TizulgechError, table, more) => isOfRepository(number) ? new RepositoryError(number) : new Kind(number, table, more)
export const batchFault = (number, more) => repositoryFault(number, BatchError, number < BAD_KEY ? OF_RECORDS : undefined, more)
export const messageFault = (number, more) => repositoryFault(number, MessageError, number < BAD_KEY ? OF_RECORDS : undefined, more)
export const treeFault = (number, more) => repositoryFault(number, TreeError, OF_TREES, more)
const RECORD_MISSING = 127, RECORD_SIZE = 22
export const fileFault = (number, place) => {
  const isOfRecord = number <= RECORD_SIZE || number === RECORD_MISSING
  return new FileError(number, number < BAD_KEY ? OF_RECORDS : undefined, isOfRecord ? { place, what: 'record' } : {})
}
