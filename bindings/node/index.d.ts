declare global {
  interface SymbolConstructor { readonly dispose: unique symbol }
}

/** Text goes as UTF-8; half of a surrogate pair is refused. */
export type Bytes = string | Uint8Array
export type CidLike = Cid | string | Uint8Array | { readonly bytes: Uint8Array }

/** The number of the library's interface for which the package is written. */
export const VERSION: 4
/** The one node of the tree of no keys. */
export const EMPTY_NODE: Uint8Array

/** A CID as the AT Protocol has it for blocks: CIDv1, DAG-CBOR, SHA-256. It doesn't change. */
export class Cid {
  constructor(bytes: Uint8Array)
  /** A CID from one, its text, its bytes, or whatever else has `bytes`, as the class CID of multiformats. */
  static from(it: CidLike): Cid
  static parse(text: string): Cid
  /** A copy of its 36 bytes. */
  get bytes(): Uint8Array
  equals(other: unknown): boolean
  toString(): string
  toJSON(): string
}

type RecordCode = 'TRUNCATED' | 'LONG_HEAD' | 'INDEFINITE' | 'BAD_TAG' | 'BAD_LINK' | 'KEY_NOT_TEXT' | 'KEY_ORDER' | 'BAD_UTF8' | 'FLOAT' | 'SIMPLE' | 'INTEGER_RANGE' | 'TOO_DEEP' | 'TRAILING'
type CidCode = 'CID_LENGTH' | 'CID_PREFIX' | 'CID_LETTER' | 'CID_BITS' | 'CID_PROFILE'
type BatchCode = RecordCode | 'BAD_KEY' | 'NOT_A_MAP' | 'RECORD_SIZE' | 'KEY_EXISTS' | 'NONE' | 'WRITES_FULL' | 'EMPTY_BATCH' | 'BAD_DID' | 'BAD_REV' | 'REV_ORDER'
type TreeCode = 'MISSING' | 'NOT_ASCENDING' | 'BAD_KEY' | 'BAD_NODE' | 'TOO_MANY_NODES' | 'NOT_BUILT' | 'OTHER_VALUE' | 'OTHER_ROOT' | 'NOT_TREE'
type CommitCode = 'NOT_A_COMMIT' | 'COMMIT_DID' | 'COMMIT_REV'
type MessageCode = RecordCode | CommitCode | 'NOT_A_MAP' | 'RECORD_SIZE' | 'BAD_DID' | 'BAD_REV' | 'BAD_NODE' | 'TOO_MANY_NODES' | 'OTHER_VALUE' | 'OTHER_ROOT' | 'NOT_TREE' | 'CAR_HEADER' | 'CAR_LENGTH' | 'CAR_TRUNCATED' | 'CAR_CID' | 'MESSAGE_SIZE' | 'NOT_A_MESSAGE' | 'MESSAGE_CBOR' | 'MESSAGE_NOT_A_MAP' | 'BAD_FIELD' | 'REBASE' | 'TOO_BIG' | 'TOO_MANY_OPS' | 'BLOCKS_SIZE' | 'BAD_SINCE' | 'SINCE_ORDER' | 'BAD_TIME' | 'BAD_OP' | 'DOUBLED_PATH' | 'OTHER_PREVIOUS' | 'NOT_THE_ROOT' | 'MISNAMED' | 'COMMIT_MISSING' | 'OTHER_DID' | 'OTHER_REV' | 'RECORD_MISSING' | 'MESSAGE_RECORD_SIZE' | 'NODE_MISSING'
type SigningCode = BatchCode | 'TOO_MANY_OPS' | 'BLOCKS_SIZE' | 'BAD_SINCE' | 'SINCE_ORDER' | 'BAD_TIME' | 'BAD_OP' | 'OTHER_VALUE' | 'MESSAGE_RECORD_SIZE' | 'ROOT_MOVED' | 'BAD_SEQ' | 'NO_BATCH'
type JsonCode = 'NOT_JSON' | 'DOUBLED_KEY' | 'JSON_FLOAT' | 'JSON_RANGE' | 'JSON_LINK' | 'JSON_BYTES' | 'JSON_DOLLAR' | 'JSON_DEPTH' | 'JSON_NOT_A_MAP' | 'NO_JSON_FORM'
type FileCode = 'NOT_THE_TREE' | 'NOT_A_COMMIT' | 'COMMIT_DID' | 'COMMIT_REV' | 'CAR_HEADER' | 'CAR_LENGTH' | 'CAR_TRUNCATED' | 'CAR_CID' | 'MISNAMED' | 'COMMIT_MISSING' | 'RECORD_MISSING'
type RepositoryCode = 'CLOSED' | 'BUSY' | 'CHANGED'
type AnyCode = 'BAD' | 'CLASH' | 'FULL' | 'NO_MEMORY'

/** A call was refused: `code` as the header names it, `number` as it numbers it. */
export class TizulgechError<Code extends string = string> extends Error {
  constructor(number: number)
  readonly code: Code
  readonly number: number
}
/** Bytes are no record. */
export class RecordError extends TizulgechError<RecordCode | AnyCode> {}
/** A text is no record as JSON, or a record has no JSON text, or bytes are no link's CID. */
export class JsonError extends TizulgechError<JsonCode | RecordCode | AnyCode> {
  /** The way to the first fault of a text, .key and [place]. */
  readonly path?: string
}
/** A file is no export of a repository, or has more records than one is to take. */
export class FileError extends TizulgechError<FileCode | BatchCode | AnyCode> {
  /** The place of the record that isn't taken, from 0. */
  readonly place?: number
}
/** A text, or bytes, are no CID of this profile. */
export class CidError extends TizulgechError<CidCode> {}
/** A batch, a write or a stamp was refused. */
export class BatchError extends TizulgechError<SigningCode | AnyCode> {
  /** The place of the refused write, from 0. */
  readonly place?: number
}
/** Nodes or pairs show nothing, or there is no edit or no file. */
export class TreeError extends TizulgechError<TreeCode | AnyCode> {
  /** The CID of the node, for MISSING and BAD_NODE of a tree's own nodes and of changes. */
  readonly cid?: Cid
  /** The place of the change, for OTHER_VALUE. */
  readonly place?: number
}
/** Bytes are no signed commit. */
export class CommitError extends TizulgechError<CommitCode | AnyCode> {}
/** A message isn't taken. */
export class MessageError extends TizulgechError<MessageCode | AnyCode> {
  /** The place of an operation, or of a field in the order of DAG-CBOR; for MESSAGE_CBOR the number of its fault. */
  readonly place?: number
  /** The CID of a node that is missing, or none. */
  readonly cid?: Cid
}
/** A repository is closed, busy, or wasn't opened, or has changed while it was read in parts. */
export class RepositoryError extends TizulgechError<RepositoryCode | AnyCode> {}

export function keyLayer(key: Bytes): number
export function isKey(key: Bytes): boolean
export function isRepositoryKey(key: Bytes): boolean
export function isDid(did: Bytes): boolean
export function isTid(rev: Bytes): boolean
/** The key of a record: its collection, a slash and its record key. */
export function formatDataKey(collection: string, rkey: string): string
export function parseDataKey(key: string): { collection: string; rkey: string }

export function cidOf(block: Uint8Array): Cid
export function cidsOf(blocks: Iterable<Uint8Array>): Promise<Cid[]>
/** Throws a RecordError unless the bytes are one value in DAG-CBOR. */
export function checkRecord(record: Uint8Array): void

export interface Stamp { did: Bytes; rev: Bytes }
export type At = { key: Bytes } | { collection: string; rkey: string }
/** The record is DAG-CBOR. */
export type Write = ({ action: 'put' | 'create' | 'update'; record: Uint8Array } | { action: 'delete' }) & At
/** Throws the fault of a write, by whether there is a record under its key. */
export function checkWrite(write: Write, there: boolean): void
/** Throws the fault of a stamp after the revision of the batch before; '' where there was none. */
export function checkStamp(before: Bytes, stamp: Stamp): void
/** The timestamp identifier after the last one, or after none, at so many microseconds since 1970 by the clock of a number from 0 to 1,023. Where
 * this time isn't after the last one, as where a clock has gone back, it is that of the microsecond behind the last one's. */
export function nextTid(last: Bytes | null, micros: number | bigint, clock?: number): string
/** The bytes of the unsigned commit of a stamp over the root of a tree: what a host signs. */
export function commitBytes(stamp: Stamp, root: CidLike): Uint8Array

/** What a signed commit says. Nothing tests the signature. */
export interface SignedCommit { did: string; rev: string; root: Cid; prev: Cid | null; sig: Uint8Array; unsigned: Uint8Array }
/** The bytes of the signed commit of a stamp over the root of a tree; what is signed is commitBytes of the same. An account without records begins
 * with one over the root of the empty tree, whose one node is EMPTY_NODE. */
export function signedCommit(stamp: Stamp, root: CidLike, sig: Uint8Array): Uint8Array
export function readCommit(block: Uint8Array): SignedCommit
/** The header of a file (CARv1) with this root, and the section of a block with its CID, which isn't tested. */
export function fileHead(root: CidLike): Uint8Array
export function fileSection(cid: CidLike, block: Uint8Array): Uint8Array

/** What a key had and has, as the library told it. */
export interface Operation { key: string; prev: Cid | null; cid: Cid | null }
/** What a message says that is true of a repository that had the root before: its signed commit, whose root is that after the batch, and its CID; its
 * number in the stream, the revision of the batch before, and when it was sent; what each key had and has; and its blocks. */
export interface CheckedCommit {
  commit: SignedCommit
  seq: number
  cid: Cid
  since: string | null
  time: string
  operations: Operation[]
  blocks: { cid: Cid; bytes: Uint8Array }[]
}
/** Rejects with a MessageError unless the message is true of the repository whose tree had the root `previous`. */
export function checkCommit(previous: CidLike, message: Uint8Array): Promise<CheckedCommit>

/** The root and the number of nodes of the tree of these pairs, whose keys ascend. */
export function treeRoot(pairs: Iterable<readonly [Bytes, CidLike]>): Promise<{ root: Cid; nodes: number }>
/** The CAR file of a repository whose one batch puts these records, each a key and its bytes, under this stamp. */
export function listingCar(stamp: Stamp, records: Iterable<readonly [Bytes, Uint8Array]>): Promise<Uint8Array>
/** The pairs and the links of a node, from the front: the link before the first key, and each pair with the link behind it. */
export function nodeEntries(node: Uint8Array): { left: Cid | null; pairs: { key: Uint8Array; cid: Cid; link: Cid | null }[] }
/** What stands below a node, in the order of a CAR file. */
export function links(node: Uint8Array): { isNode: boolean; cid: Cid }[]

/** The one JSON text of a record, by the AT Protocol's data model. */
export function recordJson(record: Uint8Array): string
/** The record in DAG-CBOR that a JSON text is, of any layout. */
export function jsonRecord(text: Bytes): Uint8Array
/** The text in which a link has a CID of version 1, whatever its codec and hash are, as that of a blob; and the CID with such a text. */
export function linkText(cid: Uint8Array): string
export function linkFromText(text: Bytes): Uint8Array
/** Of which repository a CAR file is the export, as com.atproto.sync.getRepo serves it. No signature is tested. */
export function checkCar(file: Uint8Array): Promise<{ commit: Cid; root: Cid; count: number; did: string; rev: string }>

/** What the tree with this root has under a key, as the nodes of a proof show: its value's CID, or null where it has none. */
export function verify(root: CidLike, proof: Iterable<Uint8Array>, key: Bytes): Promise<Cid | null>

/** What a key had and what it has: null where that is nothing. */
export interface Change { key: Bytes; prev: CidLike | null; cid: CidLike | null }
/** The same as the library told it. */
export interface KeyChange { key: Bytes; prev: Cid | null; cid: Cid | null }
/** Rejects unless the tree with the root before becomes that with the root after by these changes, as nodes of the tree before show; their
 * keys ascend. Who goes on from root to root begins with the empty tree's, or with one that it computed, and verifies step by step. */
export function verifyChange(before: CidLike, after: CidLike, nodes: Iterable<Uint8Array>, changes: Iterable<Change>): Promise<void>
/** Rejects unless these changes undone lead from the tree with the root after back to the root before, as nodes of the tree after show: the
 * operation inversion of the event stream. Of a root that no records have it says nothing: nobody goes on from a root after by it. */
export function verifyInversion(before: CidLike, after: CidLike, nodes: Iterable<Uint8Array>, changes: Iterable<Change>): Promise<void>

export type GetNode = (cid: Cid) => Uint8Array | null | undefined | Promise<Uint8Array | null | undefined>
/** What keys are to have, in any order: each gets a value, or goes where that is null. */
export type Changes = Iterable<readonly [Bytes, CidLike | null]> | Record<string, CidLike | null>
/** What changes do to the set of a tree's nodes: `newBlocks` is to be inserted, `removedCids` to be removed. */
export interface Edit {
  root: Cid
  newBlocks: { cid: Cid; bytes: Uint8Array }[]
  removedCids: Cid[]
  /** The changes by the order of the keys' bytes, each with what its key had. */
  changes: KeyChange[]
}
export const tree: {
  /** The nodes from a root down to a key, which are its proof, and its value or null. */
  path(get: GetNode, root: CidLike, key: Bytes): Promise<{ path: Uint8Array[]; value: Cid | null }>
  get(get: GetNode, root: CidLike, key: Bytes): Promise<Cid | null>
  apply(get: GetNode, root: CidLike, changes: Changes): Promise<Edit>
  /** What changes make of a tree, and the nodes that show it to whoever knows its root. Nothing is changed by it. */
  proveChange(get: GetNode, root: CidLike, changes: Changes): Promise<ChangeProof>
  /** The first pairs from a key on, 256 at most where no number is given. */
  list(get: GetNode, root: CidLike, from?: Bytes, most?: number): Promise<{ key: Uint8Array; cid: Cid }[]>
  /** What one tree differs by from another: the keys in their order, and its nodes that the other lacks and those of the other that it lacks. */
  difference(get: GetNode, before: CidLike, after: CidLike): Promise<Omit<Edit, 'root'>>
}

/** The root after a batch, the root before it, and the CID of its commit. */
export interface Applied { root: Cid; previous: Cid; commit: Cid }
/** What changes make of a repository, and what shows it: what verifyChange takes. */
export interface ChangeProof { after: Cid; changes: KeyChange[]; nodes: Uint8Array[] }
/** What the writes of a batch will make of a repository: `unsigned` is what is signed. */
export interface Preview { previous: Cid; root: Cid; unsigned: Uint8Array; changes: Operation[] }
/** What a message tells beside its batch, with the signature of Preview's `unsigned` over the root `previous`. */
export interface Told { previous: CidLike; sig: Uint8Array; seq: number | bigint; time: Bytes; since?: Bytes | null }
export interface Pair { key: string; cid: Cid }
/** A repository in memory. One call has it at a time: any other is refused with the code BUSY. */
export class Repository {
  private constructor()
  /** Opens one that takes so many writes, 1 to 1,048,576. */
  static open(limit: number | bigint): Repository
  /** Opens one with the records of a CAR file, as com.atproto.sync.getRepo serves it, that takes so many writes. */
  static openCar(limit: number | bigint, file: Uint8Array): Repository
  close(): void
  [Symbol.dispose](): void
  /** Accepts all writes of a batch, in order, or none of them. */
  apply(stamp: Stamp, writes: Iterable<Write>): Promise<Applied>
  /** What a batch would make of the repository, which stays as it is. */
  preview(stamp: Stamp, writes: Iterable<Write>): Promise<Preview>
  /** Accepts a batch whose commit was signed, and answers the message #commit that tells of it; or rejects, and leaves all as it was. */
  applySigned(stamp: Stamp, writes: Iterable<Write>, told: Told): Promise<Uint8Array>
  /** The record of a key, or null. */
  get(key: Bytes): Uint8Array | null
  /** The first keys from one on: 256, or `most`. */
  list(from?: Bytes, most?: number): Promise<Pair[]>
  /** All of them from one on, in pages. */
  entries(from?: Bytes): AsyncGenerator<Pair, void, undefined>
  [Symbol.asyncIterator](): AsyncGenerator<Pair, void, undefined>
  get root(): Cid
  get commit(): Cid | null
  /** The revision of the last batch, or null. */
  get rev(): string | null
  /** How many writes are accepted. */
  get number(): number
  carLength(): Promise<number>
  /** The repository as one file (CARv1), whole, in parts of so many bytes, or a block at a time. */
  car(): Promise<Uint8Array>
  carParts(length?: number): AsyncGenerator<Uint8Array, void, undefined>
  carSections(): AsyncGenerator<Uint8Array, void, undefined>
  /** The proof of a key: the nodes of its path, from the top. */
  prove(key: Bytes): Uint8Array[]
  /** What changes make of the repository as it is, and what shows it: ask before they are applied. */
  proveChange(changes: Changes): Promise<ChangeProof>
  /** The nodes that show that changes, whose keys ascend, undone lead back from the repository as it is. To who doesn't know that some records
   * have the root after they say nothing: `proveChange` shows a step. */
  proveInversion(changes: Iterable<Change>): Promise<Uint8Array[]>
}
