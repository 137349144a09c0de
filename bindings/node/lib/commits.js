/** Signed commits, the parts of files, and messages of the event stream. */
import { called, cidAt, filled, native, numberOf } from './native.js'
import { Reader, made, raw } from './cids.js'
import { BAD_NODE, CommitError, NODE_MISSING, messageFault, treeFault } from './faults.js'
import { block } from './given.js'

const text = bytes => Buffer.from(bytes).toString()
const answered = answer => {
  if (numberOf(answer)) throw treeFault(answer)
  return filled(answer)
}

/** The next commit of an answer. */
const commitIn = reader => ({
  did: text(reader.part()), rev: text(reader.part()), root: reader.cid(), prev: reader.value(), sig: reader.part(), unsigned: reader.part(),
})
/** The changes of an answer, of which it says how many they are. */
const changesIn = reader => Array.from({ length: reader.number() }, () => ({ key: text(reader.part()), prev: reader.value(), cid: reader.value() }))
/** What the writes of a batch will make of a repository, as an answer has it. */
export function previewOf(bytes) {
  const reader = new Reader(bytes)
  return { previous: reader.cid(), root: reader.cid(), unsigned: reader.part(), changes: changesIn(reader) }
}

/** The bytes of the signed commit of a stamp, which isn't tested, over the root of a tree. What is signed is `commitBytes` of the same. */
export const signedCommit = ({ did, rev }, root, sig) => answered(native.signed_commit(did, rev, raw(root), block(sig), 0))
/** What the signed commit of these bytes says; a CommitError says why they are none. */
export function readCommit(bytes) {
  const answer = native.read_commit(block(bytes), 0)
  if (numberOf(answer)) throw new CommitError(answer)
  return commitIn(new Reader(filled(answer)))
}
/** The header of a file (CARv1) with this root, and the section of a block with its CID: so a host puts a file together. */
export const fileHead = root => answered(native.file_head(raw(root), 0))
export const fileSection = (cid, bytes) => answered(native.file_section(raw(cid), block(bytes), bytes.length + 46))

/** What a message #commit says, where it is true of the repository whose tree had the root `previous`; else a MessageError says why not. */
export async function checkCommit(previous, message) {
  const own = block(message), answer = await called(true, 'check_commit', raw(previous), own, 2 * own.length + 512)
  if (answer.number) {
    const hasNode = answer.number === BAD_NODE || answer.number === NODE_MISSING
    throw messageFault(answer.number, { place: answer.place, what: 'operation', cid: hasNode ? made(cidAt(answer.cids, 0)) : undefined })
  }
  const reader = new Reader(answer.bytes), commit = commitIn(reader), seq = reader.number(), cid = reader.cid()
  const since = text(reader.part()) || null, time = text(reader.part()), operations = changesIn(reader), blocks = []
  while (reader.more) blocks.push({ cid: reader.cid(), bytes: reader.part() })
  return { commit, seq, cid, since, time, operations, blocks }
}
