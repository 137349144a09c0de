/** Records, writes and stamps. */
import { filled, native, numberOf } from './native.js'
import { raw } from './cids.js'
import { OF_RECORDS, RecordError, batchFault } from './faults.js'
import { block, wrong } from './given.js'
import { formatDataKey } from './keys.js'

const ACTIONS = { put: 0, create: 1, update: 2, delete: 3 }, DELETE = 3, NO_BYTES = new Uint8Array(0)

/** A write as the addon takes it: its kind, its key and its record. */
export function kindOf(write) {
  const kind = Object.hasOwn(ACTIONS, write?.action) ? ACTIONS[write.action] : undefined
  if (kind === undefined) throw wrong('the action of a write is put, create, update or delete')
  return kind
}
export const keyOf = write => write.key === undefined ? formatDataKey(write.collection, write.rkey) : write.key
export const recordOf = (write, kind) => kind === DELETE ? NO_BYTES : block(write.record)

/** Throws a RecordError unless the bytes are one value in DAG-CBOR. */
export function checkRecord(bytes) {
  const number = native.record_fault(block(bytes))
  if (number) throw new RecordError(number, OF_RECORDS)
}
/** Throws the fault of a write, by whether there is a record under its key. */
export function checkWrite(write, there) {
  const kind = kindOf(write), number = native.write_fault(kind, there, keyOf(write), recordOf(write, kind))
  if (number) throw batchFault(number)
}
/** Throws the fault of a stamp after the revision of the batch before; '' where there was none. */
export function checkStamp(before, { did, rev }) {
  const number = native.stamp_fault(before, did, rev)
  if (number) throw batchFault(number)
}
/** The timestamp identifier after the last one, which is null where there was none, at so many microseconds since 1970 by the clock of a number
 * from 0 to 1,023. Where this time isn't after the last one, it is that of the microsecond behind the last one's. */
export function nextTid(last, micros, clock = 0) {
  const answer = native.next_tid(last ?? '', micros, clock, 0)
  if (numberOf(answer)) throw batchFault(answer)
  return Buffer.from(filled(answer)).toString()
}
/** The bytes of the unsigned commit of a stamp over the root of a tree: what a host signs. */
export function commitBytes({ did, rev }, root) {
  const answer = native.commit_bytes(did, rev, raw(root), 0)
  if (numberOf(answer)) throw batchFault(answer)
  return filled(answer)
}
