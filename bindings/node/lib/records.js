/** Records as JSON, the texts of links, and files as servers export them. */
import { called, filled, firstWay, native, numberOf } from './native.js'
import { Reader } from './cids.js'
import { JsonError, OF_RECORDS, fileFault } from './faults.js'
import { block } from './given.js'

const NOT_JSON = 60, JSON_NOT_A_MAP = 68, LONG = 65_536

const answered = (answer, table) => {
  const number = numberOf(answer)
  if (number) throw new JsonError(number, table)
  return filled(answer)
}
const textOf = bytes => Buffer.from(bytes).toString()

/** The one JSON text of a record, by the AT Protocol's data model: keys in the order of DAG-CBOR, no spaces, links as {"$link": ..} and bytes as
 * {"$bytes": ..}. */
export const recordJson = record => textOf(answered(native.record_json(block(record), 0), OF_RECORDS))

/** The record in DAG-CBOR that a JSON text is, of any layout; else a JsonError has the way to its first fault. */
export function jsonRecord(text) {
  const answer = native.json_record(text, 0), number = numberOf(answer)
  if (number >= NOT_JSON && number <= JSON_NOT_A_MAP) throw new JsonError(number, undefined, { path: firstWay() })
  return answered(answer)
}

/** The text in which a link has a CID of version 1, whatever its codec and hash are, as that of a blob. */
export const linkText = cid => textOf(answered(native.link_text(block(cid), 0)))
/** The CID of version 1 with this text, which has no other one. */
export const linkFromText = text => answered(native.link_from_text(text, 0))

/** Of which repository a CAR file is the export, as com.atproto.sync.getRepo serves it. No signature is tested. */
export async function checkCar(file) {
  const answer = await called(block(file).length > LONG, 'check_car', file, 0)
  if (answer.number) throw fileFault(answer.number, answer.place)
  const reader = new Reader(answer.bytes), commit = reader.cid(), root = reader.cid(), count = reader.number()
  return { commit, root, count, did: textOf(reader.part()), rev: textOf(reader.part()) }
}
