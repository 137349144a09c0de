/** The addon, and how its calls are made: at once, and on another thread where they may be long. */
import { createRequire } from 'node:module'
import { markAsUntransferable } from 'node:worker_threads'

export const native = createRequire(import.meta.url)(process.env.TIZULGECH_ADDON ?? '../tizulgech.node')

/** The number of the library's interface for which this package is written. */
export const VERSION = 4
if (native.version() !== VERSION) throw new Error(`the addon's library has the interface ${native.version()}, and this package is written for ${VERSION}`)

// The slate: three CIDs, two numbers, and the answer of variable length of a call at once.
markAsUntransferable(native.slate)
const CIDS = 108, NUMBERS = 112, REST = 128
const slate = new Uint8Array(native.slate), numbers = new Float64Array(native.slate, NUMBERS, 2), text = Buffer.from(native.slate)
const NO_BYTES = new Uint8Array(0)

/** The bytes of the first CID of a call at once. */
export const firstCid = () => slate.slice(0, 36)
/** Its number: how many, or where. */
export const firstNumber = () => numbers[0]
/** Its text of a CID. */
export const firstText = () => text.latin1Slice(REST, REST + 59)
/** The text that stands where its answer would, where there is room for it in the slate. */
export const firstWay = () => numbers[1] > 65_536 - REST ? '' : text.latin1Slice(REST, REST + numbers[1])
/** Its answer of variable length: what it answered is a number, or bytes that have no room in the slate. */
export const filled = answer => typeof answer === 'number' ? slate.slice(REST, REST + numbers[1]) : new Uint8Array(answer)
export const numberOf = answer => typeof answer === 'number' ? answer : 0

/** The bytes of the CID at a place of many. */
export const cidAt = (bytes, place) => bytes.slice(place * 36, place * 36 + 36)

/** A call whose answer is awaited: its number, CIDs, place and bytes. At once they are read now, as behind an `await` the slate is another
 * call's. */
export function called(isLong, name, ...given) {
  if (!isLong) {
    const answer = native[name](...given), number = numberOf(answer)
    return { number, cids: slate.slice(0, CIDS), place: numbers[0], bytes: number ? NO_BYTES : filled(answer) }
  }
  const answer = native.later[name](...given)
  if (typeof answer === 'number') return { number: answer }
  return answer.then(([number, fixed, bytes]) => ({
    number,
    cids: new Uint8Array(fixed, 0, CIDS),
    place: new Float64Array(fixed, NUMBERS, 1)[0],
    bytes: bytes ? new Uint8Array(bytes) : NO_BYTES,
  }))
}

export const sizeOf = parts => {
  let size = 0
  for (const part of parts) size += part.length
  return size
}

/** A list of Uint8Arrays as the addon takes it in one: how many, the length of each, and then all of them. */
export function packed(parts) {
  const head = 4 + 4 * parts.length, bytes = new Uint8Array(head + sizeOf(parts)), lengths = new Uint32Array(bytes.buffer, 0, parts.length + 1)
  lengths[0] = parts.length
  let at = head, place = 1
  for (const part of parts) {
    bytes.set(part, at)
    at += lengths[place++] = part.length
  }
  return bytes
}

/** About a third of a millisecond of hashing: more than that isn't done on the thread of JavaScript. */
export const MANY = 24, LONG = 65_536
export const isLong = parts => parts.length > MANY || sizeOf(parts) > LONG
