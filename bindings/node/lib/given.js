/** What a caller gives, as the addon takes it. */
import { types } from 'node:util'

export const wrong = text => Object.assign(new TypeError(text), { code: 'ERR_INVALID_ARG_TYPE' })
export const outOfRange = text => Object.assign(new RangeError(text), { code: 'ERR_OUT_OF_RANGE' })

/** What can be gone through, as an array of its own. */
export function listOf(it) {
  if (it == null || typeof it[Symbol.iterator] !== 'function') throw wrong('a list is iterable')
  return Array.from(it)
}
export function block(it) {
  if (!types.isUint8Array(it)) throw wrong('a block is a Uint8Array')
  return it
}
export const blocks = list => listOf(list).map(it => block(it))
