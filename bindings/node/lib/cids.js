/** CIDs. */
import { types } from 'node:util'
import { called, cidAt, firstCid, firstText, isLong, native, packed } from './native.js'
import { CidError, OF_CIDS, TreeError } from './faults.js'
import { block, blocks, wrong } from './given.js'

const SECRET = Symbol()
/** A Cid of bytes that the library gave; the bytes of one, or of whatever is one. */
export let made, raw

/** A CID as the AT Protocol has it for blocks: CIDv1, DAG-CBOR, SHA-256. It doesn't change. */
export class Cid {
  #bytes
  #text
  static {
    made = bytes => new Cid(bytes, SECRET)
    raw = cid => #bytes in Object(cid) ? cid.#bytes : Cid.from(cid).#bytes
  }
  /** From its 36 bytes. */
  constructor(bytes, secret) {
    if (secret === SECRET) {
      this.#bytes = bytes
      return
    }
    if (!types.isUint8Array(bytes)) throw wrong('the bytes of a CID are a Uint8Array')
    this.#bytes = new Uint8Array(bytes)
    if (native.cid_text(this.#bytes, 0)) throw new CidError(5, OF_CIDS)
    this.#text = firstText()
  }
  /** A CID from one, its text, its bytes, or whatever else has `bytes`, as the class CID of multiformats. */
  static from(it) {
    if (#bytes in Object(it)) return it
    if (typeof it === 'string') return Cid.parse(it)
    return new Cid(types.isUint8Array(it) ? it : it?.bytes)
  }
  static parse(text) {
    if (typeof text !== 'string') throw wrong('the text of a CID is a string')
    const number = native.cid_from_text(text)
    if (number) throw new CidError(number, OF_CIDS)
    return made(firstCid())
  }
  get bytes() { return this.#bytes.slice() }
  equals(other) { return #bytes in Object(other) && Buffer.compare(this.#bytes, other.#bytes) === 0 }
  toString() {
    if (this.#text) return this.#text
    native.cid_text(this.#bytes, 0)
    return this.#text = firstText()
  }
  toJSON() { return this.toString() }
  [Symbol.for('nodejs.util.inspect.custom')]() { return `Cid(${this})` }
}
Object.defineProperty(Cid.prototype, Symbol.toStringTag, { value: 'Cid' })

/** The CID of a block. */
export function cidOf(bytes) {
  native.cid(block(bytes))
  return made(firstCid())
}
/** Those of many blocks, in their order: several are hashed side by side. */
export async function cidsOf(list) {
  const given = blocks(list), answer = await called(isLong(given), 'cids', packed(given), 36 * given.length)
  if (answer.number) throw new TreeError(answer.number)
  return given.map((_, place) => made(cidAt(answer.bytes, place)))
}

/** Values one after another: a CID each, or 36 zeros where there is none, which is said by null. */
export function joined(values) {
  const bytes = new Uint8Array(36 * values.length)
  values.forEach((value, place) => value === null || bytes.set(raw(value), 36 * place))
  return bytes
}

/** Reads what the library wrote. */
export class Reader {
  constructor(bytes) {
    this.bytes = bytes
    this.view = new DataView(bytes.buffer, bytes.byteOffset, bytes.length)
    this.at = 0
  }
  get more() { return this.at < this.bytes.length }
  byte() { return this.bytes[this.at++] }
  number() { return this.at += 8, Number(this.view.getBigUint64(this.at - 8, true)) }
  take(count) { return this.at += count, this.bytes.slice(this.at - count, this.at) }
  part() { return this.take(this.number()) }
  parts() {
    const parts = []
    while (this.more) parts.push(this.part())
    return parts
  }
  cid() { return made(this.take(36)) }
  value() {
    const bytes = this.take(36)
    return bytes[0] ? made(bytes) : null
  }
}
