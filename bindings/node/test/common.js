/** What the tests share: names, records, random numbers, and the faults that were seen. */
import assert from 'node:assert/strict'
import { createHash } from 'node:crypto'
import { readFileSync } from 'node:fs'
import { setImmediate } from 'node:timers/promises'
import * as t from 'tizulgech'

export const DID = 'did:web:example.com'
const TID = '234567abcdefghijklmnopqrstuvwxyz'
export const tid = n => Array.from({ length: 13 }, (_, i) => TID[Number(BigInt(n) >> BigInt(5 * (12 - i)) & 31n)]).join('')
export const stamp = n => ({ did: DID, rev: tid(n) })

export const sha = bytes => createHash('sha256').update(bytes).digest()
export const hex = text => Uint8Array.from(Buffer.from(text, 'hex'))
export const key = n => `app.bsky.feed.post/${sha(`${n}`).toString('hex').slice(0, 13)}`
export const record = n => hex(`a1616b1a${(n | 0x10000).toString(16).padStart(8, '0')}`)
export const puts = (from, to) => Array.from({ length: to - from }, (_, n) => ({ action: 'put', key: key(from + n), record: record(from + n) }))
export const sorted = pairs => Array.from(pairs).sort(([one], [other]) => one < other ? -1 : 1)
export const texts = cids => cids.map(it => it && `${it}`)
export const fileBeside = path => readFileSync(new URL(`../../${path}`, import.meta.url), 'utf8')

/** The text of the empty tree's root. */
export const EMPTY = 'bafyreie5737gdxlw5i64vzichcalba3z2v5n6icifvx5xytvske7mr3hpm'

const link = cid => cid ? [hex('d82a582500'), cid.bytes] : [hex('f6')]
/** A node without entries, over another one; and one of one pair, with a link before it and one behind it. */
export const nodeOver = cid => Buffer.concat([hex('a2616580616c'), ...link(cid)])
export const nodeOf = (left, name, right) => Buffer.concat([
  hex('a2616581a4616b'), Uint8Array.of(0x40 + name.length), Buffer.from(name), hex('6170006174'), ...link(right), hex('6176'), ...link(t.cidOf(hex(''))),
  hex('616c'), ...link(left),
])

/** Draws numbers, the same for the same seed. */
export class Random {
  constructor(seed) { this.state = BigInt(seed) }
  below(n) {
    this.state = BigInt.asUintN(64, this.state * 6364136223846793005n + 1442695040888963407n)
    return Number((this.state >> 33n) % BigInt(n))
  }
}

/** The codes of the faults that were seen. */
export const seen = new Set()
/** An error's class and code, in a call or what it promises. */
export async function fails(call, Kind, code, more = {}) {
  let error
  try {
    await call()
  } catch (it) {
    error = it
  }
  assert(error instanceof Kind && error instanceof t.TizulgechError && error instanceof Error, `${error?.stack}`)
  assert.deepEqual([error.code, error.name], [code, Kind.name])
  for (const name in more) assert.deepEqual(error[name], more[name])
  seen.add(code)
}
/** The code of what a call throws, or what it promises is rejected with. */
export async function code(call) {
  try {
    await call()
  } catch (error) {
    return error.code ?? error.constructor.name
  }
}

/** Lets the collector and what it told run. */
export async function collected() {
  for (let i = 0; i < 5; i++) {
    globalThis.gc()
    await setImmediate()
  }
}
export async function all(parts) {
  const found = []
  for await (const part of parts) found.push(part)
  return found
}
export const whole = async parts => Buffer.concat(await all(parts))
