/** What calls and forgotten repositories leave of memory. */
import assert from 'node:assert/strict'
import test from 'node:test'
import * as t from 'tizulgech'
import { collected, key, puts, stamp } from './common.js'

/** Under a sanitizer, which keeps what was given back, memory says nothing. */
const skip = 'TIZULGECH_SANITIZED' in process.env
const isLevel = (before, after) => {
  for (const of of ['rss', 'heapUsed', 'external']) assert(after[of] - before[of] < 12 << 20, `${of}: ${before[of]}, ${after[of]}`)
}

test('a million calls take no memory, nor do refused ones', { skip }, async () => {
  const one = t.Repository.open(1000), block = new Uint8Array(100)
  await one.apply(stamp(1), puts(0, 100))
  const proof = one.prove(key(1)), { root } = one
  const kinds = [
    [400_000, () => t.keyLayer('app.bsky.feed.post/9adeb165882c')], [200_000, () => `${t.cidOf(block)}`], [200_000, () => one.get('app.bsky.feed.post/3jzfcijpj2z2a')],
    [100_000, () => one.root], [50_000, () => one.prove('a')], [50_000, () => t.verify(root, proof, key(1))], [50_000, () => { try { t.keyLayer(1) } catch {} }],
    [20_000, () => one.apply(stamp(1), puts(0, 1)).catch(() => {})], [3000, () => t.cidsOf(Array(30).fill(block))],
  ]
  const spent = async () => {
    for (const [times, call] of kinds)
      for (let n = 0; n < times; n++) {
        const answered = call()
        if (answered instanceof Promise) await answered
      }
    await collected()
    return process.memoryUsage()
  }
  isLevel(await spent(), await spent())
  one.close()
})

test('a thousand repositories that nobody closes', { skip }, async () => {
  const round = async () => {
    for (let n = 0; n < 1000; n++) {
      const one = t.Repository.open(1000)
      await one.apply(stamp(1), puts(0, 20))
      // some with a call under way
      if (n % 10 === 0) one.apply(stamp(2), puts(0, 100)).catch(() => {})
    }
    await new Promise(done => setTimeout(done, 50))
    await collected()
    return process.memoryUsage()
  }
  // The allocator keeps some for each thread of the pool: by now it has.
  for (let n = 0; n < 5; n++) await round()
  const before = await round()
  for (let n = 0; n < 4; n++) await round()
  isLevel(before, await round())
})
