/** Repositories by their numbers, and threads of JavaScript. */
import assert from 'node:assert/strict'
import test from 'node:test'
import { Worker } from 'node:worker_threads'
import * as t from 'tizulgech'
import { native } from '../lib/native.js'
import { DID, EMPTY, code, hex, key, puts, record, sorted, tid } from './common.js'

test('repositories of the addon, and what it keeps of them', async () => {
  const open = limit => (assert.equal(native.open(limit), 0), new Float64Array(native.slate, 112, 1)[0]), [did, rev] = [DID, tid(1)]
  // one whose place another has now
  const first = t.Repository.open(1)
  first.close()
  first.close()
  const second = t.Repository.open(1)
  assert.equal(await code(() => first.root), 'CLOSED')
  assert.equal(`${second.root}`, EMPTY)
  second.close()
  // a kind that is none leaves no write behind
  const id = open(10), keys = ['a.b.c/d', 'a.b.c/e'], records = [hex('a0'), hex('a0')]
  assert.equal(native.apply(id, did, rev, Uint8Array.of(0, 9), keys, records), 252)
  assert.equal(native.apply(id, did, rev, Uint8Array.of(0), keys, records), 252)
  assert.equal(native.apply(id, did, rev, new Uint8Array(0), [], []), 26)
  assert.equal(native.close(id, false), 0)
  // one that the collector has found while a call has it
  const left = open(10_000), writes = puts(0, 2000)
  const waiting = native.later.apply(left, did, rev, new Uint8Array(2000), writes.map(it => it.key), writes.map(it => it.record))
  assert.deepEqual([native.number(left), native.close(left, false), native.close(left, true)], [256, 256, 0])
  assert.equal((await waiting)[0], 0)
  assert.equal(native.number(left), 250)
  // a call on another thread has bytes of its own
  const block = new Uint8Array(1 << 22).fill(7), own = t.cidOf(block).bytes, found = native.later.cid(block)
  block.fill(8)
  assert.deepEqual(new Uint8Array((await found)[1], 0, 36), own)
})

test('threads of JavaScript, some of which end in the middle of a call', async () => {
  const source = `
    import('tizulgech').then(async t => {
      const { parentPort, workerData } = require('worker_threads')
      const { puts, stamp } = await import(workerData.common)
      const applied = t.Repository.open(100000).apply(stamp(1), puts(0, 3000))
      if (workerData.ends) { parentPort.postMessage('ready'); if (workerData.ends === 2) process.exit(0) }
      parentPort.postMessage(String((await applied).root))
    })`
  const common = new URL('./common.js', import.meta.url).href
  const roots = await Promise.all(Array.from({ length: 6 }, (_, n) => new Promise((done, failed) => {
    const worker = new Worker(source, { eval: true, workerData: { common, ends: n % 3 } })
    worker.on('error', failed)
    worker.on('exit', () => done('ended'))
    worker.on('message', it => it === 'ready' ? n % 3 === 1 && worker.terminate() : done(it))
  })))
  const { root } = await t.treeRoot(sorted(Array.from({ length: 3000 }, (_, n) => [key(n), t.cidOf(record(n))])))
  for (const [n, it] of roots.entries()) assert(n % 3 ? it : it === `${root}`, `${n}: ${it}`)
})
