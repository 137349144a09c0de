/** make bench: what calls cost. Times are of one thread, the best of five rounds. */
import * as t from 'tizulgech'
import { key, puts, record, stamp } from './test/common.js'

async function best(name, times, round) {
  let least = Infinity
  for (let n = 0; n < 5; n++) {
    const begun = process.hrtime.bigint()
    await round(n)
    least = Math.min(least, Number(process.hrtime.bigint() - begun) / times)
  }
  console.log(`${name.padEnd(44)} ${(least / 1000).toFixed(2).padStart(10)} us`)
}
const calls = (name, call, times = 200_000) => best(name, times, () => { for (let n = 0; n < times; n++) call() })

const one = t.Repository.open(1000), text = 'app.bsky.feed.post/3jzfcijpj2z2a', bytes = Buffer.from(text), block = new Uint8Array(100)
await one.apply(stamp(1), puts(0, 100))
const proof = one.prove(key(1)), { root } = one, there = key(1), word = `${root}`
await calls('isKey of a string', () => t.isKey(text))
await calls('isKey of a Uint8Array', () => t.isKey(bytes))
await calls('number', () => one.number)
await calls('root', () => one.root)
await calls('get', () => one.get(there))
await calls('cidOf, 100 bytes', () => t.cidOf(block))
await calls('Cid.parse', () => t.Cid.parse(word))
await calls('cidOf and toString', () => `${t.cidOf(block)}`)
await calls('prove', () => one.prove(there), 50_000)
await best('verify', 20_000, async () => { for (let n = 0; n < 20_000; n++) await t.verify(root, proof, there) })
const blocks = Array(30).fill(block)
await best('cidsOf of 30, on another thread', 2000, async () => { for (let n = 0; n < 2000; n++) await t.cidsOf(blocks) })

for (const size of [1, 10, 24, 25, 100, 1000]) {
  const count = size === 1 ? 5000 : 20_000, batches = Array.from({ length: count / size | 0 }, (_, at) => puts(at * size, (at + 1) * size))
  await best(`a write, ${size} a batch`, batches.length * size, async () => {
    const repository = t.Repository.open(count)
    for (const [n, batch] of batches.entries()) await repository.apply(stamp(n + 1), batch)
    repository.close()
  })
}

// over nodes of a Map
for (const size of [1, 100, 1000]) {
  const nodes = new Map(), all = Array.from({ length: 10_000 }, (_, n) => [key(n), t.cidOf(record(n))]), get = cid => nodes.get(`${cid}`)
  const { root, newBlocks } = await t.tree.apply(() => t.EMPTY_NODE, t.cidOf(t.EMPTY_NODE), all)
  for (const { cid, bytes } of newBlocks) nodes.set(`${cid}`, bytes)
  await best(`a change over 10,000 keys, ${size} at once`, 2000, async n => {
    for (let at = 0; at < 2000; at += size) await t.tree.apply(get, root, all.slice(at, at + size).map(([it]) => [it, null]))
  })
}

/** How long something takes, and for how long JavaScript stood still at most meanwhile. */
async function watched(what, job) {
  let still = 0, last = performance.now()
  const look = () => {
    const now = performance.now()
    still = Math.max(still, now - last - 1)
    last = now
  }
  const watch = setInterval(look, 1), begun = performance.now(), done = await job(), spent = performance.now() - begun
  await new Promise(next => setTimeout(next, 5))
  look()
  clearInterval(watch)
  console.log(`${what}: ${done} in ${spent.toFixed(0)} ms, of which JavaScript stood still ${still.toFixed(0)} ms at most at once`)
}
const sum = async (parts, of) => {
  let total = 0
  for await (const it of parts) total += of(it)
  return total
}
const large = t.Repository.open(100_000), writes = puts(0, 100_000)
await watched('writes at once', async () => (await large.apply(stamp(1), writes), writes.length))
await watched('car, bytes', async () => (await large.car()).length)
await watched('carParts, bytes', () => sum(large.carParts(), it => it.length))
await watched('carSections, bytes', () => sum(large.carSections(), it => it.length))
await watched('entries, pairs', () => sum(large, () => 1))
large.close()
