/** Repositories beside a plain Map, and their files read back. */
import assert from 'node:assert/strict'
import test from 'node:test'
import * as t from 'tizulgech'
import { Random, all, code, fails, hex, key, puts, record, sorted, stamp, texts, whole } from './common.js'

const cidsOf = pairs => pairs.map(({ key, cid }) => [key, `${cid}`])

test('random batches', async () => {
  const draw = new Random(2), plain = new Map(), one = t.Repository.open(100_000n)
  let number = 0
  assert.equal(one.commit, null)
  for (let turn = 0; turn < 100; turn++) {
    const before = one.root, writes = drawn(draw, plain, turn), applied = await one.apply(stamp(turn + 1), writes)
    number += writes.length
    const pairs = sorted(plain).map(([it, bytes]) => [it, `${t.cidOf(bytes)}`]), wanted = await t.treeRoot(pairs)
    assert.deepEqual(texts([applied.previous, applied.root, applied.root]), texts([before, wanted.root, one.root]))
    assert.deepEqual([`${one.commit}`, one.number], [`${applied.commit}`, number])
    assert.equal(`${t.cidOf(t.commitBytes(stamp(turn + 1), one.root))}`, `${applied.commit}`)
    assert.deepEqual(cidsOf(await all(one)), pairs)
    assert.deepEqual(cidsOf(await one.list('', 1000)), pairs)
    assert.deepEqual(cidsOf(await one.list()), pairs.slice(0, 256))
    const name = key(draw.below(200)), found = await t.verify(one.root, one.prove(name), name)
    assert.deepEqual(one.get(name), plain.get(name) ?? null)
    assert.equal(found && `${found}`, plain.has(name) ? `${t.cidOf(plain.get(name))}` : null)
  }
  const [[first], ...rest] = cidsOf(await all(one))
  assert.deepEqual(cidsOf(await all(one.entries(`${first}\0`))), rest)
  assert.deepEqual(cidsOf(await one.list(`${first}\0`, 2)), rest.slice(0, 2))
  await isRead(one, plain)
  one.close()
  one.close()
})

/** Writes that pass, and what they leave; now and then so many that they go to another thread. */
function drawn(draw, plain, turn) {
  const writes = []
  for (let left = 1 + draw.below(turn % 7 ? 9 : 200); left; left--) {
    const name = key(draw.below(200)), action = plain.has(name) ? ['put', 'update', 'delete'][draw.below(3)] : ['put', 'create'][draw.below(2)]
    const at = [{ key: name }, { key: Buffer.from(name) }, t.parseDataKey(name)][left % 3]
    writes.push(action === 'delete' ? { action, ...at } : { action, ...at, record: record(draw.below(99)) })
    action === 'delete' ? plain.delete(name) : plain.set(name, writes.at(-1).record)
  }
  return writes
}

/** Its file, in one and in parts: its root is the commit, and each block is of its CID, and stands once. */
async function isRead(one, plain) {
  const file = Buffer.from(await one.car()), cids = new Set()
  assert.equal(file.length, await one.carLength())
  for (const length of [77, 1000, file.length, file.length + 1]) {
    const parts = await all(one.carParts(length))
    assert(parts.every((it, at) => at + 1 < parts.length ? it.length <= length && it.length : it.length))
    assert(file.equals(Buffer.concat(parts)))
  }
  const sections = await all(one.carSections())
  assert(file.equals(Buffer.concat(sections)))
  assert(sections.shift().toString().includes(one.commit.bytes.toString()))
  for (const it of sections) {
    const start = it.findIndex(byte => byte < 128) + 1, cid = new t.Cid(it.subarray(start, start + 36))
    assert(t.cidOf(it.subarray(start + 36)).equals(cid) && !cids.has(`${cid}`))
    cids.add(`${cid}`)
  }
  for (const bytes of plain.values()) assert(cids.has(`${t.cidOf(bytes)}`))
  assert(cids.has(`${one.root}`) && cids.has(`${one.commit}`))
}

test('a repository of nothing', async () => {
  const one = t.Repository.open(1)
  assert.deepEqual([`${one.root}`, one.commit, one.number, await all(one), await one.list()], [`${t.cidOf(t.EMPTY_NODE)}`, null, 0, [], []])
  const file = Buffer.from(await one.car())
  assert(file.equals(await whole(one.carParts())) && file.equals(await whole(one.carSections())))
  one[Symbol.dispose ?? Symbol.for('Symbol.dispose')]?.()
})

test('records that have no room in the buffer of answers', async () => {
  const one = t.Repository.open(10), head = size => size < 65_536 ? `59${size.toString(16)}` : `5a${size.toString(16).padStart(8, '0')}`
  const large = size => Buffer.concat([hex(`a1616b${head(size)}`), Buffer.alloc(size, 7)])
  for (const [n, size] of [65_402, 65_403, 200_000, 1_048_000].entries()) {
    const record = large(size)
    await one.apply(stamp(n + 1), [{ action: 'put', key: 'a.b.c/d', record }])
    assert(record.equals(one.get('a.b.c/d')))
    const file = Buffer.from(await one.car())
    for (const parts of [one.carParts(), one.carParts(65_536), one.carSections()]) assert(file.equals(await whole(parts)))
  }
  one.close()
})

test('one call at a time', async () => {
  const one = t.Repository.open(100_000), long = one.apply(stamp(1), puts(0, 5000))
  const calls = [
    () => one.get(key(0)), () => one.root, () => one.commit, () => one.number, () => one.prove('a'), () => one.apply(stamp(2), puts(0, 1)), () => one.apply(stamp(2), puts(0, 999)),
    () => one.list(), () => one.list('', 1000), () => one.entries().next(), () => one.car(), () => one.carLength(), () => one.carParts().next(), () => one.carSections().next(),
    () => one.proveChange({}), () => one.proveInversion([]), () => one.close(),
  ]
  for (const call of calls) assert.equal(await code(call), 'BUSY')
  await long
  assert.equal(one.number, 5000)
  // small batches beside each other: each is one call
  await Promise.all(Array.from({ length: 20 }, (_, n) => one.apply(stamp(n + 2), puts(n, n + 1))))
  // two long ones: the second is refused
  const both = await Promise.allSettled([one.apply(stamp(100), puts(0, 999)), one.apply(stamp(101), puts(0, 999))])
  assert.deepEqual(both.map(it => it.reason?.code), [undefined, 'BUSY'])
  // what is read in parts is of one moment
  let rev = 200
  for (const parts of [one.carParts(100), one.carSections(), one.entries()]) {
    await parts.next()
    await one.apply(stamp(rev++), puts(0, 1))
    await fails(() => all(parts), t.RepositoryError, 'CHANGED')
  }
  assert.equal((await one.car()).length, await one.carLength())
  one.close()
})

test('calls of several kinds that are under way at once', async () => {
  const blocks = Array.from({ length: 200 }, (_, n) => Buffer.from(`${n}`)), own = blocks.map(it => `${t.cidOf(it)}`)
  const pairs = sorted(Array.from({ length: 200 }, (_, n) => [key(n), t.cidOf(record(n))])), small = pairs.slice(0, 5)
  const { root } = await t.treeRoot(pairs), { root: low } = await t.treeRoot(small)
  await Promise.all(Array.from({ length: 60 }, async (_, n) => {
    if (n % 3 === 0) assert.deepEqual(texts(await t.cidsOf(blocks)), own)
    else if (n % 3 === 1) assert((await t.treeRoot(pairs)).root.equals(root))
    else assert((await t.treeRoot(small)).root.equals(low))
  }))
})
