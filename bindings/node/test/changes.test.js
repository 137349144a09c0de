/** Proofs of what changed, forward from the root before and back from the root after. */
import assert from 'node:assert/strict'
import { readFileSync } from 'node:fs'
import test from 'node:test'
import * as t from 'tizulgech'
import { Random, fails, hex, key, record, stamp, texts } from './common.js'

const other = t.cidOf(hex('01'))
const rows = changes => changes.map(it => [it.key, ...texts([it.prev, it.cid])])

test('what random batches change', async () => {
  const draw = new Random(4), plain = new Map(), one = t.Repository.open(10_000)
  for (let turn = 0; turn < 60; turn++) {
    const had = new Map(plain), writes = []
    for (let left = 1 + draw.below(turn % 7 ? 9 : 100); left; left--) {
      const name = key(draw.below(120)), goes = plain.has(name) && draw.below(3) === 0
      writes.push(goes ? { action: 'delete', key: name } : { action: 'put', key: name, record: record(draw.below(99)) })
      goes ? plain.delete(name) : plain.set(name, writes.at(-1).record)
    }
    const cid = (of, it) => of.has(it) ? t.cidOf(of.get(it)) : null
    const told = Array.from(new Set(writes.map(it => it.key))).sort().map(it => ({ key: it, prev: cid(had, it), cid: cid(plain, it) }))
    const proof = await one.proveChange(told.map(it => [it.key, it.cid])), { root, previous } = await one.apply(stamp(turn + 1), writes)
    assert.deepEqual([`${proof.after}`, rows(proof.changes)], [`${root}`, rows(told)])
    await forward(previous, root, proof.nodes, told)
    await back(one, previous, root, told)
  }
  one.close()
})

const last = (told, more) => [...told.slice(0, -1), { ...told.at(-1), ...more }]
async function forward(before, after, nodes, told) {
  const place = told.length - 1, verify = (...given) => () => t.verifyChange(...given)
  await verify(before, after, nodes, told)()
  await fails(verify(before, other, nodes, told), t.TreeError, 'OTHER_ROOT')
  await fails(verify(before, after, nodes, last(told, { cid: other })), t.TreeError, 'OTHER_ROOT')
  await fails(verify(before, after, nodes, last(told, { prev: other })), t.TreeError, 'OTHER_VALUE', { place })
  await fails(verify(before, after, nodes.slice(1), told), t.TreeError, 'MISSING', { cid: before })
  await fails(verify(before, after, nodes, [...told, told[0]]), t.TreeError, 'BAD')
}
async function back(one, before, after, told) {
  const place = told.length - 1, verify = (...given) => () => t.verifyInversion(...given), nodes = await one.proveInversion(told)
  await verify(before, after, nodes, told)()
  await fails(verify(other, after, nodes, told), t.TreeError, 'OTHER_ROOT')
  await fails(verify(before, after, nodes, last(told, { cid: other })), t.TreeError, 'OTHER_VALUE', { place })
  await fails(() => one.proveInversion(last(told, { cid: other })), t.TreeError, 'OTHER_VALUE', { place })
  await fails(verify(before, after, nodes.slice(1), told), t.TreeError, 'MISSING', { cid: after })
  await fails(verify(before, after, nodes, [...told, told[0]]), t.TreeError, 'BAD')
}

test('a root that no records have: undone, the change that is told leads back, though a record is lost', async () => {
  const lines = readFileSync(new URL('../../../examples/lost.txt', import.meta.url), 'ascii').trimEnd().split('\n')
  const [before, after, change, ...rest] = lines, [, name, had, has] = change.split(' '), nodes = rest.map(hex), told = [{ key: name, prev: null, cid: has }]
  assert.equal(had, '-')
  await t.verifyInversion(before, after, nodes, told)
  await fails(() => t.verifyChange(before, after, nodes, told), t.TreeError, 'OTHER_ROOT')
  assert(await t.verify(before, nodes, 'posts/10') && await t.verify(after, nodes, 'posts/10') === null)
})

test('a change says what it had and what it has', async () => {
  const root = t.cidOf(t.EMPTY_NODE)
  for (const change of [{ key: 'a' }, { key: 'a', cid: root }, { key: 'a', prev: root }, { key: 'a', before: null, after: root }, null, undefined, 'a'])
    for (const verify of [t.verifyChange, t.verifyInversion]) await assert.rejects(verify(root, root, [t.EMPTY_NODE], [change]), { code: 'ERR_INVALID_ARG_TYPE' })
  for (const value of [undefined, 1, {}, []]) await assert.rejects(t.tree.apply(() => t.EMPTY_NODE, root, { a: value }), { code: 'ERR_INVALID_ARG_TYPE' })
  // of no changes
  await t.verifyChange(root, root, [t.EMPTY_NODE], [])
  await t.verifyInversion(root, root, [t.EMPTY_NODE], [])
})
