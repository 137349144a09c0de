/** Values, keys, writes and trees from scratch. */
import assert from 'node:assert/strict'
import test from 'node:test'
import { inspect } from 'node:util'
import * as t from 'tizulgech'
import { DID, EMPTY, fails, fileBeside, hex, key, record, sha, sorted, stamp, texts, tid } from './common.js'

test('published layers and roots', async () => {
  for (const [name, layer] of [['2653ae71', 0], ['blue', 1], ['app.bsky.feed.post/454397e440ec', 4], ['app.bsky.feed.post/9adeb165882c', 8]]) {
    assert.equal(t.keyLayer(name), layer)
    assert.equal(t.keyLayer(Buffer.from(name)), layer)
  }
  const lines = fileBeside('rust/tests/vectors.txt').trimEnd().split('\n')
  assert.equal(lines.length, 11)
  for (const line of lines) {
    const [root, value, ...keys] = line.trim().split(' ')
    const found = await t.treeRoot(keys.map(it => [it, value]))
    assert.equal(`${found.root}`, root)
    // and the same by changes of the empty tree
    const edit = await t.tree.apply(() => t.EMPTY_NODE, EMPTY, keys.map(it => [it, value]))
    assert.equal(`${edit.root}`, root)
  }
})

test('CIDs', async () => {
  const empty = t.cidOf(t.EMPTY_NODE)
  assert.equal(`${empty}`, EMPTY)
  assert.equal(inspect(empty), `Cid(${EMPTY})`)
  assert.equal(JSON.stringify({ empty }), `{"empty":"${EMPTY}"}`)
  assert(t.Cid.parse(EMPTY).equals(empty) && !empty.equals(t.cidOf(hex('a0'))) && !empty.equals(EMPTY) && !empty.equals(null))
  assert.deepEqual(Buffer.from(empty.bytes.slice(4)), sha(t.EMPTY_NODE))
  // what is taken and given is a copy
  const bytes = empty.bytes, copy = new t.Cid(bytes)
  bytes.fill(0)
  assert(copy.equals(empty) && empty.bytes[0] === 1)
  assert(t.Cid.from({ bytes: empty.bytes }).equals(empty) && t.Cid.from(empty) === empty)
  for (const size of [0, 3, 300]) {
    const blocks = Array.from({ length: size }, (_, n) => Buffer.from(`${n}`.repeat(n)))
    assert.deepEqual(texts(await t.cidsOf(blocks)), blocks.map(it => `${t.cidOf(it)}`))
  }
  // bytes of any number that are none
  for (let length = 0; length < 80; length++) await fails(() => new t.Cid(new Uint8Array(length)), t.CidError, 'CID_PROFILE')
  for (const length of [35, 37]) await fails(() => new t.Cid(Buffer.concat([empty.bytes, hex('00')]).subarray(0, length)), t.CidError, 'CID_PROFILE')
})

test('keys, DIDs and revisions', async () => {
  assert(t.isKey('a') && !t.isKey('') && t.isRepositoryKey('a.b.c/d') && !t.isRepositoryKey('a/b/c'))
  assert(t.isDid(DID) && !t.isDid('did:') && t.isTid(tid(1)) && !t.isTid('1'))
  assert.equal(t.formatDataKey('a.b.c', 'd'), 'a.b.c/d')
  assert.deepEqual(t.parseDataKey('a.b.c/d'), { collection: 'a.b.c', rkey: 'd' })
  for (const it of ['a', 'a/b/c', '']) await fails(() => t.parseDataKey(it), t.BatchError, 'BAD_KEY')
  for (const it of [undefined, 1, Buffer.from('a.b.c/d')]) assert.throws(() => t.parseDataKey(it), TypeError)
  for (const it of [undefined, null, 1]) assert.throws(() => t.formatDataKey('a.b.c', it), TypeError)
})

test('records, writes and stamps that pass', () => {
  t.checkRecord(hex('a0'))
  t.checkWrite({ action: 'put', key: 'a.b.c/d', record: hex('a0') }, true)
  t.checkWrite({ action: 'create', collection: 'a.b.c', rkey: 'd', record: hex('a0') }, false)
  t.checkWrite({ action: 'delete', key: 'a.b.c/d' }, true)
  t.checkStamp('', stamp(1))
  t.checkStamp(tid(1), stamp(2))
})

test('a file and the links of a listing', async () => {
  const pairs = sorted(Array.from({ length: 200 }, (_, n) => [key(n), record(n)]))
  for (const some of [pairs, pairs.slice(0, 3)]) {
    const one = t.Repository.open(1000), { root } = await one.apply(stamp(1), some.map(([it, bytes]) => ({ action: 'create', key: it, record: bytes })))
    assert.deepEqual(await t.listingCar(stamp(1), some), await one.car())
    // the records and the nodes below the root, each once
    const nodes = new Map(), edit = await t.tree.apply(() => t.EMPTY_NODE, EMPTY, some.map(([it, bytes]) => [it, t.cidOf(bytes)])), values = [], left = [root]
    for (const { cid, bytes } of edit.newBlocks) nodes.set(`${cid}`, bytes)
    for (let cid; (cid = left.shift());) {
      for (const it of t.links(nodes.get(`${cid}`))) (it.isNode ? left : values).push(it.cid)
      nodes.delete(`${cid}`)
    }
    assert.equal(nodes.size, 0)
    assert.deepEqual(texts(values).sort(), some.map(([, bytes]) => `${t.cidOf(bytes)}`).sort())
    one.close()
  }
  assert.deepEqual(t.links(t.EMPTY_NODE), [])
})
