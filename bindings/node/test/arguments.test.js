/** Wrong values, of the addon's calls and of the package's, and bytes of any kind of buffer. */
import assert from 'node:assert/strict'
import test from 'node:test'
import vm from 'node:vm'
import * as t from 'tizulgech'
import { native } from '../lib/native.js'
import { EMPTY, Random, code, fileBeside, puts, stamp, tid } from './common.js'

const detached = new Uint8Array(9)
structuredClone(detached.buffer, { transfer: [detached.buffer] })
const shrunk = new Uint8Array(new ArrayBuffer(64, { maxByteLength: 128 }), 32)
shrunk.buffer.resize(16)
const NO_BYTES = [
  undefined, null, true, 1, -1, NaN, 1n, Symbol('a'), {}, [], () => 1, new Uint16Array(4), new DataView(new ArrayBuffer(4)), new ArrayBuffer(4), new Date(),
  new Proxy(new Uint8Array(4), {}), { length: 4, 0: 1 }, '\ud800', 'a\udc00\ufffd',
]
const NO_COUNTS = [undefined, null, true, '1', 1.5, -1, NaN, Infinity, 2 ** 53, 2 ** 64, -1n, 2n ** 64n, {}, [1], Symbol('a')]
const WRONG = ['ERR_INVALID_ARG_TYPE', 'ERR_OUT_OF_RANGE']

/** The calls of the addon, and the letters of each. */
const letters = {
  version: '', cid: 'b', cid_text: 'bh', apply: 'rbbbll', preview: 'rbbbllh', apply_signed: 'rbbbllbbnbbh', open: 'n', open_car: 'nb', close: 'rf',
}
/** These are made at once alone. */
const atOnce = ['open', 'open_car', 'close']
for (const [, name, row] of fileBeside('node/addon/calls.def').matchAll(/^CALL\((\w+), "(\w*)"/gm)) letters[name] = row

test('each argument of each call of the addon, each wrong value', () => {
  assert.deepEqual(Object.keys(native).sort(), [...Object.keys(letters), 'later', 'slate'].sort())
  assert.deepEqual(Object.keys(native.later).sort(), Object.keys(letters).filter(it => !atOnce.includes(it)).sort())
  const some = { b: new Uint8Array(3), l: [new Uint8Array(3)], n: 3, k: 3, h: 3, f: true, r: 1 }, cyclic = []
  cyclic.push(cyclic)
  const wrong = {
    b: NO_BYTES, n: NO_COUNTS, k: [...NO_COUNTS, 256, 1n << 32n], h: [...NO_COUNTS, 2 ** 52], r: NO_COUNTS, f: [undefined, 0, 'true', {}],
    l: [undefined, 'a', {}, new Uint8Array(3), new Array(2 ** 32 - 1), new Proxy([], {}), { length: 1, 0: 'a' }, cyclic, [,], ...NO_BYTES.map(it => ['a', it])],
  }
  for (const [name, row] of Object.entries(letters))
    for (const call of [native[name], native.later[name]].filter(Boolean)) {
      const given = [...row].map(it => some[it])
      if (row) assert.throws(() => call(), { code: 'ERR_INVALID_ARG_TYPE' })
      assert.throws(() => call(...given, 1), { code: 'ERR_INVALID_ARG_TYPE' })
      for (const [place, letter] of [...row].entries())
        for (const value of wrong[letter]) assert.throws(() => call(...given.with(place, value)), it => WRONG.includes(it.code), `${name} ${place}`)
    }
  // repositories that there never were
  for (const id of [0, 1, 2 ** 20, 2 ** 53 - 1, 2n ** 64n - 1n]) for (const name of ['root', 'number', 'commit']) assert.equal(native[name](id), 250)
})

test('lengths that fit nothing, of random calls', async () => {
  const draw = new Random(3), waiting = [], bytes = () => new Uint8Array(draw.below(80)).map(() => draw.below(256))
  const list = () => Array.from({ length: draw.below(5) }, () => draw.below(2) ? bytes() : 'a'.repeat(draw.below(9)))
  const of = { b: bytes, l: list, n: () => draw.below(4), k: () => draw.below(6), h: () => draw.below(200), f: () => !draw.below(2) }
  for (const [name, row] of Object.entries(letters)) {
    if (row.includes('r') || name === 'open' || name === 'open_car') continue
    for (let left = 1000; left; left--) {
      const given = [...row].map(it => of[it]())
      assert(['number', 'object'].includes(typeof native[name](...given)))
      if (left % 10 === 0) waiting.push(native.later[name](...given))
    }
  }
  await Promise.all(waiting)
  const one = native.open(10), id = new Float64Array(native.slate, 112, 1)[0]
  assert.equal(one, 0)
  for (const [name, row] of Object.entries(letters)) {
    if (row[0] !== 'r' || name === 'close') continue
    for (let left = 500; left; left--) assert(['number', 'object'].includes(typeof native[name](id, ...[...row.slice(1)].map(it => of[it]()))), name)
  }
  assert.equal(native.close(id, false), 0)
})

test('lists in one array of bytes: what does not add up is refused', () => {
  const draw = new Random(5)
  let taken = 0
  for (let left = 20_000; left; left--) {
    const lengths = Array.from({ length: draw.below(4) }, () => draw.below(5)), sum = lengths.reduce((one, other) => one + other, 0)
    const list = Buffer.concat([new Uint8Array(new Uint32Array([lengths.length, ...lengths]).buffer), new Uint8Array(sum)]), [from, to] = [draw.below(9), draw.below(300)]
    const end = Math.min(from + 1, list.length), changed = draw.below(2) ? list : left % 2 ? list.subarray(0, -1) : list.fill(to, Math.min(from, list.length), end)
    try {
      assert.equal(native.cids(changed, 0), 0)
      taken++
    } catch (error) {
      assert.equal(error.code, 'ERR_INVALID_ARG_TYPE')
    }
  }
  assert(taken > 5000 && taken < 18_000)
  for (const head of [[2 ** 32 - 1], [1, 2 ** 32 - 1], [2, 2 ** 32 - 1, 1]]) assert.throws(() => native.cids(new Uint8Array(new Uint32Array(head).buffer), 0), TypeError)
})

test('wrong values of the package', async () => {
  const one = t.Repository.open(10), put = puts(0, 1)[0]
  for (const it of NO_BYTES) {
    const calls = [
      () => t.keyLayer(it), () => t.isKey(it), () => t.isDid(it), () => t.cidOf(it), () => t.checkRecord(it), () => t.links(it), () => t.cidsOf([it]), () => one.get(it), () => one.prove(it),
      () => one.apply(stamp(1), [put, { ...put, record: it }]), () => one.apply(stamp(1), [put, { ...put, key: it }]), () => one.apply({ did: it, rev: tid(1) }, [put]),
      () => t.verify(EMPTY, [it], 'a'), () => t.verify(EMPTY, [], it), () => t.treeRoot([[it, EMPTY]]), () => t.listingCar(stamp(1), [['a', it]]), () => t.listingCar(stamp(1), [[it, put.record]]),
      () => t.verifyChange(EMPTY, EMPTY, [it], []), () => t.verifyInversion(EMPTY, EMPTY, [it], []), () => t.tree.get(() => t.EMPTY_NODE, EMPTY, it),
    ]
    for (const [at, call] of calls.entries()) assert.equal(await code(call), 'ERR_INVALID_ARG_TYPE', `${at} of ${typeof it}`)
    assert.match(`${await code(() => t.verify(it, [], 'a'))}`, /ERR_INVALID_ARG_TYPE|CID_/)
    assert.match(`${await code(() => t.treeRoot([['a', it]]))}`, /ERR_INVALID_ARG_TYPE|CID_/)
    if (it !== null) assert.match(`${await code(() => one.proveChange([['a', it]]))}`, /ERR_INVALID_ARG_TYPE|CID_/)
    if (it != null) assert.match(`${await code(() => t.tree.apply(() => it, EMPTY, { a: EMPTY }))}`, /ERR_INVALID_ARG_TYPE/)
  }
  for (const it of NO_COUNTS) assert(WRONG.includes(await code(() => t.Repository.open(it))))
  for (const length of ['1', 0, -1, 1.5, NaN, 2 ** 31]) assert(WRONG.includes(await code(() => one.carParts(length).next())))
  for (const action of [undefined, 'PUT', 'toString', '__proto__', 0]) assert.equal(await code(() => one.apply(stamp(1), [{ ...put, action }])), 'ERR_INVALID_ARG_TYPE')
  for (const writes of [undefined, null, 1, [undefined], [null], [1], 'a', [{ ...put, key: undefined, collection: 'a.b.c' }]]) assert(await code(() => one.apply(stamp(1), writes)), `${writes}`)
  for (const it of [undefined, null, 1]) assert(await code(() => one.apply(it, [put])))
  for (const it of [undefined, null, 1, ['a'], [undefined]]) assert(await code(() => t.treeRoot(it)), `${it}`)
  assert.throws(() => new t.Repository(), TypeError)
  assert.throws(() => new t.Repository(1), TypeError)
  for (const name of ['get', 'close', 'prove']) assert.throws(() => t.Repository.prototype[name].call({}), TypeError)
  assert.throws(() => Object.create(t.Cid.prototype).toString(), TypeError)
  // the slate doesn't leave: Node 20 passes over the wish, and later ones throw
  try {
    structuredClone(native.slate, { transfer: [native.slate] })
  } catch {}
  assert.equal(native.slate.byteLength, 65_536)
  assert.equal(one.number, 0)
  one.close()
})

test('bytes of any kind of buffer', async () => {
  const text = 'app.bsky.feed.post/9adeb165882c', one = Buffer.from(text), foreign = vm.runInNewContext(`new Uint8Array(${one.length})`)
  const shared = new Uint8Array(new SharedArrayBuffer(one.length)), inside = new Uint8Array(100).subarray(5, 5 + one.length), resizable = new Uint8Array(new ArrayBuffer(one.length, { maxByteLength: 64 }))
  for (const it of [shared, inside, resizable, foreign]) {
    it.set(one)
    assert.equal(t.keyLayer(it), 8)
    assert(t.cidOf(it).equals(t.cidOf(one)))
  }
  for (const it of [detached, shrunk, new Uint8Array(0), '']) assert.equal(t.isKey(it), false)
  assert(t.isKey('\ufffd') && t.isKey('\u{10ffff}') && t.isKey('a\ufffd\u{10000}'))
  for (const length of [60, 61, 63, 64, 65, 1023, 1024, 4090, 4096, 5000]) assert.equal(t.isKey('a'.repeat(length)), length <= 1024)
  assert.deepEqual([t.isKey('\u00e9'.repeat(512)), t.isKey('\u00e9'.repeat(513))], [true, false])
  assert.equal(t.keyLayer('x'.repeat(3_000_000)), t.keyLayer(Buffer.alloc(3_000_000, 'x')))
  // what a call on another thread was given it keeps, whatever becomes of it
  const block = new Uint8Array(1 << 20).fill(7), own = t.cidOf(block), waiting = t.cidsOf([block, block])
  block.fill(8)
  structuredClone(block.buffer, { transfer: [block.buffer] })
  for (const cid of await waiting) assert(cid.equals(own))
})

test('code of a caller between the arguments', () => {
  assert.equal(native.open(10), 0)
  const id = new Float64Array(native.slate, 112, 1)[0], lent = new Uint8Array(32), list = ['a']
  // the getter takes away what another argument lends, calls, and closes the repository
  Object.defineProperty(list, 0, {
    get() {
      if (lent.length) structuredClone(lent.buffer, { transfer: [lent.buffer] })
      native.layer('another'.repeat(100))
      native.close(id, false)
      return 'a'
    },
  })
  assert.equal(native.apply(id, lent, 'b', Uint8Array.of(0), list, ['b']), 250)
  assert.equal(native.verify(list, lent, lent), 252)
  const thrown = new Error('thrown')
  Object.defineProperty(list, 0, { get() { throw thrown } })
  assert.throws(() => native.verify(list, 'a', 'b'), it => it === thrown)
  Object.defineProperty(list, 0, { get() { list.length = 0 } })
  assert.throws(() => native.verify(list, 'a', 'b'), TypeError)
})
