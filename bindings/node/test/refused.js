/** Each request for memory refused in turn, of the addon built with refused.c: a call says NO_MEMORY and is as if it hadn't been made, or is
 * done; and nothing leaks. */
import assert from 'node:assert/strict'
import test from 'node:test'
import * as t from 'tizulgech'
import { native } from '../lib/native.js'
import { EMPTY, all, collected, fileBeside, hex, key, puts, record, stamp } from './common.js'

const one = t.Repository.open(10_000)
await one.apply(stamp(1), puts(0, 40))
const pairs = await one.list(), names = pairs.map(it => it.key), { root } = one, proof = one.prove(names[3]), blocks = Array.from({ length: 30 }, (_, n) => record(n))
const nodes = new Map(), { newBlocks } = await t.tree.apply(() => t.EMPTY_NODE, EMPTY, pairs.map(it => [it.key, it.cid]))
for (const { cid, bytes } of newBlocks) nodes.set(`${cid}`, bytes)
const get = cid => nodes.get(`${cid}`), gone = names.map(it => [it, null]), changed = await one.proveChange(gone)
const inverted = [{ key: names[0], prev: null, cid: pairs[0].cid }]
const long = 'x'.repeat(900), veryLong = 'x'.repeat(1 << 21)

const file = hex(JSON.parse(fileBeside('cases.json')).calls.find(it => it.call === 'check_car' && it.answer).file)
const calls = {
  checkRecord: () => t.checkRecord(hex('a1616b81a1616b01')),
  checkWrite: () => t.checkWrite({ action: 'put', key: 'a.b.c/d', record: hex('a1616b81a1616b01') }, true),
  commitBytes: () => t.commitBytes(stamp(2), root),
  cidsOf: () => t.cidsOf(blocks.slice(0, 3)),
  cidsOfMany: () => t.cidsOf(blocks),
  treeRoot: () => t.treeRoot(pairs.slice(0, 3).map(it => [it.key, it.cid])),
  treeRootOfMany: () => t.treeRoot(pairs.map(it => [it.key, it.cid])),
  listingCar: () => t.listingCar(stamp(1), names.slice(0, 3).map((it, n) => [it, blocks[n]])),
  listingCarOfMany: () => t.listingCar(stamp(1), names.slice(0, 30).map((it, n) => [it, blocks[n]])),
  links: () => t.links(proof[0]),
  verify: () => t.verify(root, proof, names[3]),
  verifyChange: () => t.verifyChange(root, changed.after, changed.nodes, changed.changes),
  verifyInversion: async () => t.verifyInversion(EMPTY, root, await one.proveInversion(inverted), inverted).catch(it => { if (it.code !== 'OTHER_ROOT') throw it }),
  treePath: () => t.tree.path(get, root, names[3]),
  treeApply: () => t.tree.apply(get, root, gone.slice(0, 2)),
  treeApplyOfMany: () => t.tree.apply(get, root, gone),
  nodeEntries: () => t.nodeEntries(proof[0]),
  treeList: () => t.tree.list(get, root, names[3], 9),
  treeProveChange: () => t.tree.proveChange(get, root, gone),
  treeDifference: () => t.tree.difference(cid => `${cid}` === EMPTY ? t.EMPTY_NODE : get(cid), EMPTY, root),
  recordJson: () => t.recordJson(blocks[0]),
  jsonRecord: () => t.jsonRecord('{"k": [{"k": 1}]}'),
  linkText: () => t.linkText(root.bytes),
  linkFromText: () => t.linkFromText(EMPTY),
  checkCar: () => t.checkCar(file),
  openCar: () => t.Repository.openCar(100, file).close(),
  open: () => t.Repository.open(10).close(),
  list: () => one.list('', 10),
  entries: () => all(one),
  car: () => one.car(),
  carParts: () => all(one.carParts(500)),
  carSections: () => all(one.carSections()),
  prove: () => one.prove(names[3]),
  proveChange: () => one.proveChange(gone),
  proveInversion: () => one.proveInversion(inverted),
  aLongText: () => t.isKey(long),
  aVeryLongText: () => t.keyLayer(veryLong),
  aTextOfHalves: () => t.isKey('\ufffd'),
  aRefusedBatch: () => one.apply(stamp(1), puts(0, 3)).catch(it => { if (it.code !== 'REV_ORDER') throw it }),
}

/** Makes a call with each of its requests refused in turn: how many of these it told. */
async function refused(name, call, isAsBefore) {
  let told = 0
  for (let at = 0; ; at++) {
    native.refuse(at)
    let code = null
    try {
      await call()
    } catch (error) {
      code = error.code
    }
    const [asked] = native.refuse(-1)
    assert(code === null || code === 'NO_MEMORY', `${name}: ${code} at request ${at}`)
    told += code !== null
    isAsBefore(code, name)
    if (asked <= at) return told
  }
}

test('each call', async () => {
  const reading = () => [`${one.root}`, `${one.commit}`, one.number].join(), before = reading()
  let told = 0
  for (const [name, call] of Object.entries(calls)) told += await refused(name, call, () => assert.equal(reading(), before, name))
  console.log(`${told} refused requests of ${Object.keys(calls).length} calls were told`)
  assert(told > 100)
})

test('a batch of five writes, and one of fifty', async () => {
  for (const count of [5, 50]) {
    let two
    const call = async () => {
      two?.close()
      native.refuse(-1)
      two = t.Repository.open(100)
      return two
    }
    for (let at = 0, none = false; !none; at++) {
      const repository = await call()
      native.refuse(at)
      const code = await repository.apply(stamp(1), puts(0, count)).then(() => null, error => error.code)
      none = native.refuse(-1)[0] <= at
      assert(code === null || code === 'NO_MEMORY', `${code} at request ${at}`)
      assert.deepEqual([repository.number, `${repository.root}` === EMPTY], code ? [0, true] : [count, false])
      // none of its writes waits
      await repository.apply(stamp(2), [{ action: 'put', key: 'a.b.c/own', record: hex('a0') }])
      assert.equal(repository.number, code ? 1 : count + 1)
    }
    two.close()
  }
})

test('nothing leaks', async () => {
  const held = async () => {
    for (const [name, call] of Object.entries(calls)) await refused(name, call, () => {})
    await collected()
    return native.refuse(-1)[1]
  }
  await held()
  const before = await held()
  assert.equal(await held(), before)
})
