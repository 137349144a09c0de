/** Each fault, and that the codes are those of the header. */
import assert from 'node:assert/strict'
import { readFileSync } from 'node:fs'
import test from 'node:test'
import * as t from 'tizulgech'
import { DID, EMPTY, fails, fileBeside, hex, key, nodeOf, nodeOver, puts, record, seen, stamp, tid } from './common.js'

const NAMES = 'TRUNCATED LONG_HEAD INDEFINITE BAD_TAG BAD_LINK KEY_NOT_TEXT KEY_ORDER BAD_UTF8 FLOAT SIMPLE INTEGER_RANGE TOO_DEEP TRAILING'.split(' ')
const NO_RECORDS = ['a1', 'a1616b1801', '9fff', 'c100', 'd82a4100', 'a10000', 'a26162f66161f6', '61ff', 'fb3ff0000000000000', 'f7', '1bffffffffffffffff', '81'.repeat(1000), 'a0a0']
const put = (text = 'a0', action = 'put', key = 'a.b.c/d') => ({ action, key, record: hex(text) })

test('of the text of a CID', async () => {
  const bad = {
    CID_LENGTH: EMPTY.slice(1), CID_PREFIX: `z${EMPTY.slice(1)}`, CID_LETTER: EMPTY.replace('a', '1'), CID_BITS: `${EMPTY.slice(0, 58)}n`,
    CID_PROFILE: EMPTY.replace('bafyrei', 'bafkrei'),
  }
  for (const name in bad) await fails(() => t.Cid.parse(bad[name]), t.CidError, name)
})

test('of records, writes and stamps', async () => {
  for (const [at, text] of NO_RECORDS.entries()) {
    await fails(() => t.checkRecord(hex(text)), t.RecordError, NAMES[at], { number: at + 1 })
    await fails(() => t.checkWrite(put(text), false), t.BatchError, NAMES[at])
  }
  await fails(() => t.checkWrite(put('a0', 'put', 'a'), false), t.BatchError, 'BAD_KEY')
  await fails(() => t.checkWrite(put('f5'), false), t.BatchError, 'NOT_A_MAP')
  await fails(() => t.checkWrite({ ...put(), record: new Uint8Array(1_048_577) }, false), t.BatchError, 'RECORD_SIZE')
  await fails(() => t.checkWrite(put('a0', 'create'), true), t.BatchError, 'KEY_EXISTS')
  await fails(() => t.checkWrite(put('a0', 'update'), false), t.BatchError, 'NONE')
  await fails(() => t.checkWrite({ action: 'delete', key: 'a.b.c/d' }, false), t.BatchError, 'NONE')
  await fails(() => t.checkStamp('', { did: 'did:', rev: tid(1) }), t.BatchError, 'BAD_DID')
  await fails(() => t.checkStamp('', { did: DID, rev: '1' }), t.BatchError, 'BAD_REV')
  await fails(() => t.checkStamp(tid(1), stamp(1)), t.BatchError, 'REV_ORDER')
})

test('of batches', async () => {
  for (const limit of [0, 1_048_577, 2n ** 64n - 1n]) await fails(() => t.Repository.open(limit), t.RepositoryError, 'BAD')
  const one = t.Repository.open(3), refused = (writes, code, place, by = stamp(1)) => fails(() => one.apply(by, writes), t.BatchError, code, { place })
  await refused([], 'EMPTY_BATCH', 0)
  for (const [at, text] of NO_RECORDS.entries()) await refused([put(), put(text)], NAMES[at], 1)
  await refused([put()], 'BAD_DID', 0, { did: 'did:', rev: tid(1) })
  await refused([put()], 'BAD_REV', 0, { did: DID, rev: '1' })
  await refused([put(), put('a0', 'put', 'a')], 'BAD_KEY', 1)
  await refused([put('f5')], 'NOT_A_MAP', 0)
  await refused([{ ...put(), record: new Uint8Array(1_048_577) }], 'RECORD_SIZE', 0)
  await refused([{ action: 'delete', key: 'a.b.c/d' }], 'NONE', 0)
  await refused([put(), put('a0', 'create')], 'KEY_EXISTS', 1)
  await refused(Array(4).fill(put()), 'WRITES_FULL', 3)
  await one.apply(stamp(1), [put()])
  await refused([put()], 'REV_ORDER', 0)
  // a refused one of another thread
  const large = t.Repository.open(200)
  await fails(() => large.apply(stamp(2), [...Array(99).fill(put()), put('a0', 'put', 'a')]), t.BatchError, 'BAD_KEY', { place: 99 })
  assert.deepEqual([one.number, large.number], [1, 0])
  large.close()
  one.close()
})

test('of a closed repository', async () => {
  const one = t.Repository.open(3)
  one.close()
  const calls = [
    () => one.get('a.b.c/d'), () => one.root, () => one.commit, () => one.number, () => one.prove('a'), () => one.list(), () => one.list('', 1000), () => one.entries().next(),
    () => one.car(), () => one.carParts().next(), () => one.carSections().next(), () => one.carLength(), () => one.proveChange({}), () => one.proveInversion([]),
    () => one.apply(stamp(3), [put()]), () => one.apply(stamp(3), Array(99).fill(put())),
  ]
  for (const call of calls) await fails(call, t.RepositoryError, 'CLOSED')
})

test('of a repository that a call has, or that has changed', async () => {
  const one = t.Repository.open(9999), waiting = one.apply(stamp(1), puts(0, 999))
  await fails(() => one.root, t.RepositoryError, 'BUSY')
  await waiting
  const parts = one.carParts(1)
  await parts.next()
  await one.apply(stamp(2), [put()])
  await fails(async () => { for (;;) if ((await parts.next()).done) break }, t.RepositoryError, 'CHANGED')
  one.close()
})

test('of trees and listings', async () => {
  const root = t.Cid.parse(EMPTY)
  await fails(() => t.tree.apply(() => t.EMPTY_NODE, EMPTY, [['a', root], ['a', root]]), t.TreeError, 'BAD')
  await fails(() => t.tree.apply(() => t.EMPTY_NODE, EMPTY, { '': root }), t.TreeError, 'BAD')
  await fails(() => t.tree.apply(() => null, EMPTY, { a: root }), t.TreeError, 'MISSING', { cid: root })
  await fails(() => t.treeRoot([['b', root], ['a', root]]), t.TreeError, 'NOT_ASCENDING')
  await fails(() => t.verify(root, [], 'a'), t.TreeError, 'MISSING')
  await fails(() => t.verify(root, [], ''), t.TreeError, 'BAD_KEY')
  await fails(() => t.verify(t.cidOf(hex('78')), [hex('78')], 'a'), t.TreeError, 'BAD_NODE')
  await fails(() => t.links(hex('78')), t.TreeError, 'BAD_NODE')
  for (const call of [t.verifyChange, t.verifyInversion]) await fails(() => call(root, root, [], [{ key: 'a', prev: null, cid: root }]), t.TreeError, 'MISSING', { cid: root })
  for (const [by, pairs] of [[stamp(1), []], [stamp(1), [['a', record(1)]]], [{ did: 'x', rev: tid(1) }, [['a.b.c/d', record(1)]]], [stamp(1), [[key(1), hex('f5')]]]])
    await fails(() => t.listingCar(by, pairs), t.TreeError, 'NOT_BUILT')
})

test('of nodes that are no tree', async () => {
  // a chain of nodes that is longer than any tree is deep
  let top = t.Cid.parse(EMPTY)
  const chain = [t.EMPTY_NODE], over = new Map([[EMPTY, t.EMPTY_NODE]])
  for (let left = 300; left; left--) {
    chain.push(nodeOver(top))
    top = t.cidOf(chain.at(-1))
    over.set(`${top}`, chain.at(-1))
  }
  const get = cid => over.get(`${cid}`)
  await fails(() => t.verify(top, chain, 'a'), t.TreeError, 'TOO_MANY_NODES')
  await fails(() => t.tree.get(get, top, 'a'), t.TreeError, 'TOO_MANY_NODES')
  await fails(() => t.tree.apply(get, top, { a: EMPTY }), t.TreeError, 'TOO_MANY_NODES')
  // bytes that are no node, under their own CID
  const bad = t.cidOf(hex('78'))
  for (const call of [t.tree.get, (get, root) => t.tree.apply(get, root, { a: EMPTY })]) await fails(() => call(() => hex('78'), bad, 'a'), t.TreeError, 'BAD_NODE', { cid: bad })
  // two nodes that meet where the key between them goes, with their own keys in no order
  let high = 0
  while (t.keyLayer(`b${high}`) !== 1) high++
  const [before, behind] = [nodeOf(null, 'z', null), nodeOf(null, 'a', null)], crossed = nodeOf(t.cidOf(before), `b${high}`, t.cidOf(behind))
  const all = new Map([before, behind, crossed].map(it => [`${t.cidOf(it)}`, it])), root = t.cidOf(crossed)
  await fails(() => t.tree.apply(cid => all.get(`${cid}`), root, { [`b${high}`]: null }), t.TreeError, 'NOT_TREE')
  await fails(() => t.verifyChange(root, root, all.values(), [{ key: `b${high}`, prev: t.cidOf(hex('')), cid: null }]), t.TreeError, 'NOT_TREE')
})

test('of changes', async () => {
  const one = t.Repository.open(9), { root, previous } = await one.apply(stamp(1), [put()]), other = t.cidOf(hex('01'))
  const change = { key: 'a.b.c/d', prev: null, cid: t.cidOf(hex('a0')) }
  await fails(() => t.verifyChange(previous, other, [t.EMPTY_NODE], [change]), t.TreeError, 'OTHER_ROOT')
  await fails(() => t.verifyChange(previous, root, [t.EMPTY_NODE], [{ ...change, prev: other }]), t.TreeError, 'OTHER_VALUE', { place: 0 })
  await fails(() => one.proveInversion([{ ...change, cid: other }]), t.TreeError, 'OTHER_VALUE', { place: 0 })
  await fails(() => one.proveInversion([change, change]), t.TreeError, 'BAD')
  await fails(() => one.proveChange([['a', null], ['a', null]]), t.TreeError, 'BAD')
  one.close()
})

test('of commits, messages and signed batches', async () => {
  const table = JSON.parse(fileBeside('cases.json')), root = t.Cid.parse(EMPTY)
  // Hexadecimal in parts with a space between two, in which x*n stands for n times x.
  const data = text => Buffer.concat(text.split(' ').map(it => it.split('*')).map(([part, count = 1]) => hex(part.repeat(count))))
  const refused = call => table.calls.filter(it => it.call === call && it.fault)
  for (const it of refused('read_commit')) await fails(() => t.readCommit(data(it.bytes)), t.CommitError, it.fault)
  for (const it of refused('check_commit')) await fails(() => t.checkCommit(it.previous, data(it.message)), t.MessageError, it.fault, { place: it.place })
  const one = t.Repository.open(9), told = { previous: root, sig: hex('00'), seq: 1, time: '2026-11-30T12:00:00Z', since: null }
  const unsigned = (code, more, writes = [put()]) => fails(() => one.applySigned(stamp(1), writes, { ...told, ...more }), t.BatchError, code)
  await unsigned('ROOT_MOVED', { previous: t.cidOf(hex('')) })
  await unsigned('EMPTY_BATCH', {}, [])
  await unsigned('BAD_SEQ', { seq: 2n ** 63n })
  await unsigned('BAD_SINCE', { since: '1' })
  await unsigned('SINCE_ORDER', { since: tid(1) })
  await unsigned('BAD_TIME', { time: 'now' })
  await fails(() => one.preview({ did: 'did:', rev: tid(1) }, [put()]), t.BatchError, 'BAD_DID', { place: 0 })
  assert.deepEqual([one.number, one.rev], [0, null])
  one.close()
  await fails(() => one.rev, t.RepositoryError, 'CLOSED')
  await fails(() => one.preview(stamp(1), [put()]), t.RepositoryError, 'CLOSED')
  await fails(() => one.applySigned(stamp(1), [put()], told), t.RepositoryError, 'CLOSED')
})

test('of JSON, of links and of files', async () => {
  const table = JSON.parse(fileBeside('cases.json'))
  const calls = {
    json_record: [it => t.jsonRecord(it.text), t.JsonError], record_json: [it => t.recordJson(hex(it.record)), t.JsonError],
    link_text: [it => t.linkText(hex(it.bytes)), t.JsonError], link_from_text: [it => t.linkFromText(it.text), t.JsonError],
    check_car: [it => t.checkCar(hex(it.file)), t.FileError], open_car: [it => t.Repository.openCar(it.limit, hex(it.file)), t.FileError],
  }
  for (const it of table.calls) {
    if (!(it.call in calls) || !it.fault || /\*/.test(it.record ?? it.bytes ?? '')) continue
    const [call, Kind] = calls[it.call]
    await fails(() => call(it), Kind, it.fault)
  }
  assert.throws(() => t.jsonRecord('{"a": [1.5]}'), { path: '.a[0]', message: '.a[0]: a number has a point or an exponent' })
  await assert.rejects(t.checkCar(hex('00')), { message: 'the file does not begin as a CAR with one root' })
})

test('the codes are those of the header, and each was seen', () => {
  const header = fileBeside('c/tizulgech.h'), table = header.slice(header.indexOf('enum {'), header.indexOf('};'))
  const named = Array.from(table.matchAll(/TIZULGECH_(\w+) = (\d+)/g), ([, name, number]) => [name, Number(number)])
  const own = readFileSync(new URL('../lib/faults.js', import.meta.url), 'utf8')
  for (const [name, number] of named) assert(name === 'DONE' || own.includes(`${number}: ['${name}'`), name)
  // Those that are no faults to whoever calls from here, those that want a clash, a full store or no memory, and one that no accepted batch has.
  const unseen = named.map(([name]) => name).filter(name => !seen.has(name))
  assert.deepEqual(unseen.sort(), ['BELOW', 'CLASH', 'DONE', 'FULL', 'NO_BATCH', 'NO_MEMORY', 'OPEN', 'SMALL'])
})
