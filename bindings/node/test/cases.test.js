/** The table of calls and answers that the tests of all bindings read: bindings/cases.json. */
import assert from 'node:assert/strict'
import test from 'node:test'
import * as t from 'tizulgech'
import { OF_CIDS, OF_RECORDS, OF_TREES, TizulgechError } from '../lib/faults.js'
import { all, fileBeside } from './common.js'

const table = JSON.parse(fileBeside('cases.json'))

/** Text of the table, in which x*n stands for n times x. */
const whole = text => {
  const found = text.match(/^(.+)\*(\d+)$/s)
  return found ? found[1].repeat(Number(found[2])) : text
}
const data = text => Uint8Array.from(Buffer.concat(text.split(' ').map(it => Buffer.from(whole(it), 'hex'))))
/** Bytes in hexadecimal, long runs of zeros as one word. */
const packed = bytes => Buffer.from(bytes).toString('latin1').split(/(\0{1000,})/).filter(Boolean)
  .map(it => it.length > 999 && !/[^\0]/.test(it) ? `00*${it.length}` : hex(Buffer.from(it, 'latin1'))).join(' ')
const commit = it => ({ did: it.did, rev: it.rev, root: `${it.root}`, prev: text(it.prev), sig: hex(it.sig), unsigned: hex(it.unsigned) })
const hex = bytes => Buffer.from(bytes).toString('hex')
const text = cid => cid && `${cid}`
const told = changes => changes.map(([key, prev, cid]) => ({ key, prev, cid }))
const rows = changes => changes.map(it => [it.key, text(it.prev), text(it.cid)])
const pairs = found => found.map(it => [it.key, `${it.cid}`])
const write = ([action, key, record]) => action === 'delete' ? { action, key } : { action, key, record: data(record) }
const host = nodes => cid => `${cid}` in nodes ? data(nodes[`${cid}`]) : null
/** What is done or refused, and answers nothing. */
const done = () => null

const calls = {
  record_fault: it => t.checkRecord(data(it.bytes)) ?? null,
  write_fault: it => t.checkWrite(write(it.write), it.there) ?? null,
  layer: it => t.keyLayer(it.key),
  is_key: it => t.isKey(whole(it.key)),
  is_repository_key: it => t.isRepositoryKey(it.key),
  is_did: it => t.isDid(it.did),
  is_tid: it => t.isTid(it.rev),
  cid: it => `${t.cidOf(data(it.block))}`,
  cids: async it => (await t.cidsOf(it.blocks.map(data))).map(text),
  cid_text: it => `${new t.Cid(data(it.bytes))}`,
  cid_from_text: it => hex(t.Cid.parse(it.text).bytes),
  stamp_fault: it => t.checkStamp(it.before, it) ?? null,
  commit_bytes: it => hex(t.commitBytes(it, it.root)),
  signed_commit: it => hex(t.signedCommit(it, it.root, data(it.sig))),
  next_tid: it => t.nextTid(it.last || null, it.micros, it.clock),
  read_commit: it => commit(t.readCommit(data(it.bytes))),
  file_head: it => hex(t.fileHead(it.root)),
  file_section: it => hex(t.fileSection(it.of, data(it.block))),
  empty_account: it => {
    const root = t.cidOf(t.EMPTY_NODE), signed = t.signedCommit(it, root, data(it.sig)), top = t.cidOf(signed)
    return [t.fileHead(top), t.fileSection(top, signed), t.fileSection(root, t.EMPTY_NODE)].map(hex).join('')
  },
  check_commit: async it => {
    const { commit: own, seq, cid, since, time, operations, blocks } = await t.checkCommit(it.previous, data(it.message))
    return { commit: commit(own), seq, cid: `${cid}`, since, time, operations: rows(operations), blocks: blocks.map(one => [`${one.cid}`, packed(one.bytes)]) }
  },
  tree_root: async it => {
    const { root, nodes } = await t.treeRoot(it.pairs)
    return [`${root}`, nodes]
  },
  listing_car: async it => hex(await t.listingCar(it, it.records.map(([key, record]) => [key, data(record)]))),
  links: it => t.links(data(it.node)).map(({ isNode, cid }) => [isNode, `${cid}`]),
  verify: async it => text(await t.verify(it.root, it.proof.map(data), it.key)),
  verify_change: it => t.verifyChange(it.before, it.after, it.nodes.map(data), told(it.changes)).then(done),
  verify_inversion: it => t.verifyInversion(it.before, it.after, it.nodes.map(data), told(it.changes)).then(done),
  tree_get: async it => text(await t.tree.get(host(it.nodes), it.root, it.key)),
  tree_path: async it => {
    const { path, value } = await t.tree.path(host(it.nodes), it.root, it.key)
    return { path: path.map(hex), value: text(value) }
  },
  tree_apply: async it => {
    const edit = await t.tree.apply(host(it.nodes), it.root, it.changes)
    return {
      root: `${edit.root}`, add: edit.newBlocks.map(({ cid, bytes }) => [`${cid}`, hex(bytes)]).sort(([one], [other]) => one < other ? -1 : 1),
      drop: edit.removedCids.map(text).sort(), previous: edit.changes.map(({ key, prev }) => [key, text(prev)]),
    }
  },
}

/** The text of a key's bytes. */
const utf8 = bytes => Buffer.from(bytes).toString()
const blocks = list => list.map(({ cid, bytes }) => [`${cid}`, hex(bytes)]).sort(([one], [other]) => one < other ? -1 : 1)
Object.assign(calls, {
  node_entries: it => {
    const { left, pairs } = t.nodeEntries(data(it.node))
    return { left: text(left), pairs: pairs.map(({ key, cid, link }) => [utf8(key), `${cid}`, text(link)]) }
  },
  tree_list: async it => (await t.tree.list(host(it.nodes), it.root, it.start, it.most)).map(({ key, cid }) => [utf8(key), `${cid}`]),
  tree_prove_change: async it => {
    const { after, changes, nodes } = await t.tree.proveChange(host(it.nodes), it.root, it.changes)
    await t.verifyChange(it.root, after, nodes, changes)
    return { after: `${after}`, changes: rows(changes), shown: true }
  },
  tree_difference: async it => {
    const { changes, newBlocks, removedCids } = await t.tree.difference(host(it.nodes), it.before, it.after)
    return { changes: changes.map(it => [utf8(it.key), text(it.prev), text(it.cid)]), add: blocks(newBlocks), drop: removedCids.map(text).sort() }
  },
  record_json: it => t.recordJson(data(it.record)),
  json_record: it => hex(t.jsonRecord(it.text)),
  link_text: it => t.linkText(data(it.bytes)),
  link_from_text: it => hex(t.linkFromText(it.text)),
  check_car: async it => {
    const found = await t.checkCar(data(it.file))
    return { ...found, commit: `${found.commit}`, root: `${found.root}` }
  },
  open_car: async it => {
    const one = t.Repository.openCar(it.limit, data(it.file))
    const answer = { root: `${one.root}`, number: one.number, pairs: pairs(await all(one.entries())) }
    one.close()
    return answer
  },
})

const steps = {
  apply: async (one, it) => {
    const { root, previous, commit } = await one.apply(it, it.writes.map(write))
    return { root: `${root}`, previous: `${previous}`, commit: `${commit}` }
  },
  preview: async (one, it) => {
    const { previous, root, unsigned, changes } = await one.preview(it, it.writes.map(write))
    return { previous: `${previous}`, root: `${root}`, unsigned: hex(unsigned), changes: rows(changes) }
  },
  apply_signed: async (one, it) => {
    const { previous, sig, seq, time, since } = it
    return packed(await one.applySigned(it, it.writes.map(write), { previous, sig: data(sig), seq: BigInt(seq), time, since }))
  },
  rev: one => one.rev,
  close: one => one.close() ?? null,
  root: one => `${one.root}`,
  commit: one => text(one.commit),
  number: one => one.number,
  get: (one, it) => {
    const found = one.get(it.key)
    return found && hex(found)
  },
  list: async (one, it) => pairs(await one.list(it.start, it.most)),
  pairs: async (one, it) => pairs(await all(one.entries(it.start))),
  car: async one => {
    const found = hex(await one.car())
    for (const parts of [one.carParts(100), one.carSections()]) assert.equal((await all(parts)).map(hex).join(''), found)
    return found
  },
  car_length: one => one.carLength(),
  prove: (one, it) => one.prove(it.key).map(hex),
  prove_change: async (one, it) => {
    const { after, changes, nodes } = await one.proveChange(it.changes)
    return { after: `${after}`, changes: rows(changes), nodes: nodes.map(hex) }
  },
  prove_inversion: async (one, it) => (await one.proveInversion(told(it.changes))).map(hex),
}

/** That a call answers what the case says, or is refused as it says. */
async function see(it, call) {
  const said = JSON.stringify(it).slice(0, 200)
  let answer
  try {
    answer = await call(it)
  } catch (error) {
    // A count that no number of JavaScript is exactly doesn't reach the library.
    if (it.fault === 'BAD' && !Number.isSafeInteger(it.micros ?? 0)) return assert(error instanceof RangeError, said)
    assert(error instanceof TizulgechError, `${said}: ${error?.stack}`)
    assert.deepEqual([error.code, error.number], [it.fault, table.faults[error.code]], said)
    for (const name of ['place', 'cid', 'path']) if (name in it && it.fault !== 'CLOSED') assert.equal(`${error[name] ?? 0}`, `${it[name]}`, said)
    return
  }
  assert(!('fault' in it), said)
  assert.deepEqual(answer, it.answer, said)
}

test('calls', async () => {
  for (const it of table.calls) await see(it, calls[it.call])
  assert.deepEqual(Array.from(new Set(table.calls.map(it => it.call))).sort(), Object.keys(calls).sort())
})

test('repositories', async () => {
  const seen = new Set()
  for (const hosted of table.repositories) {
    if (hosted.fault) {
      await see(hosted, () => t.Repository.open(hosted.limit))
      continue
    }
    const one = t.Repository.open(hosted.limit)
    for (const step of hosted.steps) {
      seen.add(step.call)
      await see(step, it => steps[it.call](one, it))
    }
    one.close()
  }
  assert.deepEqual(Array.from(seen).sort(), Object.keys(steps).sort())
})

test('the number of each fault', () => {
  for (const [name, number] of Object.entries(table.faults)) {
    const told = [undefined, OF_RECORDS, OF_CIDS, OF_TREES].map(it => new TizulgechError(number, it))
    assert(told.some(it => it.code === name && it.number === number), name)
  }
})
