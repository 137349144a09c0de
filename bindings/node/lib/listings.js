/** Trees from scratch, and what stands below a node. */
import { MANY, called, cidAt, filled, isLong, native, numberOf, packed, sizeOf } from './native.js'
import { Reader, joined, made, raw } from './cids.js'
import { TreeError, treeFault } from './faults.js'
import { block, listOf, wrong } from './given.js'

/** The one node of the tree of no keys. */
export const EMPTY_NODE = Uint8Array.of(0xa2, 0x61, 0x65, 0x80, 0x61, 0x6c, 0xf6)

const valueOf = pair => {
  if (pair?.[1] == null) throw wrong('a pair is a key and a CID')
  return raw(pair[1])
}

/** The root and the number of nodes of the tree of these pairs of a key and a CID, whose keys ascend. */
export async function treeRoot(pairs) {
  const list = listOf(pairs), answer = await called(list.length > MANY, 'tree_root', list.map(it => it?.[0]), joined(list.map(valueOf)))
  if (answer.number) throw treeFault(answer.number)
  return { root: made(cidAt(answer.cids, 0)), nodes: answer.place }
}

/** The CAR file of a repository whose one batch puts these records, each a key and its bytes, under this stamp. */
export async function listingCar({ did, rev }, records) {
  const list = listOf(records), keys = list.map(it => it?.[0]), bytes = list.map(it => block(it?.[1]))
  // Room for most files: where it is too small all is made once more.
  const room = 2 * sizeOf(bytes) + 400 * list.length + 1024
  const answer = await called(isLong(bytes), 'listing_car', did, rev, keys, packed(bytes), room)
  if (answer.number) throw treeFault(answer.number)
  return answer.bytes
}

/** The pairs and the links of a node, from the front: the link before the first key, and each pair with the link behind it. */
export function nodeEntries(node) {
  const answer = native.node_entries(block(node), 0), pairs = []
  if (numberOf(answer)) throw new TreeError(answer)
  const reader = new Reader(filled(answer)), left = reader.value()
  while (reader.more) pairs.push({ key: reader.part(), cid: reader.cid(), link: reader.value() })
  return { left, pairs }
}

/** What stands below a node, in the order of a CAR file: nodes and records. */
export function links(node) {
  const answer = native.links(block(node), 0), found = []
  if (numberOf(answer)) throw new TreeError(answer)
  for (const reader = new Reader(filled(answer)); reader.more;) found.push({ isNode: reader.byte() === 1, cid: reader.cid() })
  return found
}
