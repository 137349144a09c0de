/** Trees whose nodes stand elsewhere, as in a database. */
import { called, cidAt, filled, firstCid, isLong, native, packed, sizeOf } from './native.js'
import { Cid, Reader, cidsOf, joined, made, raw } from './cids.js'
import { Wanted } from './changes.js'
import { BAD_NODE, BELOW, MISSING, NONE, OF_TREES, TOO_MANY_NODES, TreeError, treeFault } from './faults.js'
import { block, wrong } from './given.js'
import { keyBytes } from './keys.js'
import { nodeEntries } from './listings.js'

/** No tree has more layers. */
const LAYERS = 129
/** So many changes below one node are looked up at once. */
const FEW = 1000

const fault = (number, cid) => new TreeError(number, OF_TREES, { cid })

/** The nodes that a host was asked for, each once, copied before they are hashed, so that nothing that the host does later changes them. */
class Asked {
  nodes = new Map()
  constructor(get) {
    if (typeof get !== 'function') throw wrong('nodes are given by a function')
    this.get = get
  }
  has(cid) { return this.nodes.has(`${cid}`) }
  of(cid) { return this.nodes.get(`${cid}`).node }
  /** Asks for those that aren't here, all at once, and sees that each is of its CID. */
  async ask(cids) {
    const asked = new Map()
    for (const cid of cids) if (!this.has(cid)) asked.set(`${cid}`, cid)
    const found = await Promise.all(Array.from(asked.values(), async cid => {
      const node = await this.get(cid)
      if (node == null) throw fault(MISSING, cid)
      return new Uint8Array(block(node))
    }))
    const own = await cidsOf(found)
    let place = 0
    for (const [text, cid] of asked) {
      if (!own[place].equals(cid)) throw fault(BAD_NODE, cid)
      this.nodes.set(text, { cid, node: found[place++] })
    }
  }
  /** Asks for all nodes that changes need, a layer at a time. */
  async askBelow(root, wanted) {
    let left = [{ cid: root, from: 0, to: wanted.length }]
    for (let layer = 0; left.length; layer++) {
      if (layer === LAYERS) throw fault(TOO_MANY_NODES)
      left = left.filter(it => !this.has(it.cid))
      await this.ask(left.map(it => it.cid))
      const below = []
      for (const it of left) below.push(...await this.below(it, wanted))
      left = below
    }
  }
  /** The links of a node below which changes go, and which these are. A change goes below two of them at most. */
  async below({ cid, from, to }, wanted) {
    const answer = await called(to - from > FEW, 'below', this.of(cid), ...wanted.part(from, to), 104 * (to - from)), links = []
    if (answer.number) throw fault(answer.number, answer.number === BAD_NODE ? cid : undefined)
    for (const reader = new Reader(answer.bytes); reader.more;) {
      const link = reader.cid(), first = from + reader.number()
      links.push({ cid: link, from: first, to: first + reader.number() })
    }
    return links
  }
  /** The nodes that are here, and their CIDs, as the addon takes them. */
  given() {
    const given = Array.from(this.nodes.values()), nodes = given.map(it => it.node)
    return { nodes, size: sizeOf(nodes), lists: [packed(nodes), joined(given.map(it => it.cid))] }
  }
  /** What a call of the library answers to changes over the nodes that are here. */
  answered(name, root, wanted) {
    const { nodes, size, lists } = this.given()
    // Room for the answer of nearly any edit: where it is too small all is made once more.
    const room = size + 128 * nodes.length + wanted.size + 256 * wanted.length + 1024
    return called(isLong(nodes) || isLong(wanted.keys), name, ...lists, raw(root), ...wanted.part(), room)
  }
  /** The same of two roots. */
  ofBoth(name, roots, room) {
    const { nodes, lists } = this.given()
    return called(isLong(nodes), name, ...lists, ...roots.map(raw), room)
  }
  /** The bytes of an answer over the nodes that changes need, for which the host is asked. */
  async overAsked(name, root, wanted) {
    await this.askBelow(root, wanted)
    for (;;) {
      const answer = await this.answered(name, root, wanted)
      if (!answer.number) return answer.bytes
      const cid = answer.number === MISSING || answer.number === BAD_NODE ? made(cidAt(answer.cids, 0)) : undefined
      if (answer.number !== MISSING) throw treeFault(answer.number, { cid })
      // Nodes that are no tree's may need another one.
      if (this.has(cid)) throw fault(BAD_NODE, cid)
      await this.ask([cid])
    }
  }
}
const faultOf = ({ number, cids }) => treeFault(number, { cid: number === MISSING || number === BAD_NODE ? made(cidAt(cids, 0)) : undefined })

function editOf(bytes, wanted) {
  const reader = new Reader(bytes), edit = { root: reader.cid(), newBlocks: [], removedCids: [], changes: wanted.told(reader) }
  for (let left = reader.number(); left; left--) edit.removedCids.push(reader.cid())
  while (reader.more) edit.newBlocks.push({ cid: reader.cid(), bytes: reader.part() })
  return edit
}

const entriesOf = (node, cid) => {
  try {
    return nodeEntries(node)
  } catch (error) {
    throw error.number === BAD_NODE ? fault(BAD_NODE, cid) : error
  }
}

export const tree = {
  /** The nodes from a root down to a key, which are its proof, and its value or null. */
  async path(get, root, key) {
    const asked = new Asked(get), bytes = keyBytes(key), path = []
    for (let cid = Cid.from(root); path.length < LAYERS;) {
      await asked.ask([cid])
      path.push(asked.of(cid))
      const number = native.step(asked.of(cid), bytes)
      if (number === NONE) return { path, value: null }
      if (number === 0) return { path, value: made(firstCid()) }
      if (number !== BELOW) throw fault(BAD_NODE, cid)
      cid = made(firstCid())
    }
    throw fault(TOO_MANY_NODES)
  },
  /** The value of a key, or null. */
  async get(get, root, key) {
    return (await tree.path(get, root, key)).value
  },
  /** Changes keys of a tree at once: each gets a value, or goes where that is null. */
  async apply(get, root, changes) {
    const wanted = new Wanted(changes)
    return editOf(await new Asked(get).overAsked('tree_apply', Cid.from(root), wanted), wanted)
  },
  /** What changes make of a tree, and the nodes that show it to whoever knows its root. Nothing is changed by it. */
  async proveChange(get, root, changes) {
    const wanted = new Wanted(changes)
    const reader = new Reader(await new Asked(get).overAsked('tree_prove_change', Cid.from(root), wanted))
    return { after: reader.cid(), changes: wanted.told(reader), nodes: reader.parts() }
  },
  /** The first pairs from a key on, so many at most. */
  async list(get, root, from = '', most = 256) {
    const asked = new Asked(get), begin = keyBytes(from), pairs = []
    // What is left, the next last: a pair, or a node with how many layers it may have.
    const left = [{ node: Cid.from(root), layers: LAYERS }]
    while (left.length && pairs.length < most) {
      const { key, cid, node, layers } = left.pop()
      if (key) {
        pairs.push({ key, cid })
        continue
      }
      if (!layers) throw fault(TOO_MANY_NODES)
      await asked.ask([node])
      const entries = entriesOf(asked.of(node), node), passed = entries.pairs.filter(it => Buffer.compare(it.key, begin) < 0).length
      const before = passed ? entries.pairs[passed - 1].link : entries.left
      for (const it of entries.pairs.slice(passed).reverse()) {
        if (it.link) left.push({ node: it.link, layers: layers - 1 })
        left.push({ key: it.key, cid: it.cid })
      }
      if (before) left.push({ node: before, layers: layers - 1 })
    }
    return pairs
  },
  /** What the tree with the root after differs by from that with the root before. Of each the nodes are asked for that the other lacks, and both
   * roots. */
  async difference(get, before, after) {
    const asked = new Asked(get), roots = [Cid.from(before), Cid.from(after)]
    for (;;) {
      const answer = await asked.ofBoth('missing', roots, 36 * (asked.nodes.size + 16)), cids = []
      if (answer.number) throw faultOf(answer)
      for (const reader = new Reader(answer.bytes); reader.more;) cids.push(reader.cid())
      if (!cids.length) break
      await asked.ask(cids)
    }
    const answer = await asked.ofBoth('difference', roots, 1024 + 2 * asked.given().size)
    if (answer.number) throw faultOf(answer)
    const reader = new Reader(answer.bytes), found = { changes: [], newBlocks: [], removedCids: [] }
    for (let count = reader.number(); count; count--) found.changes.push({ key: reader.part(), prev: reader.value(), cid: reader.value() })
    for (let count = reader.number(); count; count--) found.removedCids.push(reader.cid())
    while (reader.more) found.newBlocks.push({ cid: reader.cid(), bytes: reader.part() })
    return found
  },
}
