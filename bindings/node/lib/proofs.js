/** What nodes prove to whoever knows a root. */
import { called, cidAt, isLong, packed } from './native.js'
import { made, raw } from './cids.js'
import { told } from './changes.js'
import { BAD_NODE, MISSING, NONE, OTHER_VALUE, treeFault } from './faults.js'
import { blocks } from './given.js'

/** What the tree with this root has under a key, as the nodes of a proof show: its value's CID, or null where it has none. */
export async function verify(root, proof, key) {
  const nodes = blocks(proof), answer = await called(isLong(nodes), 'verify', packed(nodes), raw(root), key)
  if (answer.number === NONE) return null
  if (answer.number) throw treeFault(answer.number)
  return made(cidAt(answer.cids, 0))
}

async function verified(call, before, after, proof, changes) {
  const nodes = blocks(proof), answer = await called(isLong(nodes), call, packed(nodes), raw(before), raw(after), ...told(changes))
  if (!answer.number) return
  throw treeFault(answer.number, {
    cid: answer.number === MISSING || answer.number === BAD_NODE ? made(cidAt(answer.cids, 0)) : undefined,
    place: answer.number === OTHER_VALUE ? answer.place : undefined,
  })
}

/** Rejects unless the tree with the root before becomes that with the root after by these changes, as nodes of the tree before show.
 *
 * Where the root before is that of some records, the root after is that of these records with the changes done: so who goes on from root to
 * root begins with the empty tree's, or with one that it computed, and verifies step by step. */
export const verifyChange = async (before, after, proof, changes) => verified('verify_change', before, after, proof, changes)

/** Rejects unless these changes undone lead from the tree with the root after back to the root before, as nodes of the tree after show: the
 * operation inversion of the event stream.
 *
 * That it resolves speaks only of whatever records have the root after. Of a root that no records have it says nothing, and one can be made
 * up that hides keys: so nobody goes on from a root after by it, but by verifyChange. */
export const verifyInversion = async (before, after, proof, changes) => verified('verify_inversion', before, after, proof, changes)
