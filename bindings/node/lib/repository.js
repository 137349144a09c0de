/** A repository in memory. */
import { setImmediate } from 'node:timers/promises'
import { MANY, called, cidAt, filled, firstCid, firstNumber, isLong, native, numberOf, packed, sizeOf } from './native.js'
import { Reader, made, raw } from './cids.js'
import { Wanted, told } from './changes.js'
import { previewOf } from './commits.js'
import { BUSY, CHANGED, NONE, OTHER_VALUE, RepositoryError, batchFault, fileFault, repositoryFault, treeFault } from './faults.js'
import { block, listOf, outOfRange, wrong } from './given.js'
import { links } from './listings.js'
import { keyOf, kindOf, recordOf } from './writes.js'

const SECRET = Symbol(), PAGE = 512, PARTS = 32, MOST = 1 << 26
const left = new FinalizationRegistry(id => native.close(id, true))

/** Room for most proofs of so many changes: where it is too small all is made once more. */
const roomForProof = count => 8192 + 4096 * Math.min(count, 4096)

/** The pairs of a listing. A repository's keys are ASCII. */
function pairsOf(bytes) {
  const pairs = []
  for (const reader = new Reader(bytes); reader.more;) pairs.push({ key: Buffer.from(reader.part()).latin1Slice(), cid: reader.cid() })
  return pairs
}

/** The writes of a batch as the addon takes them. */
function staged(writes) {
  const list = listOf(writes), kinds = Uint8Array.from(list, kindOf), records = list.map((write, place) => recordOf(write, kinds[place]))
  return { records, given: [kinds, list.map(keyOf), packed(records)] }
}

/** The node in a section: it stands behind a length, of which each byte but the last is 128 or more, and its CID. */
const nodeIn = section => section.subarray(section.findIndex(byte => byte < 128) + 37)

function lengthOf(it) {
  if (typeof it !== 'number') throw wrong('the length of a part is a number')
  if (!Number.isInteger(it) || it < 1 || it > 1 << 30) throw outOfRange('a part has 1 to 1,073,741,824 bytes')
  return it
}

/** A repository in memory. One call has it at a time: any other is refused with the code BUSY. */
export class Repository {
  #id
  #batches = 0
  constructor(id, secret) {
    if (secret !== SECRET) throw wrong('a repository is opened by Repository.open')
    this.#id = id
    left.register(this, id, this)
  }
  /** Opens one that takes so many writes, 1 to 1,048,576. */
  static open(limit) {
    const number = native.open(limit)
    if (number) throw new RepositoryError(number)
    return new Repository(firstNumber(), SECRET)
  }
  /** Opens one with the records of a CAR file, as com.atproto.sync.getRepo serves it, that takes so many writes: they are one batch, under the DID
   * and the revision of the file's commit. */
  static openCar(limit, file) {
    const number = native.open_car(limit, block(file))
    if (number) throw fileFault(number, firstNumber())
    return new Repository(firstNumber(), SECRET)
  }
  /** Lets it go. Any later call is refused with the code CLOSED. */
  close() {
    const number = native.close(this.#id, false)
    if (number === BUSY) throw new RepositoryError(BUSY)
    left.unregister(this)
  }
  [Symbol.dispose ?? Symbol.for('Symbol.dispose')]() { this.close() }

  /** Accepts all writes of a batch, in order, or none of them. */
  async apply({ did, rev }, writes) {
    const { given, records } = staged(writes), answered = called(isLong(records), 'apply', this.#id, did, rev, ...given)
    // A small one is done before this call ends.
    const answer = answered instanceof Promise ? await answered : answered
    if (answer.number) throw batchFault(answer.number, { place: answer.place, what: 'write' })
    this.#batches++
    const [root, previous, commit] = [0, 1, 2].map(place => made(cidAt(answer.cids, place)))
    return { root, previous, commit }
  }

  /** What a batch would make of the repository, which stays as it is: the roots before and after, the bytes of its commit, which are signed,
   * and what each key has and will have. */
  async preview({ did, rev }, writes) {
    const { given, records } = staged(writes), room = 512 + 256 * records.length
    const answer = await called(isLong(records), 'preview', this.#id, did, rev, ...given, room)
    if (answer.number) throw batchFault(answer.number, { place: answer.place, what: 'write' })
    return previewOf(answer.bytes)
  }
  /** Accepts a batch whose commit was signed over the root `previous`, as `preview` told both, and answers the message #commit that tells of it;
   * or rejects, and leaves all as it was. */
  async applySigned({ did, rev }, writes, { previous, sig, seq, time, since }) {
    const { given, records } = staged(writes), room = 4096 + 2048 * records.length + sizeOf(records)
    const answer = await called(isLong(records), 'apply_signed', this.#id, did, rev, ...given, raw(previous), sig, seq, time, since ?? '', room)
    if (answer.number) throw batchFault(answer.number, { place: answer.place, what: 'write' })
    this.#batches++
    return answer.bytes
  }

  /** The record of a key, or null. */
  get(key) {
    const answer = native.get(this.#id, key, 0)
    if (answer === NONE) return null
    return this.#filled(answer)
  }
  /** The first keys from one on, each with its record's CID. */
  async list(from = '', most = 256) {
    // Room for most lists: where it is too small all is made once more.
    const room = most > PAGE ? 96 * Math.min(Number(most), 4096) : 0
    return pairsOf((await this.#called(most > PAGE, 'list', from, most, room)).bytes)
  }
  /** Its pairs of a key and its record's CID, from a key on, in pages between which other work has its turn. It is of one moment: where a
   * batch comes between two pages it rejects with CHANGED. */
  async *entries(from = '') {
    const batches = this.#batches
    for (;;) {
      const pairs = pairsOf((await this.#part(batches, false, 'entries', from, PAGE, 0)).bytes)
      if (!pairs.length) return
      yield* pairs
      from = `${pairs.at(-1).key}\0`
      await setImmediate()
    }
  }
  [Symbol.asyncIterator]() { return this.entries() }

  /** The root of the tree. */
  get root() { return this.#fixed('root') }
  /** The CID of the last batch's commit, or null. */
  get commit() { return this.#fixed('commit') }
  /** The revision of the last batch, or null. */
  get rev() {
    const answer = native.rev(this.#id, 0)
    if (answer === NONE) return null
    return Buffer.from(this.#filled(answer)).toString()
  }
  /** How many writes are accepted. */
  get number() {
    const number = native.number(this.#id)
    if (number) throw repositoryFault(number)
    return firstNumber()
  }

  /** How many bytes its file has. */
  async carLength() {
    return (await this.#called(this.number > 1000, 'car_length')).place
  }
  /** The repository as one file (CARv1). */
  async car() {
    const length = await this.carLength()
    return (await this.#called(length > 65_536, 'car', length)).bytes
  }
  /** The same in parts of so many bytes. It is of one moment: where a batch comes before its end it rejects with CHANGED.
   *
   * A part costs the way through all that is before it, so there are 32 ways at most, unless one part would have more than 64 MiB. */
  async *carParts(length = 1 << 20) {
    const most = lengthOf(length), batches = this.#batches, whole = await this.carLength()
    const size = Math.max(most, Math.min(Math.ceil(whole / PARTS), MOST))
    for (let from = 0; from < whole;) {
      const { bytes } = await this.#part(batches, true, 'car_part', from, Math.min(size, whole - from))
      from += bytes.length
      for (let at = 0; at < bytes.length; at += most) yield bytes.subarray(at, at + most)
    }
  }
  /** The same in parts of which each is made once, on the thread of JavaScript, where other work has its turn now and then: the header, and a
   * section for each block. */
  async *carSections() {
    const batches = this.#batches, commit = this.commit, left = [{ isNode: true, cid: this.root }], seen = new Set()
    if (commit) left.push({ isNode: false, cid: commit })
    yield (await this.#part(batches, false, 'car_head', 0)).bytes
    while (left.length) {
      const { isNode, cid } = left.pop(), text = `${cid}`
      if (!isNode && seen.has(text)) continue
      const { bytes } = await this.#part(batches, false, 'car_section', raw(cid), 0)
      if (isNode) left.push(...links(nodeIn(bytes)).reverse())
      if (!seen.has(text)) yield bytes
      seen.add(text)
      if (seen.size % PAGE === 0) await setImmediate()
    }
  }

  /** The proof of a key: the nodes of its path, from the top. */
  prove(key) {
    return new Reader(this.#filled(native.prove(this.#id, key, 0))).parts()
  }
  /** What changes make of the repository as it is, and what shows it to whoever knows its root: ask before they are applied. Each key gets a
   * value, or goes where that is null. Nothing is changed by it. */
  async proveChange(changes) {
    const wanted = new Wanted(changes), answer = await called(wanted.length > MANY, 'prove_change', this.#id, ...wanted.part(), roomForProof(wanted.length))
    if (answer.number) throw treeFault(answer.number)
    const reader = new Reader(answer.bytes)
    return { after: reader.cid(), changes: wanted.told(reader), nodes: reader.parts() }
  }
  /** The nodes that show that changes undone lead back from the repository as it is: each a key, what it had and what it has; the keys ascend.
   * That each key has what is told is looked at; of what it had this repository knows nothing. To who doesn't know that some records have the
   * root after they say nothing: `proveChange` shows a step. */
  async proveInversion(changes) {
    const given = told(changes), count = given[0].length
    const answer = await called(count > MANY, 'prove_inversion', this.#id, ...given, roomForProof(count))
    if (answer.number) throw treeFault(answer.number, { place: answer.number === OTHER_VALUE ? answer.place : undefined })
    return new Reader(answer.bytes).parts()
  }

  #filled(answer) {
    if (numberOf(answer)) throw repositoryFault(answer)
    return filled(answer)
  }
  #fixed(name) {
    const number = native[name](this.#id)
    if (number === NONE) return null
    if (number) throw repositoryFault(number)
    return made(firstCid())
  }
  async #called(isLong, name, ...given) {
    const answer = await called(isLong, name, this.#id, ...given)
    if (answer.number) throw repositoryFault(answer.number)
    return answer
  }
  /** A call where so many batches are accepted as were when the first part was read. */
  #part(batches, isLong, name, ...given) {
    if (batches !== this.#batches) throw new RepositoryError(CHANGED)
    return this.#called(isLong, name, ...given)
  }
}
