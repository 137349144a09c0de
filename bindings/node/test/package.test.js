/** What is declared is there, and what README.md shows runs. */
import assert from 'node:assert/strict'
import { readFileSync } from 'node:fs'
import test from 'node:test'
import * as t from 'tizulgech'
import { fileBeside } from './common.js'

const own = path => readFileSync(new URL(`../${path}`, import.meta.url), 'utf8')
const declared = own('index.d.ts')

test('the version', () => {
  assert.equal(`${JSON.parse(own('package.json')).version}\n`, fileBeside('../VERSION'))
  assert(declared.includes(`VERSION: ${t.VERSION}\n`))
})

test('each name that is declared is exported, and each member is there', () => {
  const names = Array.from(declared.matchAll(/^export (?:class|function|const) (\w+)/gm), ([, name]) => name)
  assert.deepEqual(names.sort(), Object.keys(t).sort())
  for (const [, name, body] of declared.matchAll(/^export class (\w+)[^\n]* \{\n(.*?)^\}/gms)) {
    const members = body.matchAll(/^ {2}(static )?(?:get )?(\w+)(?:<[^(]*>)?\(/gm), found = { static: ['length', 'name', 'prototype'], own: ['constructor'] }
    for (const [, isStatic, member] of members) if (member !== 'private') found[isStatic ? 'static' : 'own'].push(member)
    const text = it => Object.getOwnPropertyNames(it)
    if (name === 'TizulgechError') found.own.push('name')
    assert.deepEqual(Array.from(new Set(found.own)).sort(), text(t[name].prototype).sort(), name)
    assert.deepEqual(found.static.sort(), text(t[name]).sort(), name)
  }
  const members = declared.match(/^export const tree: \{\n(.*?)^\}/ms)[1].matchAll(/^ {2}(\w+)(?:<[^(]*>)?\(/gm)
  assert.deepEqual(Array.from(members, ([, name]) => name).sort(), Object.keys(t.tree).sort())
})

test('the examples of README.md', async () => {
  const shown = Array.from(own('README.md').matchAll(/^```js\n(.*?)^```/gms), ([, text]) => text)
  assert(shown.length > 1)
  // one after the other, as they are read
  const text = shown.join('\n').replaceAll("from 'tizulgech'", `from '${new URL('../index.js', import.meta.url)}'`)
  await import(`data:text/javascript,${encodeURIComponent(text)}`)
})
