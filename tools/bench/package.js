// Times the package in js/ next to node-semver, in one run. `node package.js PACKAGE` prints a
// table with the best of many passes; the two take turns.
'use strict'

const path = require('path')
const semver = require('semver')
const ours = require(path.resolve(process.argv[2]))

const PASSES = 15
const FRESH = 20000
const MANY = 1000

// Numbers from a fixed seed.
let state = 1
const below = (limit) => {
  state = (state * 48271) % 2147483647
  return state % limit
}

const numbers = () => `${below(30)}.${below(30)}.${below(100)}`
const versions = Array.from({ length: FRESH }, () => numbers() + (below(5) ? '' : `-rc.${below(9)}`))
const ranges = versions.map((_, at) => `${['^', '~', '>=', ''][at % 4]}${numbers()}${at % 5 ? '' : ` || ${numbers()}`}`)
const some = versions.slice(0, MANY)

const ROWS = [
  ['`satisfies`, a fresh range and version', FRESH, (library) => versions.filter((version, at) => library.satisfies(version, ranges[at])).length],
  ['`satisfies`, one range', FRESH, (library) => versions.filter((version) => library.satisfies(version, '^12.3.4 || >=20')).length],
  ['`maxSatisfying` of 1,000 versions', 1, (library) => library.maxSatisfying(some, '^12.3.4 || >=20')],
  ['`sort` of 1,000 versions', 1, (library) => library.sort([...some]).join()],
  ['`compare`', FRESH, (library) => versions.filter((version, at) => library.compare(version, versions[FRESH - 1 - at]) > 0).length],
  ['`valid`', FRESH, (library) => versions.filter((version) => library.valid(version) === version).length],
]

function seconds (run, library) {
  const begin = process.hrtime.bigint()
  run(library)
  return Number(process.hrtime.bigint() - begin) / 1e9
}

console.log('| call | node-semver, µs | here, µs | relative time |\n|---|---|---|---|')
for (const [name, count, run] of ROWS) {
  if (run(semver) !== run(ours)) throw new Error(`${name}: different results`)
  const best = [Infinity, Infinity]
  for (let pass = 0; pass < PASSES; pass += 1) {
    [semver, ours].forEach((library, at) => { best[at] = Math.min(best[at], seconds(run, library)) })
  }
  const [theirs, here] = best.map((it) => it / count * 1e6)
  const shown = (it) => it.toPrecision(3)
  console.log(`| ${name} | ${shown(theirs)} | ${shown(here)} | ${(here / theirs).toFixed(2)} |`)
}
