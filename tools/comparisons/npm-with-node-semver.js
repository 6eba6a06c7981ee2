// Compares npm's dialect with node-semver. PROGRAM is the program `layers` of rust/tests.
//
// `node npm-with-node-semver.js PROGRAM COUNT SEED` makes COUNT texts by the grammar, COUNT with
// one change, COUNT at the limits of lengths and numbers, and all texts of a few characters. It
// compares whether each is accepted, and if so, which versions it matches: releases and
// pre-releases at and around the numbers that it states. `node npm-with-node-semver.js PROGRAM
// --texts TEXTS VERSIONS` does the same with the lines of two files. Each text is tested by npm's
// own rule for pre-releases, and with `includePrerelease`. Both forms print the first difference,
// and then exit with 1.
//
// What node-semver reads by accident, because of how it replaces texts, is counted by kind. Each
// such text has to be of a known kind.
'use strict'

const semver = require('semver')
const fs = require('fs')
const { Random, answers } = require('./with-node-semver.js')
const { ALPHABET, ACCIDENTS, REFUSALS, text, changed, limited, asked, plain, isOf } = require('./npm-texts.js')

const BATCH = 20000

// What node-semver accepts or rejects in a hyphen range with `includePrerelease`, where a right
// side is a raised bound and `-0` is put after the left side. Here the limits are those without
// this option.
const OF_SIDES = [['a hyphen range at a limit', /[^|]{250}|\d{16}/, /\s-\s/]]

// All texts of a length.
function * texts (length) {
  if (length === 0) return yield ''
  for (const front of texts(length - 1)) for (const last of ALPHABET) yield front + last
}

// The rules for pre-releases: the call of the program, and the options for node-semver.
const RULES = [
  { call: 'meant-as-npm', options: {}, name: '', isKnown: (of) => /0\.0\.0\+|v0\.0\.0/.test(of), sides: [] },
  { call: 'meant-with-all-as-npm', options: { includePrerelease: true }, name: ', with includePrerelease', isKnown: (of) => /\+\S*\s+-\s/.test(of), sides: OF_SIDES }
]

function rangeOf (of, options) {
  try {
    return new semver.Range(of, options)
  } catch {
    return null
  }
}

// A text in which the characters are escaped that end a field or a line of the program's input, or
// begin an escape.
const ESCAPES = { '\\': '\\\\', '\n': '\\n', '\r': '\\r', '\t': '\\t' }
const escaped = (of) => of.replace(/[\\\n\r\t]/g, (character) => ESCAPES[character])

function differ (of, wanted, answered) {
  console.log(`differ: ${JSON.stringify(of)}: in node-semver ${wanted}, here ${answered}`)
  process.exit(1)
}

// Compares all texts by each rule.
function compare (program, what, all, versionsOf) {
  for (const rule of RULES) compareBy(program, rule, what + rule.name, all, versionsOf)
}

// Compares all texts, each with the versions that `versionsOf` returns, and prints counts.
function compareBy (program, { call, options, isKnown, sides }, what, all, versionsOf) {
  const counts = { texts: 0, read: 0, pairs: 0, met: 0, preReleases: 0 }
  const accidents = new Map()
  const refusals = new Map()
  for (let at = 0; at < all.length; at += BATCH) {
    const batch = all.slice(at, at + BATCH).map((of) => ({ of, versions: versionsOf(of) }))
    const told = answers(program, batch.map(({ of, versions }) => `${call}\t${escaped(of)}\t${versions.join(' ')}`))
    batch.forEach(({ of, versions }, place) => {
      const [range, answer] = [rangeOf(of, options), told[place]]
      counts.texts++
      if (answer === 'not-a-range' || answer === 'number-too-large') {
        if (!range) return
        const kind = [...ACCIDENTS, ...sides].find(isOf(of))
        if (!kind) differ(of, `read as ${range.range}`, answer)
        return accidents.set(kind[0], (accidents.get(kind[0]) || 0) + 1)
      }
      if (!range) {
        const kind = [...REFUSALS, ...sides].find(isOf(of))
        if (!kind) differ(of, 'not read', answer)
        return refusals.set(kind[0], (refusals.get(kind[0]) || 0) + 1)
      }
      const reading = (isKnown(of) && rangeOf(plain(of), options)) || range
      const met = versions.filter((version) => reading.test(version))
      if (answer !== ['means', ...met].join(' ')) differ(of, `means ${met.join(' ')}`, answer)
      counts.read++
      counts.pairs += versions.length
      counts.met += met.length
      counts.preReleases += met.filter((version) => version.includes('-')).length
    })
  }
  console.log(`${what}: ${counts.texts} texts, ${counts.read} read, ${counts.pairs} pairs of a text and a version, ${counts.met} met, ` +
    `${counts.preReleases} of them pre-releases: no difference but the known ones`)
  for (const [kind, times] of accidents) console.log(`  ${times} times node-semver reads ${kind}`)
  for (const [kind, times] of refusals) console.log(`  ${times} times node-semver does not read ${kind}`)
}

const lines = (file) => fs.readFileSync(file, 'utf8').split('\n').filter((line) => line !== '')

function main ([program, count, seed, versions]) {
  if (count === '--texts') {
    const asked = lines(versions)
    return compare(program, seed, lines(seed), () => asked)
  }
  const random = new Random(seed)
  const made = (make) => Array.from({ length: Number(count) }, () => make(random))
  const versionsOf = (of) => asked(random, of)
  console.log(`seed ${seed}`)
  compare(program, 'by the grammar', made(text), versionsOf)
  compare(program, 'changed', made(changed), versionsOf)
  compare(program, 'at the limits', made(limited), versionsOf)
  const lengths = count >= 1000000 ? [1, 2, 3, 4, 5] : [1, 2, 3]
  for (const length of lengths) compare(program, `all of ${length} characters`, [...texts(length)], versionsOf)
}

main(process.argv.slice(2))
