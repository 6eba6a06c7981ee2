// Compares what sets of versions return for two range texts with node-semver.
//
// `node sets-with-node-semver.js PROGRAM COUNT SEED`: PROGRAM is the program `layers` of rust/tests. It
// makes COUNT pairs of texts in npm mode, and compares by two rules, pre-releases included and
// default: whether the two overlap (`intersects`), whether the first is within the second
// (`subset`), and the lowest version of the first (`minVersion`). node-semver gets the printed set
// with exact bounds, so that a text has the same meaning for both. It prints how often the results
// agree; for each kind of difference it prints how often it occurred, and the smallest texts.
'use strict'

const semver = require('semver')
const { Random, range, answers } = require('./with-node-semver.js')

const RULES = [{ name: 'included', call: 'mean-npm', options: { includePrerelease: true } }, { name: 'as stated', call: 'stated-npm', options: {} }]

const text = (random) => Array.from({ length: random.of([1, 1, 1, 2]) }, () => range(random).text).join(' || ')

// What node-semver returns, or that it throws.
function asked (answer) {
  try {
    const answered = answer()
    return String(answered && answered.version ? answered.version : answered === null ? 'none' : answered)
  } catch (error) {
    return 'an error'
  }
}

// Whether one version is below the other, which names a kind of difference of `minVersion`.
function kind (ours, theirs) {
  if ([ours, theirs].some((answer) => !semver.valid(answer))) return `here ${semver.valid(ours) ? 'a version' : ours}, there ${semver.valid(theirs) ? 'a version' : theirs}`
  const order = semver.compare(ours, theirs)
  return order === 0 ? 'equal' : order < 0 ? 'here a version below that of node-semver' : 'here a version above that of node-semver'
}

// What the program returns for a pair and for its first text.
function told (pair, set) {
  const word = (name) => pair.match(new RegExp(`${name} (\\S+?)(,|$)`))[1]
  return { intersects: word('overlaps'), subset: word('within'), minVersion: set.match(/least (\S+?),/)[1] }
}

// What node-semver returns.
function byNode (first, second, options) {
  return {
    intersects: asked(() => semver.intersects(first, second, options)),
    subset: asked(() => semver.subset(first, second, options)),
    minVersion: asked(() => semver.minVersion(first, options))
  }
}

// Counts the differences, and keeps the smallest input of each kind.
function count (kinds, call, input, ours, theirs) {
  if (ours === theirs) return true
  const name = `${call}: ${kind(ours, theirs)}`
  const known = kinds.get(name) || { times: 0, input, ours, theirs }
  const smaller = input.length < known.input.length ? { input, ours, theirs } : known
  kinds.set(name, { ...smaller, times: known.times + 1 })
  return false
}

function compare (program, pairs, { name, call, options }) {
  const compared = answers(program, pairs.map(([first, second]) => `pair-${call}\t${first}\t${second}`))
  const sets = answers(program, pairs.map(([first]) => `set-${call}\t${first}\t`))
  const kinds = new Map()
  let same = 0
  pairs.forEach(([first, second], at) => {
    const [ours, theirs] = [told(compared[at], sets[at]), byNode(first, second, options)]
    for (const asks of Object.keys(ours)) {
      const input = asks === 'minVersion' ? first : `${first}  and  ${second}`
      same += count(kinds, asks, input, ours[asks], theirs[asks]) ? 1 : 0
    }
  })
  console.log(`${name}: ${same} of ${3 * pairs.length} results are the same`)
  for (const [of, { times, input, ours, theirs }] of [...kinds].sort()) console.log(`  ${times} times ${of}; smallest: ${input}: here ${ours}, node-semver ${theirs}`)
}

function main ([program, count, seed]) {
  const random = new Random(seed)
  const made = Array.from({ length: count }, () => [text(random), text(random)])
  const printed = answers(program, made.flat().map((one) => `npm-exact\t${one}`))
  const pairs = made.map((_, at) => [printed[2 * at], printed[2 * at + 1]])
  for (const rule of RULES) compare(program, pairs, rule)
}

main(process.argv.slice(2))
