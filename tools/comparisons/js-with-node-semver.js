// Compares the package in js/ with node-semver:
//
//     node js-with-node-semver.js PACKAGE COUNT SEED
//
// makes COUNT pairs of ranges and versions: by the grammar, with one change, and at the limits of
// lengths and numbers. It makes each call of node-semver with them, with and without
// `includePrerelease`, and some with the parsed objects. It prints the first difference, and then
// exits with 1.
//
// Known differences, which rust/docs/GRAMMAR.md, rust/docs/MEANING.md and js/README.md list, are
// counted by kind: texts that node-semver reads by accident, digits above 2^53, which it compares as
// floats, and its results for two ranges, which it computes from their comparators.
'use strict'

const path = require('path')
const semver = require('semver')
const { Random } = require('./with-node-semver.js')
const { ACCIDENTS, REFUSALS, text, changed, limited, asked, plain, isOf } = require('./npm-texts.js')

const ours = require(path.resolve(process.argv[2]))

const NUMBERS = ['0', '1', '2', '10', '11', '9007199254740990', '9007199254740991']
const IDENTIFIERS = ['0', '1', '2', '10', 'a', 'B', 'rc', 'rc-1', '-', '1a', '9007199254740991', '01', '']
const LARGE = /\d{16}/
const kinds = new Map()

function count (kind) {
  kinds.set(kind, (kinds.get(kind) || 0) + 1)
  return true
}

function identifiers (random) {
  return Array.from({ length: random.of([1, 1, 2, 3]) }, () => random.of(IDENTIFIERS)).join('.')
}

// A version, often an invalid one.
function version (random) {
  const numbers = Array.from({ length: random.of([3, 3, 3, 3, 3, 3, 3, 2, 4]) }, () => random.of(random.below(3) ? NUMBERS.slice(0, 4) : NUMBERS))
  const pre = random.below(2) ? '' : `-${identifiers(random)}`
  const build = random.below(3) ? '' : `+${identifiers(random)}`
  const whole = random.of(['', '', '', 'v', ' ', '=', 'v ']) + numbers.join('.') + pre + build + random.of(['', '', ' ', '\n', '\u00a0'])
  if (random.below(6)) return whole
  const at = random.below(whole.length + 1)
  return whole.slice(0, at) + random.of([...'01.-+av= x', '\ud800', 'ä']) + whole.slice(at + random.below(2))
}

// What each library parses with one of its own classes.
const read = (name, ...values) => ({
  by: (library) => new library[name](...values), toJSON: () => `new ${name}(${JSON.stringify(values)})`
})

// What a call returns, or that it throws.
function result (library, call, values) {
  const given = (it) => Array.isArray(it) ? it.map(given) : it?.by ? it.by(library) : it
  try {
    return shown(library[call](...values.map(given)))
  } catch (error) {
    return error instanceof TypeError ? 'TypeError' : 'Error'
  }
}

const FIELDS = ['raw', 'major', 'minor', 'patch', 'prerelease', 'build', 'version', 'range', 'set', 'operator', 'semver', 'value']

function shown (value) {
  if (value === null || typeof value !== 'object') return String(value)
  if (Array.isArray(value)) return `[${value.map(shown)}]`
  return FIELDS.filter((name) => name in value).map((name) => `${name} ${shown(value[name])}`).join(', ')
}

function compareCall (call, values, isKnown) {
  const [wanted, found] = [semver, ours].map((library) => result(library, call, values))
  if (wanted === found || isKnown(wanted, found)) return
  console.log(`differ: ${call}(${values.map((it) => JSON.stringify(it)).join(', ')}): by node-semver ${wanted}, here ${found}`)
  process.exit(1)
}

const isLarge = (values) => () => LARGE.test(values.join(' ')) && count('digits above 2^53 compared as floats')
const never = () => false

const RELEASES = [...semver.RELEASE_TYPES, 'pre', 'x']
const OPTIONS = [undefined, { includePrerelease: true }]
const OPERATORS = ['', '=', '==', '!=', '<', '<=', '>', '>=', '===', '!==', '~']

function compareVersions (random, one, other) {
  for (const call of ['valid', 'parse', 'prerelease', 'major', 'minor', 'patch', 'clean']) compareCall(call, [one], never)
  for (const call of ['compare', 'rcompare', 'compareBuild', 'gt', 'gte', 'lt', 'lte', 'eq', 'neq', 'diff']) {
    compareCall(call, [one, other], isLarge([one, other]))
  }
  compareCall('cmp', [one, random.of(OPERATORS), other], isLarge([one, other]))
  const objects = [one, other].map((it) => read('SemVer', it))
  for (const call of ['compare', 'compareBuild', 'gt', 'diff']) {
    for (const pair of [objects, [one, objects[1]]]) compareCall(call, pair, isLarge([one, other]))
  }
  for (const call of ['valid', 'parse', 'major', 'coerce']) compareCall(call, [objects[0], random.of(OPTIONS)], never)
  compareCall('inc', [one, random.of(RELEASES), random.of(['', 'rc', 'a', '1']), random.of([undefined, '0', '1', false])], isLarge([one]))
  for (const call of ['compareIdentifiers', 'rcompareIdentifiers']) {
    const pair = [random.of(IDENTIFIERS), random.of(IDENTIFIERS)]
    compareCall(call, pair, isLarge(pair))
  }
  const string = [one, other].join(random.of([' ', '-', '.', 'v']))
  for (const options of [{}, { rtl: true }, { includePrerelease: true }]) compareCall('coerce', [string, options], isLarge([string]))
}

// Whether both read a range, or neither does. Known differences are counted.
function isRead (range, options) {
  const [wanted, found] = [semver, ours].map((library) => library.validRange(range, options) !== null)
  if (wanted === found) return wanted
  const kind = [...ACCIDENTS, ...REFUSALS].find(isOf(range)) ?? (options && /\s-\s/.test(range) && ['', /./] && ['a side of a hyphen range at a limit'])
  if (!kind) compareCall('validRange', [range, options], never)
  count(kind[0])
  return false
}

// A range that is printed has to be read back, with the same options, as the same versions.
function readBack (range, options, versions) {
  const written = ours.validRange(range, options)
  for (const one of versions) {
    const [wanted, found] = [range, written].map((it) => ours.satisfies(one, it, options))
    if (wanted === found || !options) continue
    console.log(`differ: ${one} in ${range}: ${wanted}, and in ${written}, which it is written as: ${found}`)
    process.exit(1)
  }
}

function compareRange (random, range) {
  const list = asked(random, range)
  const versions = [...list.slice(0, 6), version(random)]
  for (const options of OPTIONS) {
    if (!isRead(range, options)) continue
    const isKnown = () => plain(range) !== range && count('a build or a `v` with 0.0.0')
    const known = (wanted, found) => isLarge([range, ...versions])() || isKnown()
    for (const one of versions) compareCall('satisfies', [one, range, options], known)
    for (const call of ['maxSatisfying', 'minSatisfying']) compareCall(call, [versions, range, options], known)
    for (const others of OPTIONS) {
      const object = read('Range', range, others)
      for (const one of versions) compareCall('satisfies', [read('SemVer', one), object, options], known)
      compareCall('maxSatisfying', [versions, object, options], known)
    }
    const isLong = () => isKnown() || isLarge([range])()
    const isUpTo = () => isLong() || (options && /\s-\s/.test(range) && count('a hyphen range as it is written with includePrerelease'))
    for (const call of ['validRange', 'toComparators']) compareCall(call, [range, options], isUpTo)
    readBack(range, options, versions)
    const releases = versions.filter((it) => semver.valid(it) !== null && !/-/.test(it))
    compareCall('simplifyRange', [releases, range, options], isLong)
  }
}

// Whether node-semver has to return the same for a range as the sets: if it has no pre-release, and
// each of its parts matches some version.
const isPlain = (range) => !/\d-/.test(range) && plain(range) === range && !LARGE.test(range) &&
  new semver.Range(range).set.every((comparators) => semver.minVersion(comparators.join(' ')) !== null)

// Whether each part of a range has at most one lower and one upper bound. node-semver checks each
// comparator on its own when it decides whether a version is outside.
const isOfBounds = (range) => ours.toComparators(range).every(([one, other = '<', third]) =>
  third === undefined && (other === '<' || (/^>/.test(one) && /^</.test(other))))

function compareRanges (random, range, other) {
  if (![range, other].every((it) => isRead(it))) return
  const isKnown = () => ![range, other].every(isPlain) && count('two ranges, one with pre-releases or a part without versions')
  const isWhole = () => semver.validRange(other) === '*' && count('a range from 0.0.0 on within `*`')
  compareCall('intersects', [range, other], isKnown)
  const isTogether = (found) => /\|\|/.test(other) && found === 'true' && count('a range within several together')
  compareCall('subset', [range, other], (wanted, found) => isWhole() || isTogether(found) || isKnown())
  const isBeyond = () => {
    const lowest = semver.minVersion(range)
    return lowest && semver.valid(lowest.version) === null && count('a lowest version with a number above 2^53 - 1')
  }
  compareCall('minVersion', [range], () => isKnown() || isBeyond())
  const one = random.of(asked(random, range))
  const isBeside = () => /-/.test(one) ? count('a pre-release outside of a range') : isKnown() ||
    (!isOfBounds(range) && count('a version outside of several bounds'))
  for (const call of ['gtr', 'ltr']) compareCall(call, [one, range], isBeside)
  compareCall('outside', [one, range, random.of(['<', '>', ''])], isBeside)
}

function main (count, seed) {
  const random = new Random(seed)
  for (let at = 0; at < count; at += 1) {
    compareVersions(random, version(random), version(random))
    const ranges = [0, 1].map(() => random.of([text, text, changed, limited])(random))
    compareRange(random, ranges[0])
    compareRanges(random, ...ranges)
    if (at % 50 === 0) {
      const list = Array.from({ length: random.below(12) }, () => version(random)).filter((it) => semver.valid(it) !== null)
      for (const call of ['sort', 'rsort']) compareCall(call, [list], isLarge(list))
    }
  }
  console.log(`seed ${seed}: ${count} pairs, each call: no difference but the known ones`)
  for (const [kind, times] of kinds) console.log(`  ${times} times ${kind}`)
}

main(Number(process.argv[3]), process.argv[4])
