// Random calls of the package as plain data, so that each can be made anywhere: `{ call, values }`,
// and for a method also the object. `call` is `satisfies`, `new Range` or `Range.test`.
//
// A value that JSON doesn't have, or that runs code of a caller, is a description:
//
//   { is: 'undefined' }, { is: 'ANY' }        undefined, Comparator.ANY
//   { is: 'list', items }                     an array
//   { is: 'iterable', items }                 an iterable that isn't an array
//   { is: 'getters', fields }                 an object whose fields are computed
//   { is: 'object', name, values, raised }    new NAME(...values), then `inc` with each of `raised`

/** Random numbers from a seed: mulberry32. */
export class Random {
  constructor(seed) {
    this.state = seed >>> 0
  }

  below(limit) {
    this.state = (this.state + 0x6d2b79f5) >>> 0
    let it = this.state
    it = Math.imul(it ^ (it >>> 15), it | 1)
    it ^= it + Math.imul(it ^ (it >>> 7), it | 61)
    return ((it ^ (it >>> 14)) >>> 0) % limit
  }

  of(list) {
    return list[this.below(list.length)]
  }

  list(most, make) {
    return Array.from({ length: this.below(most + 1) }, make)
  }
}

// ---- strings

const UNDEFINED = { is: 'undefined' }
const VERSIONS = [
  '', ' ', '1.0.0', '1.2.3', '1.2.4', '1.2.5', '1.10.0', 'v1.2.3', ' 1.2.3 ', '=1.2.3', '0.0.0',
  '0.0.0-0', '1.2.3-rc.1', '1.2.3-rc.1+b5', '1.2.3+b6', '1.2.3+b6.1', '2.0.0-alpha', '1.2.3-11',
  '9007199254740991.0.0', '9007199254740992.0.0', '18446744073709551615.1.2',
  '18446744073709551616.0.0', '1.2', '1', 'x', '1.2.03', '1.2.3-', '1.2.3 4', '1.2.3-ä', 'ä', '€',
  '\u{1f600}', '\ud800', '1.2.3\ud800', '1.2.3\0', '\0', '\u00a01.2.3\ufeff', 'v2.3.4.5 and 6.7',
]
const LONG_VERSIONS = [
  `1.2.3-${'a'.repeat(190)}`, `1.2.3-${'a'.repeat(195)}`, `1.2.3-${'b'.repeat(195)}`,
  `1.2.3-${'a'.repeat(250)}`, `1.2.3-${'a'.repeat(251)}`, `1.2.3-${'a'.repeat(1018)}`,
  `1.2.3-${'a'.repeat(1019)}`, `1.2.3-${'9'.repeat(3000)}`, `1.2.3+${'b'.repeat(245)}`,
  `${' '.repeat(200)}1.2.3`, `${' '.repeat(1100)}1.2.3`, 'é'.repeat(101), 'é'.repeat(342),
  '\u{1f600}'.repeat(300), `1.2.3-${'a'.repeat(200)}ä`,
]
const RANGES = [
  '', ' ', '*', 'x', '1', '2', '^1.2', '^1.3', '~1.2.3', '1.x', '>=1.2.3 <2', '>=1.2.3, <2',
  '1.2.3 - 1.10', '1 || 2', '2 || 1', '<2.0.0-beta || >=3', '=1.2.3-rc.1', '>1.2.3-rc.1', '>1.2',
  '>=0', '<0.0.0-0', '>2 <1', '^0.0.3 || ^0.1', '1.2.3', '=1.2.3', 'v1.2.3', '1.2.3.4', '>>1', '^', '=>1.02',
  '||', '1,', 'latest', 'ä', '^1.2.3-ä', '€', '\ud800', '^1\ud800', '1.2.3\0', '\u00a01.2.3\ufeff',
  '  >=1.2.3 \t <2 ', '>9007199254740991', '>18446744073709551615', '=18446744073709551616',
]
const LONG_RANGES = [
  `^1.2.3-${'a'.repeat(190)}`, `^1.2.3-${'a'.repeat(210)}`, `^1.2.3-${'a'.repeat(1020)}`,
  `${' '.repeat(201)}^1.2`, `${' '.repeat(1100)}^1.2`, 'ü'.repeat(101), 'ü'.repeat(400),
  Array.from({ length: 30 }, (_, at) => `1.${at}`).join(' || '),
  Array.from({ length: 80 }, (_, at) => `>=1.${at}.0 <1.${at}.5`).join(' || '),
  Array.from({ length: 300 }, (_, at) => `>=1.${at}.0 <1.${at}.5`).join(' || '),
]
const IDENTIFIERS = ['0', '1', '2', '10', 'a', 'rc', '-', '1a', '01', 'ä', '']

const number = (random) => random.of(['0', '1', '2', '3', '10'])
const numbers = (random) => [0, 1, 2].map(() => number(random)).join('.')
const preOf = (random) => (random.below(3) ? '' : `-${random.of(['0', '1', 'a', 'rc.1', 'rc.2'])}`)

function versionText(random) {
  const kind = random.below(12)
  if (kind === 0) return ''
  if (kind < 8) return random.of(kind < 3 ? LONG_VERSIONS : VERSIONS)
  return numbers(random) + preOf(random)
}

function termText(random) {
  const partial = random.of(['', '1', '1.2', 'x']) || numbers(random) + preOf(random)
  return random.of(['', '^', '~', '>=', '<', '=', '>', '<=']) + partial
}

function rangeText(random) {
  const kind = random.below(12)
  if (kind === 0) return ''
  if (kind < 8) return random.of(kind < 3 ? LONG_RANGES : RANGES)
  const terms = Array.from({ length: 1 + random.below(3) }, () => termText(random))
  return terms.join(random.of([' ', ' || ', ', ']))
}

// ---- options

const DIALECTS = ['npm', 'cargo', 'crate-npm', 'crate-cargo']
const RULES = ['by-dialect', 'included', 'excluded']
const OTHER_OPTIONS = [
  null, true, false, 5, { loose: true }, { loose: true, rejectLoose: true },
  { includePrerelease: true }, { includePrerelease: false },
  { rtl: true }, { rtl: true, includePrerelease: true }, { dialect: 'yarn' }, { dialect: '' },
  { includePrerelease: true, preReleases: 'excluded' }, { preReleases: 'all' },
]

function optionFields(random) {
  const dialect = random.below(4) ? { dialect: random.of(DIALECTS) } : {}
  return random.below(2) ? dialect : { ...dialect, preReleases: random.of(RULES) }
}

function options(random) {
  if (random.below(3) === 0) return UNDEFINED
  if (random.below(5) === 0) return random.of(OTHER_OPTIONS)
  const fields = optionFields(random)
  return random.below(4) ? fields : { is: 'getters', fields }
}

// ---- objects that live on during a sequence

const RELEASES = [
  'major', 'premajor', 'minor', 'preminor', 'patch', 'prepatch', 'prerelease', 'pre', 'x', '',
]
const BASES = [UNDEFINED, '0', '1', false]

const release = (random) => random.of(RELEASES)
const identifier = (random) => random.of([UNDEFINED, '', 'rc', 'a', '1'])
const base = (random) => random.of(BASES)

function newVersion(random) {
  const raise = () => [release(random), identifier(random), base(random)]
  const raised = random.below(4) ? [] : random.list(2, raise)
  return { is: 'object', name: 'SemVer', values: [versionText(random), options(random)], raised }
}

const newRange = (random) =>
  ({ is: 'object', name: 'Range', values: [rangeText(random), options(random)] })

const comparatorText = (random) =>
  random.of(['', '=', '<', '>=', '~', ' > ']) + random.of([versionText(random), numbers(random)])

const newComparator = (random) =>
  ({ is: 'object', name: 'Comparator', values: [comparatorText(random), options(random)] })

/** Different ranges that exist at the same time; there are more of them than the module has slots
 * for. */
export function livingRanges(random, count) {
  return Array.from({ length: count }, (_, at) => {
    const text = `>=${1 + (at % 3)}.${at % 7}.${at} || ${random.of(['1.x', '^2.1', '<1.2.3', '3'])}`
    return { is: 'object', name: 'Range', values: [text, { preReleases: random.of(RULES) }] }
  })
}

// ---- arguments

const NO_STRINGS = [null, UNDEFINED, 5, true, {}, { is: 'list', items: [] }]

const foreignVersion = (random) => {
  const raw = versionText(random)
  return { is: 'getters', fields: { raw, version: raw, build: [] } }
}
const foreignRange = (random) => {
  const raw = rangeText(random)
  return { is: 'getters', fields: { raw, range: raw, options: { dialect: random.of(DIALECTS) } } }
}

function version(random, pool) {
  const kind = random.below(20)
  if (kind < 14) return versionText(random)
  if (kind < 18) return random.of(pool.SemVer)
  return kind === 18 ? foreignVersion(random) : random.of(NO_STRINGS)
}

function range(random, pool) {
  const kind = random.below(20)
  if (kind < 13) return rangeText(random)
  if (kind < 17) return random.of(pool.Range)
  if (kind < 18) return random.of(pool.Comparator)
  return kind === 18 ? foreignRange(random) : random.of(NO_STRINGS)
}

const versions = (random, pool) => ({
  is: random.of(['list', 'list', 'iterable']),
  items: random.list(random.of([0, 1, 3, 40]), () => version(random, pool)),
})

const validVersions = (random) => {
  const one = () => numbers(random) + random.of([preOf(random), '+a', '+b.1'])
  return { is: 'list', items: random.list(random.of([0, 1, 12]), one) }
}

const list = (random, pool) =>
  random.below(3) ? validVersions(random) : { ...versions(random, pool), is: 'list' }

// The kinds of arguments that the table below names.
const KINDS = {
  version, range, options, versions, list, release, identifier, base,
  any: (random, pool) => (random.below(9) ? version(random, pool) : { is: 'ANY' }),
  operator: (random) =>
    random.of(['===', '!==', '', '=', '==', '!=', '>', '>=', '<', '<=', '~', UNDEFINED]),
  side: (random) => random.of(['<', '>', '<', '>', '', UNDEFINED]),
  written: (random) => ({ is: 'getters', fields: { start: random.below(4) } }),
  flag: (random) => random.of([UNDEFINED, true, false]),
  part: (random) => random.of([...IDENTIFIERS, 0, 1, 10]),
  comparator: (random, pool) =>
    random.below(3) ? comparatorText(random) : random.of(pool.Comparator),
  Range: (random, pool) => random.of(random.below(9) ? pool.Range : NO_STRINGS),
  Comparator: (random, pool) => random.of(random.below(9) ? pool.Comparator : NO_STRINGS),
  none: () => UNDEFINED,
}

/** The calls, each with the kinds of its arguments. */
export const CALLS = {
  valid: 'version options',
  parse: 'version options flag',
  clean: 'version options',
  coerce: 'version options',
  inc: 'version release options identifier base',
  diff: 'version version',
  major: 'version options',
  minor: 'version options',
  patch: 'version options',
  prerelease: 'version options',
  explainVersion: 'version options',
  compare: 'version version options',
  rcompare: 'version version options',
  compareLoose: 'version version',
  compareBuild: 'version version options',
  gt: 'version version options',
  gte: 'version version options',
  lt: 'version version options',
  lte: 'version version options',
  eq: 'version version options',
  neq: 'version version options',
  cmp: 'version operator version options',
  compareIdentifiers: 'part part',
  rcompareIdentifiers: 'part part',
  sort: 'list options',
  rsort: 'list options',
  satisfies: 'version range options',
  maxSatisfying: 'versions range options',
  minSatisfying: 'versions range options',
  filter: 'versions range options',
  validRange: 'range options',
  toComparators: 'range options',
  explainRange: 'range options',
  terms: 'range options',
  replaceVersion: 'range written version options',
  upgrade: 'range version options',
  minVersion: 'range options',
  intersects: 'range range options',
  subset: 'range range options',
  compareRanges: 'range range options',
  gtr: 'version range options',
  ltr: 'version range options',
  outside: 'version range side options',
  simplifyRange: 'list range options',
  ready: '',
  init: 'none',
  RELEASE_TYPES: '',
  SEMVER_SPEC_VERSION: '',
  SemverError: '',
  UpgradeError: '',
  'new SemVer': 'version options',
  'new Range': 'range options',
  'new Comparator': 'comparator options',
  'SemVer.compare': 'version',
  'SemVer.compareMain': 'version',
  'SemVer.comparePre': 'version',
  'SemVer.compareBuild': 'version',
  'SemVer.inc': 'release identifier base',
  'Range.test': 'version',
  'Range.intersects': 'Range options',
  'Range.parseRange': 'range',
  'Comparator.parse': 'comparator',
  'Comparator.test': 'any',
  'Comparator.intersects': 'Comparator options',
}
const FIELDS = {
  SemVer: 'options loose includePrerelease raw major minor patch prerelease build version format ' +
    'toString toJSON',
  Range: 'options loose includePrerelease raw set range format toString toRequirement toJSON',
  Comparator: 'options loose operator semver value toString toJSON',
}
for (const [name, fields] of Object.entries(FIELDS)) {
  for (const field of fields.split(' ')) CALLS[`${name}.${field}`] = ''
}

// These are made more often, since they use what was parsed before, or overwrite it.
const OFTEN = ['satisfies', 'satisfies', 'satisfies', 'maxSatisfying', 'minSatisfying']

/** A random call of a name. */
function callOf(name, random, pool) {
  const values = kindsOf(name).map((kind) => KINDS[kind](random, pool))
  const [class_, method] = name.split('.')
  return method === undefined ? { call: name, values } :
    { call: name, object: random.of(pool[class_]), values }
}

const kindsOf = (name) => CALLS[name].split(' ').filter(Boolean)

/** The same call with another argument, often the last one. */
function changedCall(it, random, pool) {
  const kinds = kindsOf(it.call)
  const at = random.below(2) ? kinds.length - 1 : random.below(kinds.length || 1)
  const values = it.values.map((value, index) =>
    index === at ? KINDS[kinds[at]](random, pool) : value)
  return { ...it, values }
}

/** `count` random calls, each followed by the same call with a change, and one call of each
 * living range. */
export function randomCalls(random, count, living) {
  const some = (make) => Array.from({ length: 60 }, () => make(random))
  const pool = { SemVer: some(newVersion), Comparator: some(newComparator), Range: some(newRange) }
  pool.Range.push(...living)
  const names = [...Object.keys(CALLS), ...OFTEN]
  const calls = []
  for (let at = 0; calls.length < count; at += 1) {
    const call = callOf(names[at % names.length], random, pool)
    calls.push(call, changedCall(call, random, pool))
  }
  for (const object of living) {
    calls.push({ call: 'Range.test', object, values: [numbers(random) + preOf(random)] })
  }
  return calls
}

// ---- calls with a few values: in a sequence of these the same ones come again and again

function callOfRanges(random, ranges) {
  const [one, other] = [random.of(ranges), random.of(ranges)]
  const call = random.of(['Range.test', 'Range.intersects', 'subset', 'compareRanges'])
  if (call === 'Range.test') return { call, object: one, values: [numbers(random)] }
  return call === 'Range.intersects' ? { call, object: one, values: [other, UNDEFINED] } :
    { call, values: [one, other, UNDEFINED] }
}

function callOfStrings(random) {
  const options = random.of([UNDEFINED, { dialect: 'cargo' }, { preReleases: 'included' }])
  const version = random.of(['', '1.0.0', '1.2.3-rc.1', '2.0.0', LONG_VERSIONS[1]])
  const range = random.of(['', '1', '^1.2.0', '1.2.3', LONG_RANGES.at(-2)])
  const names = ['satisfies', 'satisfies', 'maxSatisfying', 'validRange', 'valid', 'compare']
  switch (random.of(names)) {
    case 'satisfies': return { call: 'satisfies', values: [version, range, options] }
    case 'validRange': return { call: 'validRange', values: [range, options] }
    case 'valid': return { call: 'valid', values: [version, options] }
    case 'compare': return { call: 'compare', values: [version, '1.0.0', options] }
    default: return { call: 'maxSatisfying', values: [[version, '1.3.0'], range, options] }
  }
}

/** `count` random calls with a few strings and a few ranges. */
export function callsOfFew(random, ranges, count) {
  return Array.from({ length: count }, () =>
    random.below(2) ? callOfStrings(random) : callOfRanges(random, ranges))
}
