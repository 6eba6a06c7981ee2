// Writes cases.json: what node-semver returns for each of its calls.
//
//     NODE_PATH="$(npm root -g)/npm/node_modules" node make-cases.cjs > cases.json
//
// A case is a call, its arguments and its result. A call `Range.intersects` is a method of `new
// Range(...)`: the first argument is the constructor's. An object is stored as its fields.
'use strict'
const semver = require('semver')

const VERSIONS = [
  '1.2.3', ' v1.2.3 ', '=1.2.3', '1.2.3-rc.1', '1.2.3-rc.1+b5.07', '1.2.3+b5', '1.2.3+b6', '1.2.3+b5.1', '1.2.3+7', '1.2.3+007',
  '0.0.0', '0.0.0-0', '1.2.4-0', '1.2.4-alpha', '1.2.4-alpha.1', '1.2.4-alpha.beta', '1.2.4-1', '1.2.4-11', '1.2.4-a-b', '1.10.0', '2.0.0',
  '2.0.0-alpha', '9007199254740991.0.0', '9007199254740992.0.0', '1.2', '1', '', 'x', '1.2.03', '1.2.3-01', '1.2.3-', '1.2.3-a..b', '1.2.3+',
  'vv1.2.3', '1.2.3 4', '1.2.3-ä', '\ud800', '\u00a01.2.3\ufeff', `1.2.3-${'a'.repeat(251)}`, `1.2.3-${'a'.repeat(250)}`,
]
// Valid only with `loose`.
const ONLY_LOOSE = ['=1.2.3', '1.2.03', '1.2.3-01', '1.2.3-', 'vv1.2.3']
const OTHERS = [null, undefined, 1, true, {}, []]
const RANGES = [
  '^1.2.3', '~1.2', '1.x', '*', '', ' ', '>=1.2.3 <2', '1.2.3 - 1.10', '<2.0.0-beta || >=3', '=1.2.3-rc.1', '>1.2.3-rc.1', '^0.0.0-0', '>=0', 'x',
  '1.2.3.4', '>>1', '^', 'latest', '1 ||', '<0.0.0-0', '~> 1.2.3', '>9007199254740991', '>=9007199254740992', '\u00a01.2.3\ufeff',
  '  >=1.2.3 \t <2 ', '^1.2.3-beta || ^2 || 2.x', '>=1.2.3 >=1.2.3 <1.5.0', '>* || 1', '<1.2.3-0 || <0.0.0-0', '1.2.3 1.2.4', '^0.0.3 || ^0.1', '2.1.0 || >2 <3',
]
const OPTIONS = [undefined, { includePrerelease: true }]

const cases = []

// The fields of an object of a class, and of what it contains.
function plain (value) {
  if (typeof value === 'symbol' || typeof value === 'function') return String(value)
  if (value === null || typeof value !== 'object') return value
  if (Array.isArray(value)) return value.map(plain)
  return Object.fromEntries(Object.entries(value).filter(([name]) => name !== 'options').map(([name, it]) => [name, plain(it)]))
}

function made (call, values) {
  const [name, method] = call.split('.')
  if (!/^[A-Z]/.test(name)) return semver[name](...values)
  const object = new semver[name](...values.splice(0, method === undefined ? values.length : 1))
  return method === undefined ? object : object[method](...values.map((it) => method === 'intersects' ? new semver[name](it) : it))
}

function add (call, ...values) {
  let result
  try {
    result = plain(made(call, structuredClone(values)))
  } catch (error) {
    result = error instanceof TypeError ? 'TypeError' : 'Error'
  }
  cases.push([call, values.map((it) => (it === undefined ? '(undefined)' : it)), result])
}

// ---- versions

for (const version of [...VERSIONS, ...OTHERS]) {
  for (const call of ['valid', 'parse', 'prerelease', 'major', 'minor', 'patch', 'clean', 'SemVer']) add(call, version)
  if (!ONLY_LOOSE.includes(version)) for (const options of [true, { loose: true }, 5]) add('valid', version, options)
}
const COMPARED = [...VERSIONS.slice(0, 22), '1.2', '']
COMPARED.forEach((version, at) => {
  for (const other of COMPARED) for (const call of ['compare', 'compareBuild', 'diff']) add(call, version, other)
  const other = COMPARED[(at * 7 + 3) % COMPARED.length]
  for (const call of ['rcompare', 'compareLoose', 'gt', 'gte', 'lt', 'lte', 'eq', 'neq']) {
    if (call === 'compareLoose' && [version, other].some((it) => ONLY_LOOSE.includes(it))) continue
    add(call, version, other)
    add(call, version, version)
  }
  for (const operator of ['===', '!==', '', '=', '==', '!=', '>', '>=', '<', '<=', '~', 'x', undefined]) add('cmp', version, operator, other)
  for (const method of ['compare', 'compareMain', 'comparePre', 'compareBuild']) add(`SemVer.${method}`, version, other)
})
const RELEASES = [...semver.RELEASE_TYPES, 'pre', 'huge', undefined]
for (const version of ['1.2.3', '1.2.0', '1.0.0', '1.2.3-0', '1.2.0-beta', '1.0.0-beta.1', '1.2.3-beta.x', '1.2.3-beta.1.x+b', '1.2.3-1.beta', '0.0.0', 'x', '']) {
  for (const release of RELEASES) {
    add('inc', version, release)
    add('inc', version, release, 'beta')
    add('inc', version, release, 'beta', '1')
    add('inc', version, release, 'beta', false)
    add('inc', version, release, { includePrerelease: true }, 'alpha', '0')
    add('inc', version, release, undefined, undefined, false)
    add('inc', version, release, '1')
    add('SemVer.inc', version, release, 'beta')
  }
}
const COERCED = [
  'v2', 'v3.4 replaces v3.3.1', '4.6.3.9.2-alpha2', '1.2.3.4', 'x', '', '.', '1.', 'a1b2.3c', '12345678901234567', '1.12345678901234567', '1.2.3-rc.1+b5 and',
  '1.2.3-01', '1.2-beta', '9007199254740992', '00.01.02', '1.2.3-a.b.4', '10.20.30.40-x', 'version one', '1 2 3', '-1.2.3', '0-0-0', '1.2.3+a+b',
]
for (const string of [...COERCED, ...OTHERS, 1.5, 42]) {
  for (const options of [undefined, { rtl: true }, { includePrerelease: true }, { rtl: true, includePrerelease: true }]) add('coerce', string, options)
}
for (const string of [' =v1.2.3 ', '=v1', ' v 1.2.3', '==1.2.3', 'v=1.2.3-a', '  2.1.5', '~1.0.0', '> 1.2.3']) add('clean', string)
for (const one of ['0', '1', '10', 'a', 'b', 'A', '-', '1a', 1, 2, 1.5, null, undefined]) {
  for (const two of ['0', '2', '10', 'a', 'b', '1a', 1, null, undefined]) for (const call of ['compareIdentifiers', 'rcompareIdentifiers']) add(call, one, two)
}

// ---- ranges

const SOME = ['1.2.3', '1.2.3-rc.1', '1.2.4-alpha', '1.10.0', '2.0.0', '2.0.0-alpha', '0.0.0', '0.0.0-0', 'v1.4.0', 'x', '1.2', '', '1.10.0+b']
const RELEASES_OF_SOME = ['0.0.0', '1.2.3', '1.3.0', '1.4.0', '1.10.0', '2.0.0', '2.5.0', '3.0.0']
// For ranges that no version satisfies, and for pre-releases, node-semver returns something else
// than the sets of versions: rust/docs/GRAMMAR.md. `tests/js-rows.js` tests these.
const isPlain = (range) => semver.validRange(range) === null || (!/\d-/.test(range) && new semver.Range(range).set.every((comparators) =>
  semver.minVersion(comparators.join(' ')) !== null))
const PLAIN = RANGES.filter(isPlain)
for (const range of RANGES) {
  for (const options of OPTIONS) {
    for (const version of SOME) add('satisfies', version, range, options)
    for (const call of ['maxSatisfying', 'minSatisfying']) {
      add(call, SOME, range, options)
      add(call, [], range, options)
    }
    add('simplifyRange', RELEASES_OF_SOME, range, options)
  }
  for (const call of ['validRange', 'toComparators', 'Range', 'Comparator']) add(call, range)
  // A hyphen range up to three numbers is printed differently here: js/README.md.
  if (!/ - /.test(range)) for (const call of ['validRange', 'toComparators', 'Range']) add(call, range, { includePrerelease: true })
  for (const version of SOME) add('Range.test', range, version)
  if (!range.includes('||')) add('Range.parseRange', '1', range)
}
for (const range of PLAIN) {
  add('minVersion', range)
  for (const other of PLAIN) {
    for (const call of ['intersects', 'Range.intersects']) add(call, range, other)
    if (semver.validRange(range) !== null || range !== other) add('subset', range, other)
  }
  for (const version of [...RELEASES_OF_SOME, 'x']) {
    for (const call of ['gtr', 'ltr']) add(call, version, range)
    for (const side of ['<', '>', 'x']) add('outside', version, range, side)
  }
}
const COMPARATORS = ['>=1.2.3', '<1.2.3', '>1.2.3-rc.1', '<= 2.0.0', '=1.2.3', '1.2.4', '', '>0.0.0', 'v1.2.3', '>1', '^1.2.3', '<0.0.0']
for (const comparator of COMPARATORS) {
  for (const options of [undefined, { includePrerelease: true }, { includePrerelease: true, loose: true }]) add('Comparator', comparator, options)
  for (const version of SOME) add('Comparator.test', comparator, version)
  const isOther = (it) => /-rc|<0/.test(it)
  for (const other of COMPARATORS) if (!isOther(comparator) && !isOther(other)) add('Comparator.intersects', comparator, other)
}
for (const range of OTHERS) {
  for (const call of ['validRange', 'toComparators', 'minVersion', 'Range', 'Comparator']) add(call, range)
  add('satisfies', '1.2.3', range)
  add('maxSatisfying', ['1.2.3'], range)
  add('intersects', '1', range)
  add('Range.test', '1', range)
}
add('satisfies', null, '*')
add('satisfies', undefined, '*')
for (const call of ['sort', 'rsort']) {
  add(call, COMPARED.slice(0, 22))
  add(call, [])
  add(call, ['2.0.0', '1.0.0', '1.2'])
}
console.log(`[\n${cases.map((it) => JSON.stringify(it)).join(',\n')}\n]`)
