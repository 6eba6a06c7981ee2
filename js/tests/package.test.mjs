// Tests of the package as it is installed: `node --test package.test.mjs`, in a project that has
// it.
import assert from 'node:assert/strict'
import { cpSync, readFileSync } from 'node:fs'
import { createRequire } from 'node:module'
import { test } from 'node:test'
import { inspect } from 'node:util'
import { Worker } from 'node:worker_threads'
import * as semver from 'semver-parser-proved'
import { wrongRows } from './differences.mjs'
import { result } from './results.mjs'

const require = createRequire(import.meta.url)
const common = require('semver-parser-proved')
const cases = JSON.parse(readFileSync(new URL('cases.json', import.meta.url)))
const cargo = { dialect: 'cargo' }
const wasm = readFileSync(require.resolve('semver-parser-proved/semver_parser.wasm'))

for (const [format, library] of [['import', semver], ['require', common]]) {
  test(`node-semver's answers, by ${format}`, () => {
    for (const [call, values, right] of cases) {
      assert.deepEqual(result(library, call, values), right, `${call}(${JSON.stringify(values)})`)
    }
  })
}

test('both formats have the same names, and the default export has them', async () => {
  const { default: all, ...named } = await import('semver-parser-proved')
  assert.deepEqual({ ...all }, named)
  assert.deepEqual({ ...common }, named)
})

test("node-semver's paths, with and without .js, are the same calls", async () => {
  const paths = {
    'functions/satisfies': 'satisfies', 'functions/compare-build': 'compareBuild', 'functions/rsort': 'rsort', 'functions/coerce': 'coerce',
    'ranges/valid': 'validRange', 'ranges/max-satisfying': 'maxSatisfying', 'ranges/simplify': 'simplifyRange', 'ranges/to-comparators': 'toComparators',
    'classes/semver': 'SemVer', 'classes/range': 'Range', 'classes/comparator': 'Comparator',
  }
  for (const [path, name] of Object.entries(paths)) {
    for (const ending of ['', '.js']) {
      assert.equal(require(`semver-parser-proved/${path}${ending}`), semver[name], path)
      assert.equal((await import(`semver-parser-proved/${path}${ending}`)).default, semver[name], path)
    }
  }
  for (const path of ['index', 'index.js', 'preload', 'preload.js']) assert.equal(require(`semver-parser-proved/${path}`), common)
  assert.deepEqual(Object.keys(require('semver-parser-proved/classes')), ['SemVer', 'Range', 'Comparator'])
})

test("Cargo's dialect", () => {
  assert.equal(semver.satisfies('1.9.0', '1.2, <2', cargo), true)
  assert.equal(semver.satisfies('1.2.4', '1.2.3', cargo), true)
  assert.equal(semver.satisfies('1.2.4', '1.2.3'), false)
  assert.equal(semver.valid('v1.2.3', cargo), null)
  assert.equal(semver.validRange('1 || 2', cargo), null)
  assert.equal(semver.validRange('1.2', cargo), '>=1.2.0 <2.0.0-0')
  assert.equal(semver.minVersion('1.2, <2', cargo).version, '1.2.0')
  assert.equal(semver.gtr('2.0.0', '1.2', cargo), true)
  const large = semver.parse('18446744073709551615.0.9007199254740992', cargo)
  assert.deepEqual([large.major, large.minor, large.patch], [18446744073709551615n, 0n, 9007199254740992n])
  assert.equal(semver.major('1.2.3', cargo), 1n)
  assert.equal(JSON.parse(JSON.stringify(large)).minor, '0')
  assert.match(inspect(large), /^SemVer \{[^]*minor: 0n,/)
  assert.equal(semver.major('1.2.3'), 1)
  assert.equal(semver.inc('18446744073709551614.0.1', 'major', cargo), '18446744073709551615.0.0')
  assert.equal(semver.inc('18446744073709551615.0.1', 'major', cargo), null)
  assert.equal(semver.valid('18446744073709551616.0.1', cargo), null)
})

test('rules for pre-releases', () => {
  const by = (preReleases) => semver.satisfies('1.3.0-rc.1', '^1.2', { preReleases })
  assert.deepEqual(['by-dialect', 'included', 'excluded'].map(by), [false, true, false])
  assert.equal(semver.satisfies('1.2.3-rc.1', '=1.2.3-rc.1', { preReleases: 'excluded' }), false)
  assert.equal(semver.satisfies('1.3.0-rc.1', '^1.2', { includePrerelease: true }), true)
})

test('loose is accepted, and strings are parsed strictly', () => {
  for (const options of [true, 1, 'x', { loose: true }]) {
    assert.equal(semver.satisfies('1.2.3', '^1', options), true)
    assert.equal(semver.valid('1.2.3beta', options), null)
    assert.equal(semver.validRange('>=01.2.3', options), null)
  }
  assert.deepEqual(['1.2.3', 'x', '1.0.0'].map(semver.valid), ['1.2.3', null, '1.0.0'])
  assert.equal(new semver.SemVer('1.2.3', true).loose, true)
})

test('with rejectLoose, loose throws', () => {
  const options = { loose: true, rejectLoose: true }
  const refused = [
    () => semver.valid('1.2.3', options), () => semver.parse('1.2.3', options), () => semver.clean('1.2.3', options), () => semver.coerce('1.2.3', options),
    () => semver.inc('1.2.3', 'major', options), () => semver.compare('1.2.3', '1.2.4', options), () => semver.sort(['1.2.3'], options),
    () => semver.satisfies('1.2.3', '^1', options), () => semver.maxSatisfying(['1.2.3'], '^1', options), () => semver.validRange('^1', options),
    () => semver.subset('^1', '^1', options), () => semver.explainRange('^1', options), () => new semver.SemVer('1.2.3', options),
    () => new semver.Range('^1', options), () => new semver.Comparator('>1.2.3', options), () => new semver.Range('^1').intersects(new semver.Range('^1'), options),
  ]
  for (const call of refused) assert.throws(call, { name: 'TypeError', message: /^loose: / }, String(call))
  for (const others of [{ rejectLoose: true }, { loose: false, rejectLoose: true }, { loose: true, rejectLoose: false }]) {
    assert.equal(semver.satisfies('1.2.3', '^1', others), true)
  }
})

test('wrong options are rejected', () => {
  for (const options of [{ dialect: 'yarn' }, { dialect: 'toString' }, { preReleases: 'all' }, { includePrerelease: true, preReleases: 'excluded' }]) {
    for (const call of [() => semver.satisfies('1.2.3', '*', options), () => semver.valid('1.2.3', options), () => semver.parse('x', options),
      () => semver.sort(['1.2.3'], options), () => new semver.Range('1', options), () => semver.maxSatisfying([], '1', options)]) {
      assert.throws(call, TypeError)
    }
  }
})

test('where and why a string is invalid', () => {
  assert.deepEqual(semver.explainVersion('1.2.03', cargo), {
    offset: 5, span: { start: 4, end: 6 }, reason: 'leading-zero', sentence: 'numbers and identifiers of digits may not have a leading zero', suggestion: '1.2.3',
  })
  assert.deepEqual(semver.explainRange('1.2 || 3', cargo),
    { offset: 4, span: { start: 4, end: 6 }, reason: 'cargo-bars', sentence: "Cargo doesn't accept ||; npm does", suggestion: null })
  assert.equal(semver.explainVersion('1.2.3'), null)
  assert.equal(semver.explainRange('1 || 2'), null)
  assert.equal(semver.explainRange('1 |').offset, 3)
  // The offset counts UTF-16 units, as JavaScript does; a no-break space has two bytes.
  assert.equal(semver.explainVersion('\u00a0\u00a01.2.x').offset, 6)
  assert.deepEqual(semver.explainRange('1 || >=9007199254740992'),
    { offset: 7, span: { start: 7, end: 23 }, reason: 'npm-too-large', sentence: "npm's numbers are at most 2^53 - 1", suggestion: null })
  assert.deepEqual(semver.explainRange('>1.9007199254740991'), {
    offset: 3, span: { start: 3, end: 19 }, reason: 'npm-bound-too-large', sentence: "the bound above this number is above npm's limit of 2^53 - 1", suggestion: null,
  })
  assert.throws(() => semver.explainRange(5), /Invalid range\. Must be a string\. Got type "number"/)
})

// A span has the characters of the same kind around the offset, and for a leading zero it is the
// number that begins with it. The comments in the header of the C API say so.
test('the span of an error', () => {
  const versions = [
    ['1.2.3-rc.007', {}, 9, 12], ['1.2', cargo, 3, 3], ['', {}, 0, 0], ['latest', {}, 0, 6], ['v1.2.3', cargo, 0, 1],
    // Indices count UTF-16 units, of which the last character has two.
    ['\u00a0\u00a01.2.x', {}, 6, 7], ['\u00a0001.2.3', {}, 1, 4], ['1.2.3-ääb', {}, 6, 8], ['1.2.3-\u{1f600}\u{1f600}a', {}, 6, 10], ['\ud800', {}, 0, 1],
  ]
  for (const [string, options, start, end] of versions) assert.deepEqual(semver.explainVersion(string, options).span, { start, end }, string)
  const ranges = [
    ['=>1.2', {}, 0, 2], ['1 || 2', cargo, 2, 4], ['>=1.2, <2', {}, 5, 6], ['^', {}, 1, 1], ['\u3000>\u3000v\u2070', {}, 4, 5],
  ]
  for (const [string, options, start, end] of ranges) assert.deepEqual(semver.explainRange(string, options).span, { start, end }, string)
})

// tests/messages.py compares more of them with what Rust prints.
test('an error with carets', () => {
  const lines = "invalid range: Cargo doesn't accept ||; npm does\n    1 || 2\n      ^^"
  const why = semver.explainRange('1 || 2', cargo)
  assert.equal(why.withCarets, lines)
  assert.deepEqual(Object.keys(why), ['offset', 'span', 'reason', 'sentence', 'suggestion'])
  assert.throws(() => new semver.Range('1 || 2', cargo), (error) => {
    assert.throws(() => { error.withCarets = '' }, TypeError)
    return error.withCarets === lines
  })
  assert.throws(() => semver.compare('1.2.3', '1.2.03', cargo), {
    withCarets: 'invalid version: numbers and identifiers of digits may not have a leading zero\n    1.2.03\n        ^^',
  })
  assert.equal(semver.explainRange('\n\té|').withCarets, 'invalid range: unexpected character\n    \\n\\t\\u{e9}|\n        ^^^^^^')
})

test('what may have been meant', () => {
  const versions = [['v1.2', cargo, '1.2.0'], ['1.2.03', {}, '1.2.3'], ['=1.2.3', cargo, '1.2.3'], ['latest', {}, null]]
  for (const [string, options, right] of versions) assert.equal(semver.explainVersion(string, options).suggestion, right, string)
  const ranges = [
    ['=>1.2', {}, '>=1.2'], ['=>1.02', cargo, '>=1.2'], ['>=1.2, <2', {}, '>=1.2 <2'], ['v1', cargo, '1'], ['\u00a0=>1.2', {}, '\u00a0>=1.2'],
    ['\ufeff=>1', {}, '\ufeff>=1'], ['latest', {}, null], ['', cargo, null], ['1 || 2', cargo, null], ['=>1\ud800', {}, null],
  ]
  for (const [string, options, right] of ranges) assert.equal(semver.explainRange(string, options).suggestion, right, string)
})

test('a requirement reads back as a range of the same versions', () => {
  for (const dialect of ['npm', 'cargo', 'crate-npm', 'crate-cargo']) {
    for (const preReleases of ['by-dialect', 'included', 'excluded']) {
      const options = { dialect, preReleases }
      for (const string of ['*', '^1.2.3-rc.1', '=1.2.3', '>2, <1', '>2 <1', '1 || 3', '>=0.0.0-0']) {
        if (semver.validRange(string, options) === null) continue
        const requirement = new semver.Range(string, options).toRequirement()
        if (requirement !== null) assert.deepEqual(semver.compareRanges(string, requirement, options), { lost: null, gained: null }, string)
      }
    }
  }
  assert.equal(new semver.Range('^1.2.3-rc.1', cargo).toRequirement(), '>=1.2.3-rc.1, <2.0.0')
  assert.match(new semver.Range('1 || 3').toRequirement(), / \|\| /)
})

test('errors have a class and all that is known', () => {
  assert.throws(() => semver.compare('1.2.3', '1.2'), (error) => {
    assert.ok(error instanceof semver.SemverError && error instanceof TypeError)
    assert.match(error.message, /^Invalid Version: 1\.2 \(offset 3: /)
    assert.throws(() => { error.offset = 5 }, TypeError)
    assert.throws(() => { error.span.start = 5 }, TypeError)
    assert.deepEqual(JSON.parse(JSON.stringify(error)), { kind: 'version', argument: 1, input: '1.2', ...semver.explainVersion('1.2') })
    return error.offset === 3 && error.name === 'SemverError' && String(error) === error.stack.split('\n')[0]
  })
  assert.throws(() => semver.filter(['1.2.3'], '1.2 |'), /^SemverError: Invalid SemVer Range: 1\.2 \|/)
  assert.throws(() => new semver.Range('>=9007199254740992'), { reason: 'npm-too-large' })
  assert.throws(() => semver.parse('x', undefined, true), semver.SemverError)
  assert.throws(() => new semver.SemVer('1'.repeat(100000)), (error) => error.message.length < 300)
})

test('an error says what was rejected, and which argument it was', () => {
  const version = new semver.SemVer('1.2.3')
  const refused = [
    ['version', 0, () => semver.compare('1.2', '1.2.3')], ['version', 1, () => semver.gt('1.2.3', '1.2')], ['version', 0, () => semver.rcompare('1.2', '1.2.3')],
    ['version', 1, () => semver.rcompare('1.2.3', '1.2')], ['version', 1, () => semver.compareBuild('1.2.3', '1.2')], ['version', 1, () => semver.diff('1.2.3', '1.2')],
    ['version', 0, () => semver.sort(['1.2.3', '1.2'])], ['version', 0, () => semver.rsort(['1.2', '1.2.3'])], ['version', 0, () => semver.major('1.2')],
    ['version', 0, () => semver.simplifyRange(['1.2.3', '1.2'], '1')], ['version', 0, () => version.compare('1.2')], ['version', 0, () => semver.gtr('1.2', '1')],
    ['range', 1, () => semver.gtr('1.2.3', '^')], ['range', 1, () => semver.filter([], '^')], ['range', 0, () => semver.minVersion('^')],
    ['range', 0, () => semver.subset('^', '1')], ['range', 1, () => semver.intersects('1', '^')], ['range', 1, () => semver.compareRanges('1', '^')],
    ['range', 0, () => new semver.Range('^')], ['range', 0, () => semver.toComparators('^')],
  ]
  for (const [kind, argument, call] of refused) assert.throws(call, { name: 'SemverError', kind, argument }, String(call))
})

test('which calls do not throw for an invalid range or version', () => {
  const none = { satisfies: false, maxSatisfying: null, minSatisfying: null, simplifyRange: '' }
  for (const [name, right] of Object.entries(none)) {
    const first = name === 'satisfies' ? '1.2.3' : ['1.2.3']
    assert.equal(semver[name](first, 'a b'), right, name)
  }
  assert.equal(semver.validRange('a b'), null)
  assert.equal(semver.simplifyRange(['1.2.3'], 5), '')
  for (const name of ['valid', 'parse', 'clean', 'coerce', 'prerelease']) assert.equal(semver[name]('x'), null, name)
  assert.equal(semver.inc('x', 'major'), null)
  for (const name of ['maxSatisfying', 'minSatisfying']) assert.equal(semver[name](['x', '1.2.3'], '*'), '1.2.3', name)
  for (const object of [new semver.Range('*'), new semver.Comparator('>=1.0.0')]) assert.equal(object.test('x'), false)
})

test('the types name the reasons of the module', () => {
  const { exports: module_ } = new WebAssembly.Instance(new WebAssembly.Module(wasm))
  const names = []
  for (let number = 1; module_.reason_name(number) === 0; number += 1) {
    const [at, , length] = new Uint32Array(module_.memory.buffer, module_.numbers(), 4)
    names.push(Buffer.from(module_.memory.buffer, at, length).toString())
  }
  const types = readFileSync(require.resolve('semver-parser-proved').replace(/cjs$/, 'd.cts'), 'utf8')
  const [, union] = /^export type Reason =\n([^]*?)\n\n/m.exec(types)
  assert.deepEqual([...union.matchAll(/'(.*?)'/g)].map(([, name]) => name), names)
})

test('the terms of a range are what is written, and where', () => {
  const version = (start, end, [major, minor = null, patch = null], others = {}) =>
    ({ start, end, hasV: false, major, minor, patch, prerelease: '', build: '', ...others })
  assert.deepEqual(semver.terms('^1.2 || >=v3.0.0-rc.1+b5 <4 || 1.2 - 2.x'), [
    { range: 0, operator: '^', start: 0, end: 4, version: version(1, 4, [1, 2]), upper: null },
    { range: 1, operator: '>=', start: 8, end: 24, version: version(10, 24, [3, 0, 0], { hasV: true, prerelease: 'rc.1', build: 'b5' }), upper: null },
    { range: 1, operator: '<', start: 25, end: 27, version: version(26, 27, [4]), upper: null },
    { range: 2, operator: '-', start: 31, end: 40, version: version(31, 34, [1, 2]), upper: version(37, 40, [2, 'x']) },
  ])
  assert.deepEqual(semver.terms('>= 1.*, <2', cargo), [
    { range: 0, operator: '>=', start: 0, end: 6, version: version(3, 6, [1n, '*']), upper: null },
    { range: 0, operator: '<', start: 8, end: 10, version: version(9, 10, [2n]), upper: null },
  ])
  // Indices count UTF-16 units, as JavaScript does, and an empty range has no term.
  assert.deepEqual(semver.terms('|| \u00a0~> 1').map(({ range, operator, start, end }) => [range, operator, start, end]), [[1, '~', 4, 8]])
  assert.deepEqual(semver.terms(''), [])
  assert.throws(() => semver.terms('1 || 2', cargo), { name: 'SemverError', kind: 'range', argument: 0, offset: 2 })
  assert.throws(() => semver.terms(5), /Invalid range\. Must be a string\. Got type "number"/)
})

test('a version in a range gets the numbers of another one', () => {
  const replaced = (range, version, options) => semver.terms(range, options)
    .flatMap((term) => [term.version, term.upper])
    .filter((written) => written !== null)
    .map((written) => semver.replaceVersion(range, written, version, options))
  const version = '3.1.4-rc.1+b5'
  assert.deepEqual(replaced('v1.2 || >= 1.2.3-a+b', version), ['v3.1 || >= 1.2.3-a+b', 'v1.2 || >= 3.1.4-rc.1'])
  assert.deepEqual(replaced('1.X - 2.*.x', new semver.SemVer(version)), ['3.X - 2.*.x', '1.X - 3.*.x'])
  assert.deepEqual(replaced('\u00a0^1.2.x-a', version), ['\u00a0^3.1.x'])
  assert.deepEqual(replaced('\ufeff^1', version), ['\ufeff^3'])
  assert.deepEqual(replaced('>=1.2.0, <2', version, cargo), ['>=3.1.4-rc.1, <2', '>=1.2.0, <3'])
  const [{ version: written }] = semver.terms('^1.2')
  assert.throws(() => semver.replaceVersion('^1.02', written, '2.0.0'), { name: 'SemverError', kind: 'range', argument: 0, input: '^1.02' })
  assert.throws(() => semver.replaceVersion('^1.02', written, '2.0'), { name: 'SemverError', kind: 'range' })
  assert.throws(() => semver.replaceVersion('^1.2', written, '2.0'), { name: 'SemverError', kind: 'version', argument: 1, input: '2.0' })
  const none = { name: 'TypeError', message: 'the range does not have this version at index 1' }
  assert.throws(() => semver.replaceVersion('1.2', written, '2.0.0'), none)
  assert.throws(() => semver.replaceVersion('^2.2', written, '2.0.0'), none)
  for (const start of [-1, NaN, null, '1', 1.5, 9, undefined]) {
    assert.throws(() => semver.replaceVersion('^1.2', { ...written, start }, '2.0.0'), { ...none, message: `the range does not have this version at index ${start}` })
  }
  // After the first replacement made the string longer, the other versions are elsewhere.
  const range = '1 || 2 || 3', found = semver.terms(range).map((term) => term.version)
  const longer = semver.replaceVersion(range, found[0], '10.0.0')
  assert.throws(() => semver.replaceVersion(longer, found[2], '4.0.0'), { name: 'TypeError' })
  assert.equal(found.reduceRight((string, it) => semver.replaceVersion(string, it, '10.0.0'), range), '10 || 10 || 10')
  assert.throws(() => semver.replaceVersion(5, written, '2.0.0'), /Invalid range\. Must be a string/)
  assert.throws(() => semver.replaceVersion('^1.2', written, 5), /Invalid version\. Must be a string/)
})

test('a requirement is raised to a newer version', () => {
  const raised = [
    ['^1.2', '2.3.4', {}, '^2.3'], ['^1.2', '2.3.4', cargo, '^2.3'], ['~1.2 || ^2.0.0', '3.1.0', {}, '~1.2 || ^2.0.0 || ^3.1.0'],
    ['^3', '2.0.0', {}, null], ['^3', '2.0.0', cargo, null], ['>= 1.2 , < 2.0.0', '2.3.0', cargo, '>= 1.2 , < 3.0.0'],
    ['\u00a0^1.2\ufeff', '2.3.4', {}, '\u00a0^2.3\ufeff'],
  ]
  for (const [range, version, options, right] of raised) {
    assert.equal(semver.upgrade(range, version, options), right, range)
    assert.equal(semver.upgrade(range, new semver.SemVer(version, options), options), right, range)
    assert.equal(semver.upgrade(range, new semver.SemVer(version, options)), right, range)
  }
})

test('a requirement that cannot be raised, and invalid strings', () => {
  const call = (options) => semver.upgrade('1.x', '2.0.0-rc.1', options)
  assert.throws(call, (error) => {
    assert.ok(error instanceof semver.UpgradeError && error instanceof TypeError && !(error instanceof semver.SemverError))
    assert.throws(() => { error.range = '' }, TypeError)
    assert.deepEqual({ ...error }, { range: '1.x', version: '2.0.0-rc.1' })
    return String(error) === 'UpgradeError: the requirement can\'t be raised to this version: "1.x"'
  })
  assert.equal(semver.satisfies('2.0.0-rc.1', call({ preReleases: 'included' }), { preReleases: 'included' }), true)
  assert.throws(() => semver.upgrade('^1.2', '2.0.0-rc.1', { preReleases: 'excluded' }), { name: 'UpgradeError' })
  // The error of the version comes first.
  for (const range of ['^1', '^^1', '1 || 2']) {
    assert.throws(() => semver.upgrade(range, '1.2', cargo), { name: 'SemverError', kind: 'version', argument: 1, input: '1.2', offset: 3 })
  }
  const invalid = [['1 || 2', cargo, 2], ['^^1', {}, 1], ['1.\ud800', {}, 2], ['>=9007199254740992', {}, 2]]
  for (const [range, options, offset] of invalid) {
    assert.throws(() => semver.upgrade(range, '3.0.0', options), { name: 'SemverError', kind: 'range', argument: 0, input: range, offset })
  }
  for (const wrong of [5, null, new semver.Range('1')]) assert.throws(() => semver.upgrade(wrong, '2.0.0'), /Invalid range\. Must be a string/)
  for (const wrong of [5, null, {}]) assert.throws(() => semver.upgrade('1', wrong), /Invalid version\. Must be a string/)
  assert.throws(() => semver.upgrade('1', '2.0.0', { dialect: 'yarn' }), /unknown dialect/)
})

test('filter keeps the versions that satisfy a range, in order', () => {
  const versions = ['2.0.0', '1.4.0', 'x', '', '1.2.0', '1.1.0']
  assert.deepEqual(semver.filter(versions, '^1.2'), ['1.4.0', '1.2.0'])
  assert.deepEqual(semver.filter(new Set(versions), new semver.Range('^1.2')), ['1.4.0', '1.2.0'])
  assert.deepEqual(semver.filter([], '^1.2'), [])
})

test('what two ranges lose and gain', () => {
  assert.deepEqual(semver.compareRanges('^1.2', '>=1.2.1 <3'), {
    lost: { releases: '=1.2.0', preReleases: null, lowest: '1.2.0' }, gained: { releases: '>=2.0.0 <3.0.0', preReleases: null, lowest: '2.0.0' },
  })
  const { lost, gained } = semver.compareRanges('>=1.2.3-rc.1', '>=1.2.3')
  assert.deepEqual([lost.releases, lost.lowest, gained], [null, '1.2.3-rc.1', null])
  assert.equal(semver.satisfies('1.2.3-rc.2', lost.preReleases, { preReleases: 'included' }), true)
  assert.equal(semver.satisfies('1.2.3-beta', lost.preReleases, { preReleases: 'included' }), false)
  assert.equal(semver.compareRanges('1', '1.2', cargo).lost.releases, '>=1.0.0 <1.2.0')
  assert.deepEqual(semver.compareRanges('^1.2', '1.x >=1.2'), { lost: null, gained: null })
})

test('parsed versions and ranges can be passed again', () => {
  const version = semver.parse('v1.2.3-rc.1+b')
  assert.equal(`${version}`, '1.2.3-rc.1')
  assert.equal(semver.parse(version), version)
  assert.equal(semver.satisfies(version, '>=1.2.3-rc.0'), true)
  assert.equal(semver.compare(version, '1.2.3-rc.2'), -1)
  assert.deepEqual(semver.sort([version, '1.0.0']), ['1.0.0', version])
  assert.equal(semver.maxSatisfying([version], '1.2.3-rc.1'), version)
  const range = new semver.Range('^1.2')
  assert.equal(new semver.Range(range), range)
  assert.equal(semver.subset(range, '1'), true)
  assert.equal(semver.satisfies('1.3.0-a', range), false)
  assert.equal(semver.satisfies('1.3.0-a', range, { includePrerelease: true }), true)
  assert.equal(semver.satisfies('1.2.3', new semver.Comparator('>1.0.0')), true)
  assert.equal(common.satisfies(version, new common.Range('1.2.3-rc.1')), true)
})

test('without options an object keeps its dialect and its rule', () => {
  const [one, two] = ['1.2.3', '1.2.4'].map((it) => new semver.Range(it, cargo))
  assert.deepEqual(semver.compareRanges(one, two), semver.compareRanges('1.2.3', '1.2.4', cargo))
  assert.deepEqual(semver.compareRanges(one, '1.2.4'), semver.compareRanges('1.2.3', '1.2.4', cargo))
  assert.equal(semver.satisfies('1.2.4', one), true)
  assert.equal(semver.satisfies('1.2.4', one, { loose: true }), true)
  assert.equal(semver.satisfies('1.2.4', one, { dialect: 'npm' }), false)
  assert.equal(semver.satisfies('1.2.4', new semver.Comparator('1.2.3', cargo)), false)
  assert.equal(semver.satisfies('1.2.3', new semver.Comparator('1.2.3', cargo)), true)
  assert.equal(semver.satisfies('1.2.3', new semver.Comparator('', cargo)), true)
  const releases = new semver.Range('>=1.0.0-rc.1', { ...cargo, preReleases: 'excluded' })
  assert.equal(semver.satisfies('1.0.0-rc.2', releases), false)
  assert.equal(semver.satisfies('1.0.0-rc.2', releases, { preReleases: 'by-dialect' }), true)
  assert.equal(semver.minVersion(releases).version, '1.0.0')
  assert.equal(semver.compareRanges(new semver.Range('>=1.0.0-rc.1', cargo), releases).lost.lowest, '1.0.0-rc.1')
  const [low, high] = ['9007199254740993.0.0', '9007199254740994.0.0'].map((it) => new semver.SemVer(it, cargo))
  assert.equal(semver.compare(low, high), -1)
  assert.deepEqual(semver.sort([high, low]), [low, high])
  assert.equal(semver.diff(low, high), 'major')
  assert.equal(semver.major(low), 9007199254740993n)
  assert.equal(semver.inc(low, 'major'), '9007199254740994.0.0')
  assert.equal(semver.parse(low), low)
  assert.equal(semver.parse(low, { dialect: 'npm' }), null)
  assert.equal(semver.maxSatisfying([low, high], '*'), high)
})

test('objects of two dialects need options', () => {
  const [theirs, ours] = [new semver.SemVer('1.2.3', cargo), new semver.SemVer('1.2.3')]
  const [range, other] = [new semver.Range('1.2.3', cargo), new semver.Range('1.2.3')]
  for (const call of [() => semver.compare(theirs, ours), () => theirs.compare(ours), () => semver.sort([ours, theirs]), () => semver.satisfies(ours, range),
    () => range.test(ours), () => semver.subset(range, other), () => range.intersects(other), () => semver.filter([theirs], other), () => semver.diff(ours, theirs)]) {
    assert.throws(call, { name: 'TypeError', message: /two dialects/ }, String(call))
  }
  assert.equal(semver.compare(theirs, ours, cargo), 0)
  assert.equal(semver.subset(range, other, { dialect: 'npm' }), true)
})

// node-semver 7.6.2 parses a range again with the options of the call.
test("in npm's dialect, a range with includePrerelease is parsed again without it", () => {
  const range = new semver.Range('^1.2', { includePrerelease: true })
  assert.equal(range.test('1.3.0-a'), true)
  assert.equal(semver.satisfies('1.3.0-a', range), false)
  assert.equal(semver.maxSatisfying(['1.3.0-a'], range), null)
  assert.notEqual(new semver.Range(range), range)
  assert.equal(new semver.Range(range, { includePrerelease: true }), range)
  assert.deepEqual(new semver.Range(new semver.Range('^1.2'), { includePrerelease: true }), range)
})

test('objects are compared by what was parsed', () => {
  for (const [name, one, other] of [['SemVer', '1.2.3', '2.0.0'], ['SemVer', '1.2.3+a', '1.2.3+b'], ['Range', '^1', '^2'], ['Comparator', '>1.0.0', '<1.0.0']]) {
    assert.deepStrictEqual(new semver[name](one), new semver[name](one))
    assert.deepStrictEqual(new semver[name](one), new semver[name](one, {}))
    assert.notDeepStrictEqual(new semver[name](one), new semver[name](other))
    assert.notDeepStrictEqual(new semver[name](one), new semver[name](one, cargo))
  }
  assert.deepStrictEqual(new semver.SemVer('1.2.3').inc('major'), new semver.SemVer('2.0.0'))
  assert.notDeepStrictEqual(new semver.Range('1'), new semver.Range('1', { includePrerelease: true }))
})

// Each call returns the same for an object of another copy of the package, and of node-semver, as for
// an own one. js-package.sh says where node-semver is, if it is there.
test('objects of another copy of the package and of node-semver are accepted', () => {
  cpSync('node_modules/semver-parser-proved', 'node_modules/copy', { recursive: true })
  const copy = require('copy')
  assert.notEqual(copy, common)
  const { intersects, subset, compareRanges, satisfies } = semver
  const written = (it) => it.raw ?? it.value ?? it
  const calls = [
    ({ ranges }) => ranges.map((it) => [satisfies('1.2.3', it), satisfies('1.2.4', it), intersects(it, '2'), intersects('1', it)]),
    ({ ranges: [one, two] }) => [subset(one, '1'), subset('1', one), subset(one, two), subset(two, one), compareRanges(one, two), compareRanges(two, one), compareRanges('1', two)],
    ({ ranges }) => ranges.map((it) => [new semver.Range(it).range, semver.validRange(it), semver.toComparators(it), semver.explainRange(it), `${semver.minVersion(it)}`]),
    ({ ranges, version }) => ranges.map((it) => [semver.gtr(version, it), semver.ltr(version, it), written(semver.simplifyRange(['1.2.3', version], it))]),
    ({ ranges, version }) => ranges.map((it) => [`${semver.maxSatisfying([version, '1.2.3'], it)}`, `${semver.filter(['2.0.0', version], it)}`, satisfies(version, it)]),
    ({ ranges: [range], options }) => ['1.2.4', '0'].map((it) => [new semver.Range(it, options).intersects(range), new semver.Range(it, options).intersects(range, options)]),
    ({ ranges: [, comparator], options }) => ['>=1.0.0', '<1.0.0', ''].map((it) => new semver.Comparator(it, options).intersects(comparator)),
    ({ ranges: [, comparator] }) => [new semver.Comparator(comparator).value, new semver.Comparator(comparator, { dialect: 'cargo' }).semver.major === 1n],
    ({ version, options }) => [new semver.Range('1.2.4-a', options).test(version), new semver.Comparator('<2.0.0', options).test(version), new semver.SemVer('1.2.4', options).compare(version)],
    ({ version }) => [semver.coerce(version).version, semver.parse(version).build, semver.compare(version, '1.2.4-b'), semver.compareBuild(version, '1.2.4-a+a'), semver.diff(version, '1.0.0')],
  ]
  const libraries = process.env.NODE_SEMVER ? [copy, require(process.env.NODE_SEMVER)] : [copy]
  for (const options of [{}, cargo, { preReleases: 'excluded' }]) {
    for (const [range, comparator] of [['1.2.3', '1.2.3'], ['^1', '>=1.2.4-0'], ['*', '']]) {
      const [own, ...others] = [semver, ...libraries].map((library) => ({
        ranges: [new library.Range(range, options), new library.Comparator(comparator, options)],
        version: new library.SemVer('1.2.4-a+b', options),
        options,
      }))
      for (const given of others) calls.forEach((call) => assert.deepEqual(call(given), call(own), `${call} of ${range}, ${comparator}`))
    }
  }
  assert.throws(() => subset(new copy.Comparator('1.2.3', cargo), new semver.Range('1')), /two dialects/)
  assert.throws(() => new semver.Range('1').intersects(new copy.Comparator('1.2.3')), /a Range is required/)
  assert.throws(() => new semver.Comparator('1.2.3').intersects(new copy.Range('1.2.3')), /a Comparator is required/)
})

test('the lowest version of a range is not parsed again', () => {
  const crate = { dialect: 'crate-npm' }
  const { options, loose, includePrerelease, ...fields } = semver.minVersion('>=1.2.3--a', crate).toJSON()
  assert.deepEqual(fields, { raw: '1.2.3--a', major: '1', minor: '2', patch: '3', prerelease: ['-a'], build: [], version: '1.2.3--a' })
  assert.equal(semver.valid('1.2.3--a', crate), null)
  assert.deepStrictEqual(semver.minVersion('>=1.2.3-a-b.7 || 2', crate), new semver.SemVer('1.2.3-a-b.7', crate))
  assert.deepStrictEqual(semver.minVersion('^1.2.3-rc.1+b'), new semver.SemVer('1.2.3-rc.1'))
  assert.equal(semver.minVersion('>1 <1'), null)
})

test('fields can not be written, but inc changes them', () => {
  const version = new semver.SemVer('1.2.3-a.1+b')
  for (const [name, value] of Object.entries(version.toJSON())) assert.throws(() => { version[name] = value }, TypeError, name)
  assert.throws(() => { version.prerelease.push('x') }, TypeError)
  assert.equal(version.inc('minor'), version)
  assert.deepEqual([version.version, version.raw, version.minor, version.prerelease], ['1.3.0', '1.3.0+b', 3, []])
  const range = new semver.Range('^1.2')
  for (const [name, value] of Object.entries(range.toJSON())) assert.throws(() => { range[name] = value }, TypeError, name)
  const comparator = new semver.Comparator('>1.2.3')
  for (const [name, value] of Object.entries(comparator.toJSON())) assert.throws(() => { comparator[name] = value }, TypeError, name)
  assert.throws(() => comparator.parse('^1'), /^TypeError: Invalid comparator: \^1$/)
  assert.equal(comparator.value, '>1.2.3')
  assert.equal(comparator.parse('<=2.0.0-a'), undefined)
  assert.deepStrictEqual(comparator, new semver.Comparator('<=2.0.0-a'))
  assert.deepEqual([comparator.operator, comparator.semver.version, comparator.test('2.0.0')], ['<=', '2.0.0-a', false])
  const given = new semver.SemVer('1.2.3')
  assert.equal(semver.inc(given, 'major'), '2.0.0')
  assert.equal(given.version, '1.2.3')
})

// The caller's code that runs within a call, and makes calls itself.
test('calls within calls change nothing', () => {
  const disturb = () => {
    semver.satisfies('9.9.9-a-long-version.that-fills-the-buffer', '>=8 <10-0 || 77.x')
    semver.maxSatisfying(['5.0.0', '6.0.0'], '*')
    return semver.valid('7.8.9')
  }
  const lazy = (values) => ({ * [Symbol.iterator]() { for (const value of values) { disturb(); yield value } } })
  const proxy = new Proxy({}, { get: (target, name) => { disturb(); return name === 'includePrerelease' || undefined } })
  const foreign = (raw) => ({ get raw() { disturb(); return raw }, get version() { disturb(); return raw }, get build() { disturb(); return [] } })
  const versions = ['1.2.0', '1.9.0', '1.10.0-a', '2.0.0']
  assert.equal(semver.maxSatisfying(lazy(versions), '^1'), '1.9.0')
  assert.equal(semver.maxSatisfying(versions, '^1', proxy), '1.10.0-a')
  assert.deepEqual(semver.filter(lazy(versions), '^1'), ['1.2.0', '1.9.0'])
  assert.equal(semver.satisfies(foreign('1.2.3'), '^1', proxy), true)
  assert.equal(semver.compare(foreign('1.2.3'), foreign('1.2.4'), proxy), -1)
  assert.equal(semver.major(foreign('3.2.1'), proxy), 3)
  const range = { get raw() { disturb(); return '^1' }, get range() { disturb(); return '^1' } }
  assert.equal(semver.subset(range, { get raw() { disturb(); return '1 || 2' }, range: '' }, proxy), true)
  assert.equal(semver.valid(foreign('1.2.3')), '1.2.3')
})

test('strings of megabytes are accepted', () => {
  const spaces = ' '.repeat(3_000_000)
  assert.equal(semver.satisfies('1.2.3', `${spaces}1`), true)
  assert.equal(semver.validRange(`${spaces}^1.2`), '>=1.2.0 <2.0.0-0')
  assert.equal(semver.explainRange(`${spaces}>`).offset, 3_000_001)
  assert.equal(semver.valid('\u3000'.repeat(333_334)), null)
  assert.equal(semver.valid(`1.2.3-${'a'.repeat(1_000_000)}`), null)
  assert.equal(semver.valid(`1.2.3-${'a'.repeat(1_000_000)}`, cargo)?.length, 1_000_006)
  assert.equal(semver.satisfies('1.2.3', '1.2.3'), true)
})

test('build metadata above 2^53 is compared by its digits', () => {
  assert.equal(semver.compareBuild('1.2.3+9007199254740993', '1.2.3+9007199254740992'), 1)
  assert.equal(semver.compareBuild('1.2.3+9007199254740993', '1.2.3+9007199254740993'), 0)
  assert.equal(semver.compareIdentifiers('9007199254740992', '9007199254740993'), -1)
})

test('many versions are sorted', () => {
  const many = Array.from({ length: 400 }, (_, at) => `1.0.${(at * 7919) % 400}-${'a'.repeat(4000)}`)
  const numbers = (list) => list.map((it) => Number(it.split('.')[2].split('-')[0]))
  assert.deepEqual(numbers(semver.sort([...many], cargo)), Array.from({ length: 400 }, (_, at) => at))
  assert.deepEqual(numbers(semver.rsort([...many], cargo)), Array.from({ length: 400 }, (_, at) => 399 - at))
})

test('ranges do not fill the memory, and each stays as it is', () => {
  const ranges = Array.from({ length: 5000 }, (_, at) => new semver.Range(`>=${at}.1 <${at + 1}`))
  const memory = () => process.memoryUsage().arrayBuffers
  const before = memory()
  for (let at = 0; at < 200_000; at += 1) new semver.Range(`>=${at}.0.0 <${at + 1}.2.3-rc || 5.x`)
  assert.ok(memory() - before < 4_000_000, `${memory() - before} bytes`)
  ranges.forEach((range, at) => assert.ok(range.test(`${at}.2.0`) && !range.test(`${at + 1}.2.0`)))
  ranges.forEach((range, at) => assert.equal(range.intersects(ranges[(at + 1) % 5000]), false))
})

test('ready', async () => {
  await semver.ready()
  assert.equal(semver.valid('1.2.3'), '1.2.3')
})

const inWorker = (code) => new Promise((resolve, reject) => {
  const module_ = new WebAssembly.Module(wasm)
  const worker = new Worker(code, { eval: true, workerData: { module: module_ } })
  worker.on('message', resolve)
  worker.on('error', reject)
})
const SEND = "require('node:worker_threads').parentPort.postMessage"

test('workers have their own module', async () => {
  const code = `import('semver-parser-proved').then((it) => ${SEND}(it.satisfies('1.9.0', '^1.2')))`
  assert.deepEqual(await Promise.all([inWorker(code), inWorker(code)]), [true, true])
})

test('if bytes are rejected, init takes a module', async () => {
  const refuse = `const Module = WebAssembly.Module
    WebAssembly.Module = new Proxy(Module, { construct() { throw new WebAssembly.CompileError('refused') } })
    const semver = require('semver-parser-proved')
    let refused = false
    try { semver.valid('1.2.3') } catch (error) { refused = error instanceof WebAssembly.CompileError }
    semver.init(require('node:worker_threads').workerData.module)
    ${SEND}([refused, semver.valid('1.2.3')])`
  assert.deepEqual(await inWorker(refuse), [true, '1.2.3'])
})

test('after another module was rejected, the package works', async () => {
  const after = (bytes) => inWorker(`const semver = require('semver-parser-proved')
    let refused = ''
    try { semver.init(new Uint8Array([${bytes}])) } catch (error) { refused = error.name + ': ' + error.message }
    ${SEND}([refused, semver.valid('1.2.3')])`)
  const empty = [0, 0x61, 0x73, 0x6d, 1, 0, 0, 0]
  assert.deepEqual(await after(empty), ['TypeError: the module is not that of this package', '1.2.3'])
  // It has `memory`, and `numbers`, which returns 0, and nothing else.
  const others = [
    ...empty, 1, 5, 1, 0x60, 0, 1, 0x7f, 3, 2, 1, 0, 5, 3, 1, 0, 1, 7, 20, 2,
    6, ...Buffer.from('memory'), 2, 0, 7, ...Buffer.from('numbers'), 0, 0, 10, 6, 1, 4, 0, 0x41, 0, 0x0b,
  ]
  assert.deepEqual(await after(others), ['TypeError: functions.reserve is not a function', '1.2.3'])
})

test('the file for browsers has no bytes, but takes them', async () => {
  const code = `import('semver-parser-proved/browser').then((it) => {
    let refused = ''
    try { it.valid('1.2.3') } catch (error) { refused = error.message }
    it.init(require('node:worker_threads').workerData.module)
    ${SEND}([refused, it.valid('1.2.3'), it.satisfies('1.9.0', '^1.2')])
  })`
  assert.deepEqual(await inWorker(code), ['the module is not compiled yet: await ready() first', '1.2.3', true])
})

// The README of the installed package: each line of its example has its result next to it or below.
test('the example of the README', () => {
  const readme = readFileSync(new URL('node_modules/semver-parser-proved/README.md', import.meta.url), 'utf8')
  const [, example] = /```js\n([^]*?)```/.exec(readme)
  const lines = [...example.matchAll(/^((?:new )?\w+\(.*\)[.\w]*)\s+\/\/ (.*?)(?: \(.*\))?$/gm)]
  assert.equal(lines.length, 15)
  for (const [, call, right] of lines) {
    const { default: all } = semver
    const found = Function(...Object.keys(all), `return ${call}`)(...Object.values(all))
    assert.deepEqual(found, Function(`return (${right})`)(), call)
  }
})

test('the example of an error in the README', () => {
  const readme = readFileSync(new URL('node_modules/semver-parser-proved/README.md', import.meta.url), 'utf8')
  const [, code, right] = /```js\n(try \{[^]*?)```[^]*?```text\n([^]*?)\n```/.exec(readme)
  const printed = []
  Function('Range', 'console', code)(semver.Range, { error: (line) => printed.push(line) })
  assert.deepEqual(printed, [right])
})

// Each line with a result in the example of terms, after the lines before it.
test('the example of terms in the README', () => {
  const readme = readFileSync(new URL('node_modules/semver-parser-proved/README.md', import.meta.url), 'utf8')
  const [, example] = /\n## Terms\n[^]*?```js\nimport .*\n([^]*?)```/.exec(readme)
  const code = example.replace(/^(.*\S) +\/\/ (.*)$/gm, 'results.push([$1, $2])')
  const results = []
  Function('terms', 'replaceVersion', 'results', code)(semver.terms, semver.replaceVersion, results)
  assert.equal(results.length, 5)
  for (const [found, right] of results) assert.deepEqual(found, right)
})

test('the examples of the README that differ from node-semver', () => {
  const readme = readFileSync(new URL('node_modules/semver-parser-proved/README.md', import.meta.url), 'utf8')
  assert.deepEqual(wrongRows(readme, { ...common }, 3), [])
})

// The README's tables of calls and of options name everything that is exported.
test('the README names each export', () => {
  const readme = readFileSync(new URL('node_modules/semver-parser-proved/README.md', import.meta.url), 'utf8')
  for (const name of Object.keys(common)) assert.match(readme, new RegExp(`\`[^\`]*\\b${name}\\b`), name)
})

test('a call does not depend on the one before it', () => {
  for (const versions of [['1.0.0'], [], ['1.2.3', '']]) {
    semver.maxSatisfying(versions, '1')
    assert.equal(semver.satisfies('1.0.0', ''), true)
    semver.maxSatisfying(versions, '1')
    assert.equal(semver.validRange(''), '*')
    semver.minSatisfying(versions, '1.2.3')
    assert.equal(semver.valid(''), null)
  }
  const everything = new semver.Range('')
  semver.maxSatisfying(['1.0.0'], '1')
  assert.equal(everything.test('1.0.0'), true)
})
