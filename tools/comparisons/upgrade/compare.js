// Compares `upgrade` with node-semver and with Cargo's crate semver:
//
//     node compare.js PROGRAMS TEXTS COUNT SEED LANGUAGE=COMMAND..
//
// makes COUNT random pairs of a requirement and a version, in npm's and in Cargo's dialect. A
// requirement is made of pieces, so it is known without parsing where its versions are. Before
// these come the real requirements in the directory TEXTS, which tools/real-texts.py writes, each
// with some versions. The tool of the dialect determines whether strings are valid, and which
// versions a range contains: node-semver, or satisfied-by-cargo-semver in the directory PROGRAMS. The
// first COMMAND, which by-rust.rs describes, has to return
//
// - that the version is invalid, or else that the range is, if and only if the tool says so
// - that there is nothing to do, if and only if the range contains a version at or above the given
//   one. The versions that are looked at are the given one, the bounds of the terms, and their
//   neighbours. If the range contains any, it contains one of these
// - otherwise a range that the tool accepts, and that contains the version. It is the requirement
//   with its last alternative raised, or with that as one more alternative after the last term. A
//   raised alternative has the same operators, blanks, separators and lower bounds, and each of its
//   other versions is the old one, or has the same `v` and wildcards and as many components; but if
//   the given version is a pre-release, `^1` and the like may get three numbers. If there is `||`,
//   none of the versions that are looked at is lost. A random requirement with `||` has its last
//   alternative raised in place if and only if each version that differs is an upper bound without a
//   pre-release, except for `-0` after `<`. Raising that range again does nothing
// - or that it can't be raised, which is only counted
//
// The other commands have to return the same as the first one.
//
// A raised requirement of Cargo is compared with that of cargo-edit: the program
// upgraded-by-cargo-edit says what it is, and whether it contains the version. If it does, the two
// have to be the same, unless some of several comparators is left as it is: cargo-edit raises that,
// too.
//
// It prints the first difference, and then exits with 1.
'use strict'

const { spawnSync } = require('child_process')
const { readFileSync } = require('fs')
const semver = require('semver')
const { Random } = require('../with-node-semver.js')

const [, , programs, texts, count, seed, ...given] = process.argv
const [[, first], ...others] = given.map((it) => it.split('='))
const random = new Random(seed)

// ---- requirements

const BLANKS = { npm: [' ', ' ', '  ', '\t', '\n'], cargo: [' ', ' ', '  '] }
const OPERATORS = ['', '', '=', '<', '<', '<=', '>', '>=', '>=', '~', '^', '^', '^']
const IDENTIFIERS = ['rc', 'alpha', 'b-1', '0', '0', '1', '10']

const isNumber = (part) => /\d/.test(part)
const blanks = (dialect) => random.of(BLANKS[dialect])
const perhaps = (dialect) => random.below(3) ? '' : blanks(dialect)
const number = () => random.of([0, 0, 1, 1, 2, 2, 3, 4, 10])
const list = (lengths, make) => Array.from({ length: random.of(lengths) }, make)
const identifiers = () => list([1, 1, 2], () => random.of(IDENTIFIERS)).join('.')

// The components of a version in a range, as they are written. In Cargo's dialect a wildcard is
// followed only by wildcards, and the first component is a number.
function components (dialect) {
  const wildcard = () => random.of(['x', '*', 'X'])
  const parts = list([1, 2, 2, 3, 3, 3], () => random.below(7) ? String(number()) : wildcard())
  if (dialect !== 'cargo') return parts
  if (!isNumber(parts[0])) parts[0] = '1'
  const first = parts.findIndex((it) => !isNumber(it))
  return parts.map((it, at) => first >= 0 && at > first && isNumber(it) ? wildcard() : it)
}

// A version in a range: `v`, its components, and what follows if there are three numbers.
function partial (dialect) {
  const parts = components(dialect)
  const isWhole = parts.length === 3 && parts.every(isNumber)
  return {
    v: dialect === 'npm' && random.below(5) === 0 ? 'v' : '',
    parts,
    pre: isWhole && random.below(3) === 0 ? `-${identifiers()}` : '',
    build: isWhole && random.below(8) === 0 ? `+${identifiers()}` : ''
  }
}

const text = ({ v, parts, pre, build }) => v + parts.join('.') + pre + build

// A term: what is before its version, the version, and whether that may be raised. A hyphen range
// is two of these.
function term (dialect) {
  const operator = random.of(dialect === 'npm' ? [...OPERATORS, '~>'] : OPERATORS)
  const gap = operator ? perhaps(dialect) : ''
  const isLower = operator === '>' || operator === '>='
  return { before: operator + gap, operator, version: partial(dialect), isLower }
}

function hyphen (dialect) {
  const between = `${blanks(dialect)}-${blanks(dialect)}`
  return [
    { before: '', operator: '', version: partial(dialect), isLower: true },
    { before: between, operator: '-', version: partial(dialect), isLower: false }
  ]
}

// An alternative: its terms, each after the separator before it.
function alternative (dialect) {
  if (dialect === 'npm' && random.below(8) === 0) return hyphen(dialect)
  const separator = () => dialect === 'npm'
    ? blanks(dialect)
    : `${perhaps(dialect)},${perhaps(dialect)}`
  const terms = list([1, 1, 1, 2, 2, 3], () => term(dialect))
  return terms.map((it, at) => at === 0 ? it : { ...it, before: separator() + it.before })
}

// A requirement: its alternatives, what is between them, and what is around all of them.
function requirement (dialect) {
  const lengths = dialect === 'npm' ? [1, 1, 1, 2, 2, 3] : [1]
  const alternatives = list(lengths, () => alternative(dialect))
  const bars = alternatives.slice(1).map(() => `${perhaps(dialect)}||${perhaps(dialect)}`)
  return { alternatives, bars, around: [perhaps(dialect), perhaps(dialect)] }
}

const written = (terms) => terms.map((it) => it.before + text(it.version)).join('')

// The text of a requirement up to its last alternative, that alternative, and what is after it.
function sections ({ alternatives, bars, around }) {
  const last = alternatives.length - 1
  const first = alternatives.slice(0, last).map((it, at) => written(it) + bars[at]).join('')
  return [around[0] + first, written(alternatives[last]), around[1]]
}

// ---- versions

// A version, often near one in the requirement.
function versionNear ({ parts, pre }) {
  const isNear = (at) => isNumber(parts[at] ?? '') && random.below(3)
  const near = (at) => isNear(at) ? Number(parts[at]) + random.of([0, 0, 1, 1, 2]) : number()
  const pres = ['', '', '', '', `-${identifiers()}`, pre && `${pre}.1`]
  const build = random.below(8) ? '' : `+${identifiers()}`
  return { numbers: [0, 1, 2].map(near), pre: random.of(pres), build }
}

const INVALID_RANGES = [
  '1 ^', '>>1', 'latest', '1.2.3-', '^1.2 || a', '1.2.3 - ', '^1,,2', '01.2', '1.2.3.4'
]
const INVALID_VERSIONS = ['1.2', 'x', '', '1.2.3-', '01.2.3', '1.2.3 4', '1.2.3-01.']

function randomCase () {
  const dialect = random.of(['npm', 'npm', 'cargo'])
  const pieces = requirement(dialect)
  const made = versionNear(random.of(random.of(pieces.alternatives)).version)
  const version = made.numbers.join('.') + made.pre + made.build
  const range = sections(pieces).join('')
  const one = { dialect, pieces, bounds: boundsOf(pieces), range, version, pre: made.pre }
  const kind = random.below(60)
  if (kind === 0) return { ...one, bounds: null, range: random.of(INVALID_RANGES) }
  if (kind === 1) return { ...one, version: random.of(INVALID_VERSIONS) }
  return one
}

// ---- real requirements

const lines = (name) => readFileSync(`${texts}/${name}`, 'utf8').split('\n').slice(0, -1)

// The real requirements of a dialect, each with a high version, with some that are near the numbers
// in it, and with real ones.
function realCases (dialect) {
  const versions = lines(`${dialect}.versions`)
  return lines(`${dialect}.texts`).flatMap((range) => {
    const bounds = [...range.matchAll(/(\d+)(?:\.(\d+))?(?:\.(\d+))?(-[0-9A-Za-z.-]+)?/g)]
      .map(([, major, minor, patch, pre]) => [[major, minor ?? 0, patch ?? 0].map(Number), pre ?? ''])
    const near = () => {
      const [numbers, pre] = random.of(bounds.length ? bounds : [[[0, 0, 0], '']])
      return versionNear({ parts: numbers.map(String), pre })
    }
    const made = [near(), near(), near()].map((it) => it.numbers.join('.') + it.pre + it.build)
    const of = ['99.1.2', '99.1.2-rc.1', random.of(versions), random.of(versions), ...made]
    return of.map((version) => ({
      dialect, range, version, bounds, pre: semver.parse(version)?.prerelease.length > 0
    }))
  })
}

// ---- the versions that are looked at

// The versions next to a bound: itself, what is directly above it, and what follows with one of its
// numbers raised.
function neighbours ([major, minor, patch], pre) {
  const release = `${major}.${minor}.${patch}`
  const found = [release, `${release}-0`, `${major}.${minor}.${patch + 1}`]
  if (pre) found.push(release + pre, `${release + pre}.0`)
  for (const next of [`${major}.${minor}.${patch + 1}`, `${major}.${minor + 1}.0`, `${major + 1}.0.0`]) {
    found.push(next, `${next}-0`)
  }
  return found
}

const HIGH = ['4000000000.0.0', '4000000000.0.0-0']

// The bounds of a requirement: what its versions state, with zeros for the rest.
function boundsOf (pieces) {
  return pieces.alternatives.flat().map(({ version: { parts, pre } }) => {
    const first = parts.findIndex((it) => !isNumber(it))
    const stated = first < 0 ? parts : parts.slice(0, first)
    return [[0, 1, 2].map((at) => Number(stated[at] ?? 0)), pre]
  })
}

function versionsOf ({ bounds, version }) {
  const found = new Set(HIGH)
  const add = (numbers, pre) => neighbours(numbers, pre).forEach((it) => found.add(it))
  const given = semver.parse(version)
  add([given.major, given.minor, given.patch], given.prerelease.length ? `-${given.prerelease.join('.')}` : '')
  found.add(given.version)
  for (const [numbers, pre] of bounds) add(numbers, pre)
  return [...found].filter((it) => semver.valid(it) !== null)
}

// ---- what the tools return

function run (command, values) {
  const input = values.map((it) => `${it}\0`).join('')
  const [file, ...options] = command.split(' ')
  const { status, stdout, stderr } = spawnSync(file, options, { input, maxBuffer: 1 << 30 })
  if (status !== 0) throw new Error(`${command}: status ${status}: ${stderr}`)
  return stdout.toString()
}

function raised (cases, command = first) {
  const values = cases.flatMap(({ range, version, dialect }) => [range, version, dialect])
  const found = run(command, values).split('\0').slice(0, -1)
  if (found.length !== cases.length) throw new Error(`${command} wrote ${found.length} results`)
  return found
}

// For each case of Cargo that is raised, what upgraded-by-cargo-edit says of it.
function ofCargoEdit (cases, results) {
  const isAsked = (one, at) => one.dialect === 'cargo' && !results[at].startsWith('!')
  const asked = cases.flatMap((one, at) => isAsked(one, at) ? [one.range, one.version, results[at]] : [])
  const found = run(`${programs}/upgraded-by-cargo-edit`, asked).split('\n')
  return cases.map((one, at) => isAsked(one, at) ? found.shift() : null)
}

// For each list of questions, which have a dialect, a range and a version, a list of answers: true,
// false, or null if the range or the version is invalid.
function answered (lists) {
  const isOfCargo = ({ dialect }) => dialect === 'cargo'
  const asked = lists.flat().filter(isOfCargo)
  const cargo = `${programs}/satisfied-by-cargo-semver`
  const answers = run(cargo, asked.flatMap(({ range, version }) => [range, version]))
  if (answers.length !== asked.length) throw new Error(`${cargo} wrote ${answers.length} results`)
  let at = 0
  const read = new Map()
  const byNpm = ({ range, version }) => {
    if (!read.has(range)) read.set(range, semver.validRange(range) === null ? null : new semver.Range(range))
    const set = read.get(range)
    return set === null || semver.valid(version) === null ? null : set.test(version)
  }
  const byCargo = () => ({ y: true, n: false, '!': null })[answers[at++]]
  return lists.map((list) => list.map((it) => isOfCargo(it) ? byCargo() : byNpm(it)))
}

// ---- how a result is written

const quoted = (it) => it.replace(/[\\^$.*+?()[\]{}|/-]/g, '\\$&')
const PRE = '(?:-[0-9A-Za-z.-]+)?'

// Whether a term means the same with three numbers: after `^`, after `~` with two numbers or more,
// and in Cargo's dialect without an operator.
function takesThree (dialect, { operator, version: { parts } }) {
  if (!parts.every(isNumber)) return false
  if (operator === '^') return true
  if (operator.startsWith('~')) return parts.length > 1
  return operator === '' && dialect === 'cargo'
}

// A pattern for what may be in place of the version of a term.
function patternOf (dialect, pre, it) {
  const { v, parts } = it.version
  const old = quoted(text(it.version))
  if (it.isLower) return old
  const isWhole = parts.length === 3 && parts.every(isNumber)
  const same = parts.map((part) => isNumber(part) ? '\\d+' : quoted(part)).join('\\.')
  const forms = [old, v + same + (isWhole || it.version.pre === '-0' ? PRE : '')]
  if (pre && takesThree(dialect, it)) forms.push(`${v}\\d+\\.\\d+\\.\\d+${PRE}`)
  return `(${forms.join('|')})`
}

// A real requirement with its numbers masked, and without what follows three of them. If three
// numbers may replace fewer, then how many there are is masked, too.
function masked (range, pre) {
  const numbers = range.replace(/(\d+\.\d+\.\d+)[-+][\w.+-]*/g, '$1').replace(/\d+/g, '1')
  return pre ? numbers.replace(/1(\.1)*/g, '1') : numbers
}

function isRealInStyle ({ range, pre }, result) {
  const alternatives = range.split('||')
  const last = alternatives[alternatives.length - 1]
  const blanks = [/\s*$/.exec(alternatives[alternatives.length - 2])?.[0], /^\s*/.exec(last)[0]]
  const longer = range.trimEnd() + blanks.join('||') + last.trimStart()
  return [range, longer].some((it) => masked(it, pre) === masked(result, pre))
}

function isInStyle (one, result) {
  const { dialect, pieces, range, pre } = one
  if (pieces === undefined) return isRealInStyle(one, result)
  const [before, last, after] = sections(pieces)
  const terms = pieces.alternatives[pieces.alternatives.length - 1]
  const pattern = terms.map((it) => quoted(it.before) + patternOf(dialect, pre, it)).join('')
  const bars = pieces.bars[pieces.bars.length - 1]
  const inPlace = new RegExp(`^${quoted(before) + pattern + quoted(after)}$`).exec(result)
  if (!bars) return inPlace !== null
  const added = new RegExp(`^${quoted(before + last + bars) + pattern + quoted(after)}$`).exec(result)
  if (!inPlace && !added) return false
  const [, ...versions] = inPlace ?? added
  return staysInPlace(terms, versions) === (inPlace !== null)
}

// Whether the last alternative of a range with `||` is raised in place, if these are its versions
// then: those that differ are upper bounds without a pre-release, except for `-0` after `<`.
function staysInPlace (terms, versions) {
  const mayBeRaised = ({ operator, version: { pre } }) =>
    ['<', '<=', '-'].includes(operator) && (pre === '' || (pre === '-0' && operator === '<'))
  return terms.filter((it) => !it.isLower)
    .every((it, at) => versions[at] === text(it.version) || mayBeRaised(it))
}

// ---- the comparison

const ERRORS = { '!none': 'nothing to do', '!version': 'invalid version', '!range': 'invalid range', '!cannot': "can't be raised" }

// What the tool says of a case: its candidates, and which of them the range contains.
function questions (one, range) {
  if (one.bounds === null || semver.valid(one.version) === null) return []
  return versionsOf(one).map((version) => ({ dialect: one.dialect, range, version }))
}

function problem (one, result, before, after, again, byEdit) {
  const [isIn] = before.given
  if (semver.valid(one.version) === null) return result === '!version' ? null : 'the version is invalid'
  if (isIn === null) return result === '!range' ? null : 'the range is invalid'
  if (result === '!version' || result === '!range') return 'both are valid'
  const isFrom = (it) => semver.compare(it.version, one.version) >= 0
  const hasFrom = isIn || before.asked.some((it, at) => before.found[at] && isFrom(it))
  if (hasFrom !== (result === '!none')) return hasFrom ? 'has a version at or above it' : 'has none'
  if (result.startsWith('!')) return null
  if (after.given[0] === null) return 'the result is invalid'
  if (!after.given[0]) return 'the result does not contain the version'
  if (!isInStyle(one, result)) return 'the result is written differently'
  if (one.range.includes('||')) {
    const lost = before.asked.find((it, at) => before.found[at] && !after.found[at])
    if (lost) return `${lost.version} is lost`
  }
  if (again !== '!none') return 'the result is raised again'
  return byEdit?.startsWith('other') && !leavesOne(one.range, result) ? `cargo-edit: ${byEdit}` : null
}

// Whether some of several comparators of a requirement is left as it is.
function leavesOne (range, result) {
  const comparators = result.split(',')
  return comparators.length > 1 && range.split(',').some((it, at) => it === comparators[at])
}

function lookedAt (cases, ranges) {
  const given = answered(cases.map((one, at) => [{ dialect: one.dialect, range: ranges[at], version: one.version }]))
  const asked = cases.map((one, at) => questions(one, ranges[at]))
  const found = answered(asked)
  return cases.map((_, at) => ({ given: given[at], asked: asked[at], found: found[at] }))
}

function compare (cases, counts) {
  const results = raised(cases)
  for (const [language, command] of others) {
    const at = raised(cases, command).findIndex((it, at) => it !== results[at])
    if (at >= 0) throw new Error(`${language} returns another result for ${JSON.stringify(cases[at])}`)
  }
  const byEdit = ofCargoEdit(cases, results)
  const ranges = cases.map((one, at) => results[at].startsWith('!') ? one.range : results[at])
  const again = raised(cases.map((one, at) => ({ ...one, range: ranges[at] })))
  const before = lookedAt(cases, cases.map((one) => one.range))
  const after = lookedAt(cases, ranges)
  cases.forEach((one, at) => {
    const result = results[at]
    const why = problem(one, result, before[at], after[at], again[at], byEdit[at])
    if (why !== null) {
      const { dialect, range, version } = one
      console.log(`differ: ${JSON.stringify({ dialect, range, version, result })}: ${why}`)
      process.exit(1)
    }
    const added = result.split('||').length > one.range.split('||').length
    const key = `${one.dialect}: ${ERRORS[result] ?? (added ? 'one more alternative' : 'raised')}`
    const edited = byEdit[at] && `cargo-edit: ${byEdit[at].split(' ')[0]}`
    for (const it of [key, edited]) if (it) counts.set(it, (counts.get(it) ?? 0) + 1)
  })
}

const BATCH = 20000

function print (what, counts) {
  console.log(`seed ${seed}: ${what}: no difference`)
  for (const [key, times] of [...counts].sort()) console.log(`  ${times} times ${key}`)
}

function main () {
  const ofReal = new Map()
  const real = ['cargo', 'npm'].flatMap(realCases)
  compare(real, ofReal)
  print(`${real.length} pairs of a real requirement and a version`, ofReal)
  const counts = new Map()
  for (let left = Number(count); left > 0; left -= BATCH) {
    compare(Array.from({ length: Math.min(left, BATCH) }, randomCase), counts)
  }
  print(`${count} random requirements`, counts)
}

main()
