// Compares which versions range texts match here and in node-semver.
//
// `node with-node-semver.js PROGRAM COUNT SEED`: PROGRAM is the program `layers` of rust/tests. It makes
// COUNT pairs of a range text and a version in npm mode, and compares them by two rules:
// pre-releases included on both sides, and the default rule, which is also node-semver's default.
// If node-semver is known to read something differently, that is undone: each simple range is
// turned into one that node-semver reads as it is meant here. Which pre-releases count next to
// these is left to node-semver. It counts how often each departure changed a result, and prints the
// first other difference. It also lets node-semver parse the printed set with exact bounds of each
// text, which has to give the same comparators.
'use strict'

const semver = require('semver')
const { spawnSync } = require('child_process')

const INCLUDED = { includePrerelease: true }
const RULES = [{ call: 'mean-npm', options: INCLUDED }, { call: 'stated-npm', options: {} }]
const VERSIONS = 8

const LOWER = 'a lower bound with less than three numbers, or of a caret of 0 or a hyphen range, takes its own pre-releases in'
const GREATER = '`>` with one or two numbers begins with the next ones'
const LESS = '`<` with one or two numbers leaves out the pre-releases of its bound'
const DROPPED = '`>=0.0.0` is dropped, so pre-releases of 0.0.0 are let in'
const REDUCED = 'beside a range that states nothing, all other ranges are dropped, and with them what they state'
const NOTHING = 'nothing stated takes the pre-releases of 0.0.0 in, or for `<` and `>` leaves them out'

// A small random number generator. Its state is only the seed.
class Random {
  constructor (seed) {
    this.state = BigInt(seed) * 0x9e3779b97f4a7c15n & 0xffffffffffffffffn | 1n
  }

  below (limit) {
    let s = this.state
    s ^= s << 13n & 0xffffffffffffffffn
    s ^= s >> 7n
    s ^= s << 17n & 0xffffffffffffffffn
    this.state = s
    return Number((s >> 11n) % BigInt(limit))
  }

  of (items) {
    return items[this.below(items.length)]
  }
}

const number = (random) => String(random.of([0, 0, 0, 1, 1, 2, 3, 9, 10, 11]))
const preRelease = (random) => random.of(['alpha', 'alpha.1', 'beta', 'beta.2', 'beta.11', 'rc-1', '1', '2.a', 'a.0'])

// A partial version: what it states, and its text.
function partial (random) {
  const stated = [number(random), number(random), number(random)].slice(0, random.of([0, 1, 2, 3, 3, 3]))
  const wildcard = random.of(['x', '*', 'X'])
  const pre = stated.length === 3 && random.below(3) === 0 ? '-' + preRelease(random) : ''
  let text = stated.join('.') + pre
  if (stated.length < 3 && (stated.length === 0 || random.below(2) === 0)) {
    text = stated.concat(wildcard).join('.')
  }
  return { stated, pre, text }
}

// The version of a partial one, completed with zeros.
const filled = (p) => p.stated.concat(['0', '0', '0']).slice(0, 3).join('.') + p.pre

function simple (random) {
  const sign = random.of(['', '=', '<', '<=', '>', '>=', '~', '~>', '^', '^'])
  const of = partial(random)
  return { sign, of, text: sign + random.of(['', '', ' ']) + of.text }
}

// A range: the texts of its parts, each by itself, and its own text.
function range (random) {
  if (random.below(5) === 0) {
    const [left, right] = [partial(random), partial(random)]
    return { parts: sides(left, right), text: `${left.text} - ${right.text}` }
  }
  const simples = Array.from({ length: random.of([1, 1, 1, 2, 2, 3]) }, () => simple(random))
  return { parts: simples, text: simples.map((s) => s.text).join(' ') }
}

// A side that states nothing is left out if the other one states something.
function sides (left, right) {
  const lower = { sign: '>=', of: left, text: `>=${left.text}` }
  const upper = { sign: '<=', of: right, text: `<=${right.text}` }
  return [lower, upper].filter((side) => side.of.stated.length > 0 || left.stated.length + right.stated.length === 0)
}

// A version near a partial version of the text.
function version (random, ranges) {
  const near = random.of(random.of(ranges).parts).of
  const numbers = filled({ stated: near.stated, pre: '' }).split('.').map(Number)
  const place = random.below(4)
  if (place < 3) {
    numbers[place] = Math.max(0, numbers[place] + random.of([-1, 1, 1]))
    numbers.fill(random.of([0, 0, 7]), place + 1)
  }
  const pre = random.of(['', '', '-0', '-zz', near.pre, '-' + preRelease(random)])
  return numbers.join('.') + pre
}

// The comparators that mean in node-semver what a part means here, and the departure that was
// undone.
function meant ({ sign, of, text }, options) {
  const one = (comparator) => [new semver.Comparator(comparator, options)]
  if (of.stated.length === 0) {
    return [one(sign === '<' || sign === '>' ? '<0.0.0' : '>=0.0.0'), NOTHING]
  }
  if (of.stated.length < 3 && (sign === '<' || sign === '>')) {
    return [one(sign + filled(of)), sign === '<' ? LESS : GREATER]
  }
  const isOwnLower = ({ operator, semver: { prerelease } }) => operator === '>=' && prerelease.join('.') === '0'
  const upper = new semver.Range(text, options).set[0].filter((comparator) => !isOwnLower(comparator))
  const lower = sign !== '<' && sign !== '<=' ? one('>=' + filled(of)) : []
  return [upper.concat(lower), options.includePrerelease ? LOWER : filled(of) === '0.0.0' ? DROPPED : undefined]
}

// Whether a version satisfies the comparators of some range in node-semver, by the rule of the
// options.
function isMet (sets, tested, options) {
  const range = new semver.Range('*', options)
  return sets.some((set) => {
    range.set = [set]
    return range.test(tested)
  })
}

// Whether a version satisfies some range by what its parts mean, and the departures because of
// which node-semver may return something else.
function expected (text, ranges, tested, options) {
  const parts = ranges.map((range) => range.parts.map((part) => meant(part, options)))
  const answer = isMet(parts.map((range) => range.flatMap(([comparators]) => comparators)), tested, options)
  if (new semver.Range(text, options).test(tested) === answer) return { answer, departures: [], isKnown: true }
  const departures = new Set(parts.flat().map(([, departure]) => departure).filter((departure) => departure))
  if (!options.includePrerelease && ranges.length > 1 && parts.some((range) => range.every(([, departure]) => departure === NOTHING))) {
    departures.add(REDUCED)
  }
  return { answer, departures, isKnown: departures.size > 0 }
}

// The program's result for each line, which gets a name in front.
function answers (program, lines) {
  const input = lines.map((line) => `-\t${line}\n`).join('')
  const ran = spawnSync(program, { input, encoding: 'utf8', maxBuffer: 1 << 30 })
  if (ran.status !== 0) throw new Error(`${program} ended with ${ran.status}: ${ran.stderr}`)
  return ran.stdout.trimEnd().split('\n').map((line) => line.replace(/^-: /, ''))
}

// Whether node-semver parses a printed set into the same comparators. It writes `=1.2.3` as
// `1.2.3`, and repeated comparators once.
function readsBack (printed) {
  const written = printed.split(' || ').map((range) => [...new Set(range.split(' ').map((word) => word.replace(/^=/, '')))])
  const read = new semver.Range(printed, INCLUDED).set.map((comparators) => comparators.map((comparator) => comparator.value))
  return JSON.stringify(read) === JSON.stringify(written)
}

function differ (what) {
  console.log(`differ: ${what}`)
  process.exit(1)
}

function main ([program, count, seed]) {
  const random = new Random(seed)
  const cases = Array.from({ length: Math.ceil(count / VERSIONS) }, () => {
    const ranges = Array.from({ length: random.of([1, 1, 1, 2, 3]) }, () => range(random))
    const text = ranges.map((r) => r.text).join(random.of(['||', ' || ']))
    return { ranges, text, versions: Array.from({ length: VERSIONS }, () => version(random, ranges)) }
  })
  const printed = answers(program, cases.map(({ text }) => `npm-exact\t${text}`))
  const unread = printed.find((set) => !readsBack(set))
  if (unread !== undefined) differ(`node-semver reads ${unread} as another set`)
  for (const rule of RULES) compare(program, cases, rule, seed)
}

// Compares the cases by a rule.
function compare (program, cases, { call, options }, seed) {
  const kept = answers(program, cases.map(({ text, versions }) => `${call}\t${text}\t${versions.join(' ')}`)).map((line) => new Set(line.split(' ')))
  const occurred = new Map()
  let met = 0
  cases.forEach(({ ranges, text, versions }, at) => {
    for (const tested of versions) {
      const { answer, departures, isKnown } = expected(text, ranges, new semver.SemVer(tested), options)
      const of = `${call}: ${JSON.stringify(text)} and ${tested}`
      if (answer !== kept[at].has(tested)) differ(`${of}: wanted here ${answer}, answered here ${!answer}`)
      if (!isKnown) differ(`${of}: here ${answer}, in node-semver ${!answer}, for no known reason`)
      met += answer ? 1 : 0
      for (const departure of departures) occurred.set(departure, (occurred.get(departure) || 0) + 1)
    }
  })
  console.log(`${call}: ${cases.length * VERSIONS} pairs compared, seed ${seed}, ${met} met: no difference but the known ones`)
  for (const [departure, times] of occurred) console.log(`  ${times} times: ${departure}`)
}

module.exports = { Random, range, version, answers }
if (require.main === module) main(process.argv.slice(2))
