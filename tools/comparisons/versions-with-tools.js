// Compares which texts are versions in Cargo and npm, and how they are parsed.
//
// `node versions-with-tools.js PROGRAM CARGO COUNT SEED`: PROGRAM is the program `layers` of rust/tests,
// and CARGO the built `versions-by-cargo-semver`, which calls `Version::parse` of the crate
// `semver`. It makes COUNT texts by the grammar, COUNT with one to three changes, a tenth of COUNT
// near npm's limit of 256 characters, and all texts of up to five characters after `1.0.0` and of
// up to three before it. Each text is read in both dialects and by both tools, and the numbers and
// identifiers are compared. It prints the first 20 differences, and then exits with 1.
//
// An identifier of digits is a number here if it is below 2^64. node-semver keeps one from 2^53 - 1
// on as a text, which prints the same.
'use strict'

const semver = require('semver')
const { spawnSync } = require('child_process')
const { Random, answers } = require('./with-node-semver.js')

const BATCH = 10000
const AFTER = [...'-+.019avV= ']
// The white space of JavaScript, and other characters: neighbours of these, invisible ones, and
// digits.
const WHITE = [...'\t\n\v\f\r \u00a0\u1680', ...'\u2000\u2001\u2002\u2003\u2004\u2005\u2006',
  ...'\u2007\u2008\u2009\u200a\u2028\u2029\u202f\u205f\u3000\ufeff']
const OTHER = [...'\0\u0008\u000e\u001c\u001f\u007f\u0080\u0085\u009f\u00a1\u00ad\u167f\u1681',
  ...'\u180e\u1fff\u200b\u2027\u202a\u202e\u2030\u205e\u2060\u2fff\u3001\ufefe\uff11\ufffd',
  '\u{10000}', '\u{1d7ce}']
const ALPHABET = [...'01234567890011--++..  aAzZvVxeE=<>~^*_/\\,:@[`{|', ...WHITE, ...OTHER]
const NUMBERS = ['0', '0', '1', '1', '2', '3', '10', '99', '01', '00', '-1', '', 'x',
  '4294967296', '9007199254740990', '9007199254740991', '9007199254740992', '9007199254740993',
  '18446744073709551615', '18446744073709551616', '100000000000000000000', '018446744073709551615']
const IDENTIFIERS = ['0', '1', '01', '00', '0a', '00a', '01-', 'a', 'A', '-', '--', '---', '-1',
  '-01', '1-', 'a-b', 'a--b', 'alpha-', 'rc', 'x', '1e5', 'canary', '-canary', '14175',
  '9007199254740990', '9007199254740991', '9007199254740992', '18446744073709551615',
  '18446744073709551616', '09007199254740991', '018446744073709551616',
  '99999999999999999999999999', '', 'é', '_']
const SIGNS = ['v', 'v', 'v', 'V', 'vv', '=', 'v=', '-', '+']
const LENGTHS = [200, 243, 244, 245, 246, 248, 249, 250, 251, 252, 255, 256, 257, 300]
const LETTERS = [...'0123456789abcxyzABCXYZ-']

const listOf = (random, counts, make) => {
  return Array.from({ length: random.of(counts) }, () => make(random))
}

function identifier (random) {
  const kind = random.below(60)
  if (kind === 0) return random.of([...'a1-0']).repeat(random.of(LENGTHS))
  if (kind < 30) return random.of(IDENTIFIERS)
  return listOf(random, [1, 1, 2, 3, 4, 9], (random) => random.of(LETTERS)).join('')
}

const number = (random) => random.of(random.below(3) === 0 ? NUMBERS : ['0', '1', '2', '10', '77'])
const space = (random) => random.below(8) === 0 ? random.of(OTHER) : random.of(WHITE)
const spaces = (random) => random.below(6) > 0 ? '' : listOf(random, [1, 1, 2, 3], space).join('')

function core (random) {
  const numbers = listOf(random, [3, 3, 3, 3, 3, 3, 3, 3, 2, 4], number).join('.')
  const part = (mark) => {
    const identifiers = listOf(random, [1, 1, 2, 2, 3, 5], identifier)
    return random.below(2) === 0 ? mark + identifiers.join('.') : ''
  }
  return numbers + part('-') + part('+')
}

function text (random) {
  const sign = random.below(5) === 0 ? random.of(SIGNS) : ''
  const between = random.below(20) === 0 ? spaces(random) : ''
  return spaces(random) + sign + between + core(random) + spaces(random)
}

// A text with some characters replaced, taken out or put in.
function changed (random) {
  const of = [...text(random)]
  for (let left = random.of([1, 1, 2, 3]); left > 0; left--) {
    const at = random.below(of.length + 1)
    const put = random.below(4) === 0 ? [] : [random.of(ALPHABET)]
    of.splice(at, random.below(3) === 0 ? 0 : 1, ...put)
  }
  return of.join('')
}

const SHORT = [['', '', 'v'], ['1.0.0', '0.10.2'], ['', '-a', '-rc.1', '-0'], ['', '+b', '+01.c']]

// A text of 254 to 258 units, mostly a version: filled up with white space, or by an identifier.
function limit (random) {
  const length = random.of([254, 255, 256, 256, 256, 257, 257, 258])
  const of = random.below(4) === 0 ? text(random) : SHORT.map((part) => random.of(part)).join('')
  const left = Math.max(0, length - of.length)
  const [one, other] = [random.of(WHITE), random.of(WHITE)]
  switch (random.below(4)) {
    case 0: return one.repeat(left) + of
    case 1: return of + one.repeat(left)
    case 2: return one.repeat(left >> 1) + of + other.repeat(left - (left >> 1))
    default: {
      const longer = random.of([...'a1-0'])
      if (!/[-+]/.test(of)) return of + '+' + longer.repeat(Math.max(0, left - 1))
      return of.replace(/[-+]/, (mark) => mark + longer.repeat(left))
    }
  }
}

// All texts of a length.
function * texts (length) {
  if (length === 0) return yield ''
  for (const front of texts(length - 1)) for (const last of AFTER) yield front + last
}

// A text in which the characters are escaped that end a field or a line of the program's input, or
// begin an escape.
const ESCAPES = { '\\': '\\\\', '\n': '\\n', '\r': '\\r', '\t': '\\t' }
const escaped = (of) => of.replace(/[\\\n\r\t]/g, (character) => ESCAPES[character])

// An identifier by its kind here: a canonical number below 2^64, or a text.
function kind (identifier) {
  const of = String(identifier)
  const isNumber = /^(0|[1-9]\d*)$/.test(of) && BigInt(of) < 2n ** 64n
  return isNumber ? `Numeric(${of})` : `AlphaNumeric(${of})`
}

const kinds = (identifiers) => `[${identifiers.map(kind).join(' ')}]`
const fields = (numbers, pre, build) => `${numbers.join(' ')} pre${kinds(pre)} build${kinds(build)}`

// What node-semver parses: `none`, or the numbers and identifiers, which it has to print again.
function byNpm (of) {
  try {
    const { major, minor, patch, prerelease, build, version } = new semver.SemVer(of)
    const pre = prerelease.length > 0 ? `-${prerelease.join('.')}` : ''
    if (version !== `${major}.${minor}.${patch}${pre}`) return `prints ${version}`
    return fields([major, minor, patch], prerelease, build)
  } catch {
    return 'none'
  }
}

// What the crate `semver` parses in each text: `none`, or the numbers and identifiers.
function byCargo (cargo, all) {
  const input = all.map((of) => escaped(of) + '\n').join('')
  const ran = spawnSync(cargo, { input, encoding: 'utf8', maxBuffer: 1 << 30 })
  if (ran.status !== 0) throw new Error(`${cargo} ended with ${ran.status}: ${ran.stderr}`)
  return ran.stdout.trimEnd().split('\n').map((line) => {
    if (line === 'none') return line
    const [numbers, pre, build] = line.split(' ')
    const identifiers = (of) => of.slice(1) === '' ? [] : of.slice(1).split('.')
    return fields(numbers.split('.'), identifiers(pre), identifiers(build))
  })
}

let differences = 0

// Compares the texts in both dialects.
function compare (program, cargo, what, all) {
  const counts = { npm: 0, cargo: 0 }
  for (let at = 0; at < all.length; at += BATCH) {
    const batch = all.slice(at, at + BATCH)
    const asked = { npm: batch.map(byNpm), cargo: byCargo(cargo, batch) }
    for (const tool of ['cargo', 'npm']) {
      const told = answers(program, batch.map((of) => `version-as-${tool}\t${escaped(of)}`))
      if (told.length !== batch.length) throw new Error(`${told.length} of ${batch.length} results`)
      told.forEach((answer, place) => {
        const wanted = asked[tool][place]
        counts[tool] += wanted === 'none' ? 0 : 1
        if (answer === wanted) return
        differences++
        if (differences > 20) return
        const of = JSON.stringify(batch[place])
        console.log(`differ: ${of}: in ${tool} ${wanted}, here ${answer}`)
      })
    }
  }
  const { cargo: ofCargo, npm: ofNpm } = counts
  console.log(`${what}: ${all.length} texts, ${ofCargo} versions to Cargo, ${ofNpm} to npm`)
}

function main ([program, cargo, count, seed]) {
  const random = new Random(seed)
  const made = (count, make) => Array.from({ length: count }, () => make(random))
  console.log(`seed ${seed}`)
  compare(program, cargo, 'by the grammar', made(Number(count), text))
  compare(program, cargo, 'changed', made(Number(count), changed))
  compare(program, cargo, 'near the limit', made(Math.ceil(count / 10), limit))
  const after = [1, 2, 3, 4, 5].flatMap((length) => [...texts(length)])
  const before = [1, 2, 3].flatMap((length) => [...texts(length)])
  compare(program, cargo, 'all after 1.0.0', after.map((of) => '1.0.0' + of))
  compare(program, cargo, 'all before 1.0.0', before.map((of) => of + '1.0.0'))
  const fronts = (of) => [`${of}1.0.0`, `v${of}1.0.0`, `${of}v1.0.0+a${of}`]
  const beside = (of) => [...fronts(of), `1.0.0${of}`, `1.0.0-a${of}`]
  compare(program, cargo, 'next to each character', [...WHITE, ...OTHER].flatMap(beside))
  console.log(`${differences === 0 ? 'no' : differences} differences`)
  process.exit(differences === 0 ? 0 : 1)
}

module.exports = { WHITE, OTHER, changed, escaped, limit, text, texts }
if (require.main === module) main(process.argv.slice(2))
