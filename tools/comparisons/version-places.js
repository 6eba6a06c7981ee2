// Compares where and why a text is an invalid version, in each dialect, with brute force.
//
// `node version-places.js PROGRAM COUNT SEED`: PROGRAM is the program `layers` of rust/tests. It tests
// COUNT texts of each kind that versions-with-tools.js makes, all texts of up to four characters,
// and all of up to three after `1.0.0-` and after `1.0.0+`. What is a version is determined by
// node-semver for npm, by the regular expression of semver.org with numbers below 2^64 for Cargo,
// and by the one in rust/docs/GRAMMAR.md for the crate. A prefix of a version is a text that one of
// COMPLETIONS makes a version; for short texts all completions of up to three characters are tried,
// too. The reason is the one in the table of rust/docs/GRAMMAR.md, found by a node-semver whose
// limit of length is raised. It prints the first 20 differences, and then exits with 1.
'use strict'

const { Random, answers } = require('./with-node-semver.js')
const { WHITE, OTHER, changed, escaped, limit, text } = require('./versions-with-tools.js')

const BATCH = 10000
const SHORT = [...'019.-+av \t\u00a0é']
const COMPLETIONS = ['', '0', 'a', '.0', '0.0', '.0.0', '0.0.0']

// node-semver with another limit of length, or as it is.
function semverWithin (length) {
  for (const path of Object.keys(require.cache)) if (/[\\/]semver[\\/]/.test(path)) delete require.cache[path]
  const constants = require('semver/internal/constants')
  if (length !== undefined) {
    constants.MAX_LENGTH = length
    constants.MAX_SAFE_BUILD_LENGTH = length
    constants.MAX_SAFE_COMPONENT_LENGTH = length
  }
  const { SemVer } = require('semver')
  return (of) => {
    try {
      return Boolean(new SemVer(of))
    } catch {
      return false
    }
  }
}

// Whether a regular expression matches a text whose three numbers are below 2^64.
const byGrammar = (grammar) => (of) => {
  const read = grammar.exec(of)
  return read !== null && read.slice(1, 4).every((number) => BigInt(number) < 2n ** 64n)
}

const NUMBERS = '(0|[1-9]\\d*)\\.(0|[1-9]\\d*)\\.(0|[1-9]\\d*)'
const PRE = '(?:0|[1-9]\\d*|\\d*[a-zA-Z-][0-9a-zA-Z-]*)'
const PART = '[0-9a-zA-Z-]+'
const RUNS = '[0-9a-zA-Z]+(?:-[0-9a-zA-Z]+)*'
const parts = (pre, build) => `(?:-${pre}(?:\\.${pre})*)?(?:\\+${build}(?:\\.${build})*)?`
const byCargo = byGrammar(new RegExp(`^${NUMBERS}${parts(PRE, PART)}$`))
const byCrate = byGrammar(new RegExp(`^[ \\t\\n\\r]*${NUMBERS}${parts(RUNS, RUNS)}[ \\t\\n\\r]*$`))
const byNpm = semverWithin()

// For each tool: whether a text is a version, whether it is one without the limit of length, and
// the reasons for a number above its limit and for a leading v.
const TOOLS = {
  crate: { isVersion: byCrate, isLong: byCrate, tooLarge: 'too-large', ofMark: 'crate-v' },
  cargo: { isVersion: byCargo, isLong: byCargo, tooLarge: 'too-large', ofMark: 'cargo-v' },
  npm: { isVersion: byNpm, isLong: semverWithin(1 << 20), tooLarge: 'npm-too-large' }
}

const isPrefix = (isVersion, of, completions) => completions.some((completion) => isVersion(of + completion))
const isWhite = (of) => /^[\t-\r ]/.test(of)

// The white space that begins with the same byte as a character, or else the character.
const begun = (character) => WHITE.find((white) => Buffer.from(white)[0] === Buffer.from(character)[0]) ?? character

// The reason by the table.
function reason ({ isVersion, isLong, tooLarge, ofMark }, prefix, next) {
  const takesLetter = isLong(prefix + 'a')
  const takesZero = isLong(prefix + '0')
  const identifier = takesZero ? 'empty-identifier' : 'leading-zero'
  const missing = /\d$/.test(prefix) ? 'not-three-numbers' : 'number-expected'
  if (next === undefined) {
    if (!/[\dv]/.test(prefix)) return 'empty'
    return takesLetter ? identifier : missing
  }
  const longer = prefix + begun(next)
  if (isPrefix(isLong, longer, COMPLETIONS) && !isPrefix(isVersion, longer, COMPLETIONS)) return 'too-long'
  if (/\d/.test(next) && /\d$/.test(prefix) && !takesLetter) return /(^|\D)0$/.test(prefix) ? 'leading-zero' : tooLarge
  if (isLong(prefix)) return isWhite(next) || !/[0-9A-Za-z-]$/.test(prefix) ? 'text-after' : 'unexpected-character'
  if (next === 'v' && ofMark !== undefined && !/[\dv]/.test(prefix)) return ofMark
  if (!/[.+-]/.test(next) && !isWhite(next)) return 'unexpected-character'
  if (takesLetter) return identifier
  return /\d/.test(prefix) ? missing : 'unexpected-character'
}

// Where and why a text is an invalid version, in bytes of UTF-8.
function wanted (tool, of, completions) {
  if (tool.isVersion(of)) return 'a version'
  const characters = [...of]
  let count = characters.length
  while (!isPrefix(tool.isVersion, characters.slice(0, count).join(''), completions)) count--
  const prefix = characters.slice(0, count).join('')
  return `${Buffer.byteLength(prefix)}: ${reason(tool, prefix, characters[count])}`
}

let differences = 0

function compare (program, what, all, completions = COMPLETIONS) {
  const counts = []
  for (const [name, tool] of Object.entries(TOOLS)) {
    let refused = 0
    for (let at = 0; at < all.length; at += BATCH) {
      const batch = all.slice(at, at + BATCH)
      const told = answers(program, batch.map((of) => `refused-as-${name}\t${escaped(of)}`))
      if (told.length !== batch.length) throw new Error(`${told.length} of ${batch.length} results`)
      told.forEach((answer, place) => {
        const want = wanted(tool, batch[place], completions)
        refused += want === 'a version' ? 0 : 1
        if (answer === want) return
        differences++
        if (differences > 20) return
        console.log(`differ: ${JSON.stringify(batch[place])}: ${name} expects ${want}, here ${answer}`)
      })
    }
    counts.push(`${refused} to ${name}`)
  }
  console.log(`${what}: ${all.length} texts, no versions: ${counts.join(', ')}`)
}

// All texts of a length, made of some characters.
function * texts (length, of) {
  if (length === 0) return yield ''
  for (const prefix of texts(length - 1, of)) for (const last of of) yield prefix + last
}

const upTo = (length, of) => Array.from({ length: length + 1 }, (_, longest) => [...texts(longest, of)]).flat()

function main ([program, count, seed]) {
  const random = new Random(seed)
  const made = (count, make) => Array.from({ length: count }, () => make(random))
  console.log(`seed ${seed}`)
  const tails = upTo(3, [...'0a.-+v ']).flatMap((of) => [of, of + '0.0', of + '.0.0', of + '0.0.0'])
  const completions = [...COMPLETIONS, ...tails]
  compare(program, 'short, by all short completions', upTo(2, SHORT), completions)
  compare(program, 'short after 1.0., by all short completions', upTo(2, SHORT).map((of) => '1.0.' + of), completions)
  compare(program, 'all of up to 4 characters', upTo(4, SHORT))
  for (const prefix of ['1.0.0', '1.0.0-', '1.0.0+', '1.0.0-a+']) {
    compare(program, `all of up to 3 after ${prefix}`, upTo(3, SHORT).map((of) => prefix + of))
  }
  compare(program, 'by the grammar', made(Number(count), text))
  compare(program, 'changed', made(Number(count), changed))
  compare(program, 'near the limit', made(Math.ceil(count / 10), limit))
  const beside = (of) => [`${of}1.0.0`, `v${of}1.0.0`, `1.${of}0.0`, `1.0.0${of}`, `1.0.0-a${of}`, `1.0.0-01${of}`]
  compare(program, 'next to each character', [...WHITE, ...OTHER].flatMap(beside))
  console.log(`${differences === 0 ? 'no' : differences} differences`)
  process.exit(differences === 0 ? 0 : 1)
}

module.exports = { COMPLETIONS, TOOLS, wanted }
if (require.main === module) main(process.argv.slice(2))
