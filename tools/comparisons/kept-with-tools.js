// Compares which versions of each tool's grammar are in a range, for Cargo and for npm.
//
// `node kept-with-tools.js PROGRAM CARGO COUNT SEED`: PROGRAM is the built `release-filter`, and
// CARGO the built `versions-by-cargo-semver`. It makes COUNT texts for each tool, a thousand for
// each range; most are versions that the crate's own grammar rejects. PROGRAM has to write the
// lines that satisfy the range by `satisfies` of node-semver, or by `matches` of the crate
// `semver`. It prints the first difference, and then exits with 1.
'use strict'

const semver = require('semver')
const { spawnSync } = require('child_process')
const { Random } = require('./with-node-semver.js')

const LINES = 1000
const NUMBERS = [0, 0, 1, 1, 2, 3]
const IDENTIFIERS = ['0', '1', '2', '10', '01', '00a', 'a', 'A', 'b', '-', '--', '-1', '1-', 'a-',
  'a--b', 'canary', '']
const BLANKS = [' ', '\t', '\v', '\f', '\u00a0', '\u2003', '\ufeff']

const listOf = (random, length, make) => Array.from({ length }, () => make(random))
const numbers = (random) => listOf(random, 3, (random) => random.of(NUMBERS)).join('.')
const identifiers = (random) => {
  return listOf(random, random.of([1, 1, 2, 3]), (random) => random.of(IDENTIFIERS)).join('.')
}
const preRelease = (random) => random.below(3) === 0 ? '' : '-' + identifiers(random)
const build = (random) => random.below(4) === 0 ? '+' + identifiers(random) : ''
const blank = (random) => random.below(12) === 0 ? random.of(BLANKS) : ''

function line (random) {
  const sign = random.below(8) === 0 ? random.of(['v', 'V', '=', 'vv']) : ''
  const version = numbers(random) + preRelease(random) + build(random)
  return blank(random) + sign + version + blank(random)
}

// A comparator with three numbers, or with fewer and no pre-release.
function comparator (random) {
  const sign = random.of(['', '=', '<', '<=', '>', '>=', '>=', '~', '^', '^'])
  const stated = random.of([3, 3, 3, 3, 2, 1])
  if (stated === 3) return sign + numbers(random) + preRelease(random)
  return sign + numbers(random).split('.').slice(0, stated).join('.')
}

const TOOLS = {
  npm: {
    range: (random) => {
      const one = (random) => listOf(random, random.of([1, 1, 2]), comparator).join(' ')
      return listOf(random, random.of([1, 1, 1, 2]), one).join(' || ')
    },
    isRange: (cargo, range) => semver.validRange(range) !== null,
    kept: (cargo, range, lines) => lines.filter((of) => semver.satisfies(of, range))
  },
  cargo: {
    range: (random) => listOf(random, random.of([1, 1, 2]), comparator).join(', '),
    isRange: (cargo, range) => asked(cargo, range, ['0.0.0'])[0] !== 'none',
    kept: (cargo, range, lines) => {
      const answers = asked(cargo, range, lines)
      return lines.filter((_, at) => answers[at] === 'true')
    }
  }
}

// What the crate `semver` returns for a requirement and each text: `none` if either is invalid.
function asked (cargo, range, lines) {
  const escaped = (of) => of.replace(/\\/g, '\\\\').replace(/\t/g, '\\t')
  const input = lines.map((of) => `${range}\t${escaped(of)}\n`).join('')
  const ran = spawnSync(cargo, { input, encoding: 'utf8', maxBuffer: 1 << 28 })
  if (ran.status !== 0) throw new Error(`${cargo} ended with ${ran.status}: ${ran.stderr}`)
  return ran.stdout.split('\n').slice(0, -1)
}

function compare (program, cargo, tool, count, random) {
  const { range, isRange, kept } = TOOLS[tool]
  const counts = { ranges: 0, kept: 0 }
  for (let left = count; left > 0; left -= LINES) {
    const of = range(random)
    // The first line isn't a version, since a byte order mark at the beginning of the input is
    // skipped.
    const lines = ['first', ...listOf(random, LINES, line)]
    const input = lines.map((of) => of + '\n').join('')
    const ran = spawnSync(program, ['--as', tool, '--', of], { input, encoding: 'utf8', maxBuffer: 1 << 28 })
    const is = isRange(cargo, of)
    const wanted = is ? kept(cargo, of, lines) : []
    const written = ran.stdout.split('\n').slice(0, -1)
    counts.ranges += is ? 1 : 0
    counts.kept += wanted.length
    if ((ran.status === 2) === is || written.join('\n') !== wanted.join('\n')) {
      const at = written.findIndex((of, at) => of !== wanted[at])
      const first = JSON.stringify([wanted[at < 0 ? written.length : at], written[at]])
      console.log(`differ: ${of} by ${tool}, status ${ran.status}: ${first}`)
      process.exit(1)
    }
  }
  console.log(`${tool}: ${count} texts, ${counts.ranges} ranges read, ${counts.kept} texts kept`)
}

function main ([program, cargo, count, seed]) {
  const random = new Random(seed)
  console.log(`seed ${seed}`)
  for (const tool of Object.keys(TOOLS)) compare(program, cargo, tool, Number(count), random)
  console.log('no differences')
}

main(process.argv.slice(2))
