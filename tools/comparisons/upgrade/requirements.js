// Compares ranges that are written as requirements with node-semver and Cargo's crate semver:
//
//     node requirements.js CARGO TEXTS PROGRAM
//
// takes each real requirement in the directory TEXTS, which tools/real-texts.py writes, by each rule
// for pre-releases. PROGRAM, which is by-rust.rs, has to return that it is invalid if and only if
// the tool of the dialect says so; or a requirement that the tool accepts; or that there is none,
// which is counted, and printed. By the rules that the tool has, both requirements have to contain
// the same of some versions: the real ones, and those next to the numbers that both state. The tool is
// node-semver, or the program CARGO, satisfied-by-cargo-semver. It prints the first difference, and
// then exits with 1.
'use strict'

const { spawnSync } = require('child_process')
const { readFileSync } = require('fs')
const semver = require('semver')

const [, , cargo, texts, program] = process.argv
const lines = (name) => readFileSync(`${texts}/${name}`, 'utf8').split('\n').slice(0, -1)

function run (command, options, values) {
  const input = values.map((it) => `${it}\0`).join('')
  const { status, stdout, stderr } = spawnSync(command, options, { input, maxBuffer: 1 << 30 })
  if (status !== 0) throw new Error(`${command}: status ${status}: ${stderr}`)
  return stdout.toString()
}

const byCargo = (range, versions) =>
  [...run(cargo, [], versions.flatMap((it) => [range, it]))].map((it) => ({ y: true, n: false, '!': null })[it])

function byNpm (range, versions, rule) {
  const options = { includePrerelease: rule === 'included' }
  if (semver.validRange(range, options) === null) return versions.map(() => null)
  const set = new semver.Range(range, options)
  return versions.map((it) => set.test(it))
}

// The versions next to the numbers in a range.
function neighbours (range) {
  const found = []
  for (const [, ...parts] of range.matchAll(/(\d+)(?:\.(\d+))?(?:\.(\d+))?(-[0-9A-Za-z.-]+)?/g)) {
    const pre = parts.pop() ?? ''
    const [major, minor, patch] = parts.map((it) => Number(it ?? 0))
    const nearby = [[major, minor, patch], [major, minor, patch + 1], [major, minor + 1, 0], [major + 1, 0, 0]]
    const releases = nearby.map((it) => it.join('.'))
    found.push(...releases, ...releases.map((it) => `${it}-0`), releases[0] + pre, `${releases[0]}${pre || '-a'}.1`)
  }
  return found.filter((it) => semver.valid(it) !== null)
}

const RULES = { cargo: ['by-dialect'], npm: ['by-dialect', 'included'] }

// What differs between a requirement and the result for it, or null.
function problem (dialect, range, rule, result, versions) {
  const asked = [...new Set([...versions, ...neighbours(range), ...neighbours(result)])]
  const contained = (it) => dialect === 'cargo' ? byCargo(it, asked) : byNpm(it, asked, rule)
  const [before, after] = [range, result].map(contained)
  if ((before[0] === null) !== (result === '!range')) return 'validity'
  if (result.startsWith('!')) return null
  if (after[0] === null) return 'the result is invalid'
  if (!RULES[dialect].includes(rule)) return null
  const at = asked.findIndex((_, at) => before[at] !== after[at])
  return at < 0 ? null : asked[at]
}

for (const dialect of ['cargo', 'npm']) {
  const ranges = lines(`${dialect}.texts`)
  const versions = lines(`${dialect}.versions`).filter((it) => semver.valid(it) !== null)
  for (const rule of ['by-dialect', 'excluded', 'included']) {
    const cases = ranges.flatMap((it) => [it, rule, dialect])
    const results = run(program, ['requirement'], cases).split('\0').slice(0, -1)
    if (results.length !== ranges.length) throw new Error(`${program} wrote ${results.length} results`)
    ranges.forEach((range, at) => {
      const why = problem(dialect, range, rule, results[at], versions)
      if (why === null) return
      console.log(`differ: ${JSON.stringify({ dialect, range, rule, result: results[at] })}: ${why}`)
      process.exit(1)
    })
    const count = (it) => results.filter((result) => result === it).length
    const valid = ranges.length - count('!range')
    console.log(`${dialect}, ${rule}: ${valid} ranges, none for ${count('!none')}; ${count('!range')} invalid`)
    ranges.forEach((range, at) => { if (results[at] === '!none') console.log(`  none for ${range}`) })
  }
}
