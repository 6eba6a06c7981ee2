// Runs node-semver's own tests against the package in js/:
//
//     node node-suite.js SOURCE PACKAGE [--show]
//
// SOURCE is node-semver's source, with its tests, and PACKAGE is a directory with the package.
// Files in both are changed. The tests run with a shim for `tap`:
//
// - against node-semver itself: each assertion has to hold
// - against the package: the assertions that fail have to be those in node-suite.expected, which
//   has them by the differences that js/README.md lists
// - against node-semver without `loose`: the assertions of the class LOOSE have to fail here, too
//
// With --show, each assertion that fails with the package is printed with what it found.
//
// An assertion is named by its file and its number in that file. After an exception the next case
// of a list is tested, and the exception is counted as an assertion that fails.
'use strict'
const assert = require('assert')
const { execFileSync } = require('child_process')
const fs = require('fs')
const Module = require('module')
const path = require('path')
const { inspect } = require('util')

// Tests that aren't run: tests of the command, of internal/, and of the list of files.
const NOT_RUN = /^(bin|internal|fixtures)\/|^map\.js$/
const LOOSE = 'what only `loose` reads'
// node-semver's internal/parse-options.js, without `loose`.
const WITHOUT_LOOSE = `module.exports = (options) =>
  options && typeof options === 'object' ? { ...options, loose: undefined } : {}
`

// ---- the shim: what the tests use of tap 16

const results = []
const short = (value) => (value instanceof Error ? String(value) : inspect(value, { depth: 4, breakLength: Infinity })).replace(/\s+/g, ' ').slice(0, 160)

function note (ok, names, message, found) {
  results.push({ ok: Boolean(ok), name: [...names, message].filter((it) => typeof it === 'string').join(', ').replace(/\s+/g, ' ').slice(0, 160), found: ok ? '' : short(found) })
}

const threw = (names, error) => note(false, names, 'an exception', error)

function holds (check) {
  try {
    check()
    return true
  } catch {
    return false
  }
}

// Whether a value has the fields of a pattern, as in tap's `match`.
function matches (value, pattern) {
  if (pattern instanceof RegExp) return pattern.test(value)
  if (typeof pattern === 'string' && typeof value === 'string') return value.includes(pattern)
  if (pattern === null || typeof pattern !== 'object') return Object.is(value, pattern)
  const names = pattern instanceof Error ? ['name', 'message'] : Object.keys(pattern)
  return value !== null && typeof value === 'object' && names.every((name) => matches(value[name], pattern[name]))
}

// Whether an error is the one that a test expects: a class, or an object with fields of the error.
const isWanted = (error, wanted) => typeof wanted === 'function' ? error instanceof wanted
  : wanted === null || typeof wanted !== 'object' || matches(error, wanted)

function tap (names) {
  const t = {
    test (name, ...rest) {
      const inner = [...names, name]
      try {
        rest.at(-1)(tap(inner))
      } catch (error) {
        threw(inner, error)
      }
    },
    throws (call, wanted, message) {
      let error = null
      const isThrown = !holds(() => { try { call() } catch (it) { error = it; throw it } })
      note(isThrown && isWanted(error, wanted), names, message ?? wanted, error)
    },
    ok: (found, message) => note(found, names, message, found),
    notOk: (found, message) => note(!found, names, message, found),
    equal: (found, wanted, message) => note(Object.is(found, wanted), names, message, found),
    not: (found, other, message) => note(!Object.is(found, other), names, message, found),
    same: (found, wanted, message) => note(holds(() => assert.deepEqual(found, wanted)), names, message, found),
    strictSame: (found, wanted, message) => note(holds(() => assert.deepStrictEqual(found, wanted)), names, message, found),
    match: (found, pattern, message) => note(matches(found, pattern), names, message, found),
    plan () {},
    end () {}
  }
  return t
}

// ---- one file of tests, in its own process

function runFile (file) {
  const load = Module._load
  Module._load = (name, ...others) => name === 'tap' ? tap([]) : load(name, ...others)
  // Only in the tests, a list of cases goes on after an exception.
  Array.prototype.forEachCase = function (call) { // eslint-disable-line no-extend-native
    this.forEach((...values) => {
      try {
        call(...values)
      } catch (error) {
        threw([], error)
      }
    })
  }
  const compiled = Module._extensions['.js']
  Module._extensions['.js'] = (module, name) => {
    if (!name.includes(`${path.sep}test${path.sep}`)) return compiled(module, name)
    module._compile(fs.readFileSync(name, 'utf8').replaceAll('.forEach(', '.forEachCase('), name)
  }
  try {
    require(path.resolve(file))
  } catch (error) {
    threw([], error)
  }
  console.log(JSON.stringify(results))
}

// ---- all files

const filesIn = (directory) => fs.readdirSync(directory, { recursive: true }).map(String)
  .filter((name) => name.endsWith('.js') && !NOT_RUN.test(name)).sort()

// The results of each file, with a package in a directory that has the tests.
function run (directory) {
  const tests = path.join(directory, 'test')
  return Object.fromEntries(filesIn(tests).map((name) =>
    [name, JSON.parse(execFileSync(process.execPath, [__filename, '--file', path.join(tests, name)], { maxBuffer: 1e9 }))]))
}

const failed = (all) => Object.entries(all).flatMap(([file, list]) => list.map((it, at) => ({ ...it, id: `${file} ${at + 1}` }))).filter(({ ok }) => !ok)

// The assertions that are expected to fail, by the differences that js/README.md lists. A line that
// isn't indented is a class. Each line below it has a file and the numbers of its assertions.
function expectedFailures () {
  const expected = new Map()
  let version = null
  let kind = null
  for (const line of fs.readFileSync(path.join(__dirname, 'node-suite.expected'), 'utf8').split('\n')) {
    if (line.startsWith('# node-semver ')) version = line.slice(14)
    if (line === '' || line.startsWith('#')) continue
    if (!line.startsWith(' ')) kind = line
    const [file, ...numbers] = line.trim().split(' ')
    if (!line.startsWith(' ')) continue
    for (const one of numbers) {
      const [first, last = first] = one.split('-').map(Number)
      for (let at = first; at <= last; at += 1) expected.set(`${file} ${at}`, kind)
    }
  }
  return { expected, version }
}

const count = (all) => Object.values(all).reduce((sum, list) => sum + list.length, 0)

function main (source, package_, isShown) {
  const { version } = JSON.parse(fs.readFileSync(path.join(source, 'package.json')))
  const { expected, version: wanted } = expectedFailures()
  if (version !== wanted) {
    console.log(`node-suite: node-suite.expected is for node-semver ${wanted}, but this is ${version}`)
    process.exit(2)
  }
  const own = run(source)
  for (const it of failed(own)) console.log(`node-semver itself fails ${it.id}: ${it.name}: ${it.found}`)
  for (const name of ['test', 'internal']) fs.cpSync(path.join(source, name), path.join(package_, name), { recursive: true })
  const found = run(package_)
  const kinds = new Map()
  const left = new Map(expected)
  let wrong = failed(own).length
  for (const it of failed(found)) {
    const kind = expected.get(it.id)
    if (isShown) console.log(`${it.id} [${kind ?? 'new'}]: ${it.name}: ${it.found}`)
    if (kind === undefined && !isShown) console.log(`fails: ${it.id}: ${it.name}: ${it.found}`)
    if (kind === undefined) wrong += 1
    kinds.set(kind, (kinds.get(kind) || 0) + 1)
    left.delete(it.id)
  }
  for (const [id, kind] of left) console.log(`no longer fails: ${id} (${kind})`)
  fs.writeFileSync(path.join(source, 'internal', 'parse-options.js'), WITHOUT_LOOSE)
  const strict = new Set(failed(run(source)).map(({ id }) => id))
  const others = [...expected].filter(([id, kind]) => kind === LOOSE && !strict.has(id))
  for (const [id] of others) console.log(`holds with node-semver without loose: ${id}`)
  console.log(`node-semver ${version}: ${count(own)} assertions; ${failed(own).length} fail with itself, and ${strict.size} without loose`)
  console.log(`the package: ${count(found)} assertions up to the exceptions; ${failed(found).length} fail:`)
  for (const [kind, times] of kinds) console.log(`  ${times}: ${kind ?? 'not expected'}`)
  process.exit(wrong || left.size || others.length ? 1 : 0)
}

if (process.argv[2] === '--file') runFile(process.argv[3])
else main(process.argv[2], process.argv[3], process.argv[4] === '--show')
