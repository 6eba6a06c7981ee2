// Tests that what a call returns doesn't depend on earlier calls:
//
//     node order.mjs PACKAGE/index.cjs COUNT SEED
//
// COUNT random calls are made, each in its own instance of the package, and some in their own
// process. Then one instance makes these calls, and those of cases.json, in random order, each
// several times, with objects that live on. In some of them the caller's code makes another call.
// Each has to return the same as in the fresh instance, or as node-semver did. The same is done
// with a package that keeps two ranges instead of 1000. Last, errors of this kind are planted, and
// each has to be found.
import { execFileSync } from 'node:child_process'
import { readFileSync } from 'node:fs'
import { createRequire } from 'node:module'
import { dirname, join } from 'node:path'
import { fileURLToPath } from 'node:url'
import { inspect } from 'node:util'
import { runInThisContext } from 'node:vm'
import { CALLS, Random, callsOfFew, livingRanges, randomCalls } from './order-calls.mjs'
import { PLANTED, withFewPlaces } from './order-planted.mjs'
import { result } from './results.mjs'

const LIVING = 1200 // ranges; the module has slots for 1000
const TIMES = 8 // how often each call is made, by each of two instances
const TRIES = 10 // how often a planted error is looked for at most
const [first, ...others] = process.argv.slice(2)

// ---- one call

const shown = (value) => value instanceof Promise ? 'a promise' : inspect(value, {
  depth: Infinity, maxArrayLength: Infinity, maxStringLength: Infinity, breakLength: Infinity,
  sorted: true,
})

function shownError(error) {
  const kind = `${error.constructor.name} ${error.name}`
  return `throws ${kind}: ${error.message} ${shown({ ...error, withCarets: error.withCarets })}`
}

/** An instance of the package, and the objects that were made in it. */
class Instance {
  constructor(library, disturb = () => {}) {
    this.library = library
    this.disturb = disturb
    this.kept = new Map()
  }

  /** The value of a description: order-calls.mjs says how values are described. */
  value(it) {
    if (it === null || typeof it !== 'object' || !('is' in it)) return structuredClone(it)
    if (it.is === 'undefined') return undefined
    if (it.is === 'ANY') return this.library.Comparator.ANY
    if (it.is === 'getters') return this.withGetters(it.fields)
    if (it.is === 'object') return this.object(it)
    const items = it.items.map((item) => this.value(item))
    return it.is === 'list' ? items : this.iterable(items)
  }

  withGetters(fields) {
    const made = {}
    for (const [name, value] of Object.entries(fields)) {
      const get = () => {
        this.disturb()
        return value
      }
      Object.defineProperty(made, name, { get, enumerable: true })
    }
    return made
  }

  iterable(items) {
    const { disturb } = this
    return {
      * [Symbol.iterator]() {
        for (const item of items) {
          disturb()
          yield item
        }
      },
    }
  }

  /** The object of a description, which is made only once. */
  object(it) {
    if (!this.kept.has(it)) this.kept.set(it, this.madeObject(it))
    return this.kept.get(it)
  }

  madeObject({ name, values, raised = [] }) {
    const made = new this.library[name](...values.map((value) => this.value(value)))
    for (const values of raised) made.inc(...values.map((value) => this.value(value)))
    return made
  }

  made({ call, object, values }) {
    const given = values.map((value) => this.value(value))
    if (call.startsWith('new ')) return new this.library[call.slice(4)](...given)
    const [name, method] = call.split('.')
    // These change the object, which then differs from its description.
    const isChanged = method === 'inc' || method === 'parse'
    const of = isChanged ? this.madeObject(object) : object && this.object(object)
    const found = method === undefined ? this.library[name] : of[method]
    const isCall = typeof found === 'function' && !/Error$/.test(name)
    return isCall ? found.apply(of, given) : found
  }

  /** What a call returns or throws, as a string. */
  result(call) {
    try {
      return shown(this.made(call))
    } catch (error) {
      return shownError(error)
    }
  }
}

// ---- instances

/** A function that makes instances of the package, with changes of its source. */
function instancesOf(file, change = (source) => source) {
  const source = change(readFileSync(file, 'utf8'))
  const evaluate = runInThisContext(`(function (module, exports) {${source}\n})`)
  const wasm = readFileSync(join(dirname(file), 'semver_parser.wasm'))
  const compiled = new WebAssembly.Module(wasm)
  return () => {
    const module = { exports: {} }
    evaluate(module, module.exports)
    module.exports.init(compiled)
    return module.exports
  }
}

/** The same call in its own process. */
function inProcess(file, call) {
  const arguments_ = [fileURLToPath(import.meta.url), '--one', file]
  return JSON.parse(execFileSync(process.execPath, arguments_, { input: JSON.stringify(call) }))
}

// ---- sequences

const fail = (...lines) => {
  console.log(lines.join('\n'))
  process.exit(1)
}

const short = (text) => (text.length > 600 ? `${text.slice(0, 600)}... (${text.length})` : text)

/** A step of a sequence: a call, and what it has to return. */
const stepOf = (call, fresh) => ({
  call,
  name: JSON.stringify(call),
  expected: new Instance(fresh()).result(call),
  made: (instance) => instance.result(call),
})

/** The same for a case of node-semver. */
const stepOfCase = ([call, values, right]) => ({
  call: {},
  name: `${call}(${JSON.stringify(values).slice(1, -1)})`,
  expected: shown(right),
  made: ({ library }) => shown(result(library, call, values)),
})

/** A random index below a length, often next to the one before. */
const nextIndex = (index, length, random) =>
  random.below(3) ? random.below(length) : (index + random.of([0, 1, length - 1])) % length

/**
 * Makes each living range, and then steps in random order, sometimes ten with a few values. Returns
 * the first that isn't as expected, with those before it.
 */
function firstDifference({ steps, few, living }, library, random) {
  const last = []
  let found = null
  const take = (instance, it) => {
    last.push(it.name)
    if (last.length > 4) last.shift()
    const got = it.made(instance)
    if (got !== it.expected) found ??= { ...it, got, last: [...last] }
  }
  const quiet = new Instance(library)
  const disturb = () => random.below(4) === 0 && take(quiet, random.of(steps))
  const instance = new Instance(library, disturb)
  for (const it of steps.filter(({ call }) => living.includes(call.object))) take(instance, it)
  for (let index = 0, count = 0; count < TIMES * steps.length && !found; count += 1) {
    index = nextIndex(index, steps.length, random)
    take(instance, count % 40 < 10 ? random.of(few) : steps[index])
  }
  return found
}

// ---- what is tested

/** Each name that the package exports, and each member of its classes, has to be called. */
function checkNames(library) {
  const called = new Set(Object.keys(CALLS).map((name) => name.replace(/^new /, '')))
  const classes = ['SemVer', 'Range', 'Comparator']
  const members = classes.flatMap((name) =>
    Object.getOwnPropertyNames(library[name].prototype).map((member) => `${name}.${member}`))
  const missing = [...Object.keys(library), ...members]
    .filter((name) => !name.endsWith('.constructor') && !called.has(name))
  if (missing.length) fail(`order: no call of ${missing.join(', ')}`)
}

function checkProcesses(file, steps, random, count) {
  for (let at = 0; at < count; at += 1) {
    const { call, name, expected } = random.of(steps)
    const got = inProcess(file, call)
    if (got !== expected) {
      fail(`order: ${name} in a process of its own:`, short(got),
        'in a fresh instance:', short(expected))
    }
  }
}

function failOf({ last, expected, got }, seed) {
  fail(`order, seed ${seed}: after other calls a result differs.`, 'The last calls:',
    ...last.map(short), 'returns:', short(got), 'by itself:', short(expected))
}

// Returns what is made in a sequence.
function plan(fresh, count, random) {
  const living = livingRanges(random, LIVING)
  const all = JSON.parse(readFileSync(new URL('cases.json', import.meta.url)))
  const cases = count < all.length ? Array.from({ length: count }, () => random.of(all)) : all
  const calls = randomCalls(random, count, living).map((call) => stepOf(call, fresh))
  const few = callsOfFew(random, living.slice(0, 12), 400).map((call) => stepOf(call, fresh))
  return { calls, living, few, steps: [...calls, ...few, ...cases.map(stepOfCase)] }
}

function main(file, count, seed) {
  const random = new Random(seed)
  const fresh = instancesOf(file)
  checkNames(fresh())
  const planned = plan(fresh, count, random)
  checkProcesses(file, planned.calls, random, Math.ceil(count / 500))
  for (const library of [fresh(), instancesOf(file, withFewPlaces)()]) {
    const difference = firstDifference(planned, library, random)
    if (difference) failOf(difference, seed)
  }
  for (const [what, change] of PLANTED) {
    const planted = instancesOf(file, change)
    const isFound = () => firstDifference(planned, planted(), random) !== null
    if (!Array(TRIES).fill().some(isFound)) fail(`order: it isn't found that ${what}`)
  }
  const made = 2 * TIMES * planned.steps.length
  console.log(`order of calls in JavaScript: ${planned.steps.length} calls, ${made} times in ` +
    `random order, seed ${seed}; ${PLANTED.length} planted errors found; passed`)
}

if (first === '--one') {
  const library = createRequire(import.meta.url)(others[0])
  const call = JSON.parse(readFileSync(0, 'utf8'))
  process.stdout.write(JSON.stringify(new Instance(library).result(call)))
} else {
  main(first, Number(others[0]), Number(others[1]))
}
