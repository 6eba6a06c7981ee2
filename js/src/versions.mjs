// Versions: read, compared and sorted.
import { bigAt, compareOnce, numberAt, partOf, readVersion } from './calls.mjs'
import { explained, invalidVersion, noString } from './errors.mjs'
import { incremented } from './increments.mjs'
import {
  MEANING, checkDialect, identify, isSameMeaning, meaningFor,
} from './options.mjs'

const identifiersOf = (part) => (part === '' ? [] : part.split('.'))

// A pre-release identifier of digits is a number, if that is below 2^53 - 1.
function valueOf(identifier) {
  const number = /^\d+$/.test(identifier) ? Number(identifier) : Infinity
  return number < Number.MAX_SAFE_INTEGER ? number : identifier
}

// The canonical string of the numbers and the pre-release that were read.
function versionBack(string, length, meaning) {
  const at = meaning.isOfNpm ? numberAt : bigAt
  const numbers = `${at(0)}.${at(1)}.${at(2)}`
  const pre = partOf(string, length, 3)
  return pre === '' ? numbers : `${numbers}-${pre}`
}

// Reads a version. Returns its parts; null if it is invalid.
function partsOf(string, meaning) {
  const length = readVersion(string, meaning.dialect)
  if (length < 0) return null
  const at = meaning.isOfNpm ? numberAt : bigAt
  const numbers = [at(0), at(1), at(2)]
  const version = versionBack(string, length, meaning)
  return { numbers, version, pre: partOf(string, length, 3), build: partOf(string, length, 5) }
}

/**
 * The version that the module printed, by a meaning. It isn't read: a range may have a lowest
 * version that isn't in the grammar of the versions of its dialect.
 */
export function printedVersion(version, meaning) {
  const [, numbers, pre] = /^([^-]*)-?(.*)$/.exec(version)
  const number = meaning.isOfNpm ? Number : BigInt
  const parts = { numbers: numbers.split('.').map(number), version, pre, build: '' }
  return new SemVer(version, meaning, parts)
}

let isSemVer

/** A version of node-semver's class. Its fields can't be written; `inc` changes them. */
export class SemVer {
  #meaning
  #version
  #numbers
  #pre
  #build

  static {
    isSemVer = (value) => value !== null && typeof value === 'object' && #meaning in value
  }

  // The third argument has the parts of the version, if they are known by a meaning.
  constructor(version, options, parts) {
    const meaning = meaningFor(options, [version])
    if (isSemVer(version) && isSameMeaning(version.#meaning, meaning)) return version
    this.#meaning = meaning
    const string = stringOf(version)
    const isKnown = meaning === options && parts !== undefined
    this.#take(string, isKnown ? parts : partsOf(string, meaning))
  }

  #take(string, parts) {
    if (parts === null) throw invalidVersion(string, this.#meaning)
    identify(this, this.#meaning, 'raw', string)
    this.#numbers = parts.numbers
    this.#version = parts.version
    this.#pre = Object.freeze(identifiersOf(parts.pre).map(valueOf))
    this.#build = Object.freeze(identifiersOf(parts.build))
  }

  // A version has a dialect, and no rule for ranges.
  get [MEANING]() { return this.#meaning.with('by-dialect') }
  get options() { return this.#meaning.options }
  get loose() { return Boolean(this.#meaning.options.loose) }
  get includePrerelease() { return this.#meaning.isIncluded }
  get major() { return this.#numbers[0] }
  get minor() { return this.#numbers[1] }
  get patch() { return this.#numbers[2] }
  get prerelease() { return this.#pre }
  get build() { return this.#build }
  get version() { return this.#version }

  format() { return this.#version }
  toString() { return this.#version }

  #fields([major, minor, patch]) {
    const { options, loose, includePrerelease, raw, prerelease, build, version } = this
    const parts = { major, minor, patch, prerelease, build }
    return { options, loose, includePrerelease, raw, ...parts, version }
  }

  // JSON has no bigint.
  toJSON() {
    return this.#fields(this.#numbers.map((it) => (typeof it === 'bigint' ? `${it}` : it)))
  }

  [Symbol.for('nodejs.util.inspect.custom')](depth, options, inspect) {
    return `SemVer ${inspect(this.#fields(this.#numbers), options)}`
  }

  #with(other) {
    checkDialect(this.#meaning, other)
    return isSemVer(other) ? other : new SemVer(other, this.#meaning)
  }

  compare(other) {
    checkDialect(this.#meaning, other)
    return comparedOrThrow(this.#version, stringOf(other), this.#meaning, LISTED)
  }

  compareMain(other) {
    const { major, minor, patch } = this.#with(other)
    return comparedOrThrow(this.#numbers.join('.'), [major, minor, patch].join('.'), this.#meaning)
  }

  comparePre(other) {
    const alone = ({ prerelease }) => ['0.0.0', prerelease.join('.')].filter(Boolean).join('-')
    return comparedOrThrow(alone(this), alone(this.#with(other)), this.#meaning)
  }

  compareBuild(other) {
    return compareBuilds(this.#build, this.#with(other).build)
  }

  inc(release, identifier, identifierBase) {
    const string = incremented(this, release, identifier, identifierBase)
    this.#take(string, partsOf(string, this.#meaning))
    return this
  }
}

// What another copy of the package, or node-semver, made of a version.
function isForeign(version) {
  if (version === null || typeof version !== 'object') return false
  const { raw, version: string, build } = version
  return typeof raw === 'string' && typeof string === 'string' && Array.isArray(build)
}

const mayBeVersion = (version) => typeof version === 'string' || isForeign(version)

/** The string of a version, which may be one that was read. */
export function stringOf(version) {
  if (typeof version === 'string') return version
  if (!isForeign(version)) throw noString('version', version)
  const { version: string, build } = version
  return build.length ? `${string}+${build.join('.')}` : `${string}`
}

// Whether a version was read already, by the same dialect.
const isOf = (version, { dialect }) => isSemVer(version) && version[MEANING].dialect === dialect

export function parse(version, options, throwErrors = false) {
  const meaning = meaningFor(options, [version])
  if (isOf(version, meaning)) return version
  if (throwErrors === true) return new SemVer(version, meaning)
  if (!mayBeVersion(version)) return null
  const string = stringOf(version)
  const parts = partsOf(string, meaning)
  return parts === null ? null : new SemVer(string, meaning, parts)
}

export function valid(version, options) {
  const meaning = meaningFor(options, [version])
  if (isOf(version, meaning)) return version.version
  if (!mayBeVersion(version)) return null
  const string = stringOf(version)
  const length = readVersion(string, meaning.dialect)
  return length < 0 ? null : versionBack(string, length, meaning)
}

export function prerelease(version, options) {
  const found = parse(version, options)
  return found !== null && found.prerelease.length ? found.prerelease : null
}

// A number of a version, by its index.
function partOfVersion(version, options, index) {
  const meaning = meaningFor(options, [version])
  const string = stringOf(version)
  if (readVersion(string, meaning.dialect) < 0) throw invalidVersion(string, meaning)
  return meaning.isOfNpm ? numberAt(index) : bigAt(index)
}

export const major = (version, options) => partOfVersion(version, options, 0)
export const minor = (version, options) => partOfVersion(version, options, 1)
export const patch = (version, options) => partOfVersion(version, options, 2)

export function explainVersion(version, options) {
  const meaning = meaningFor(options, [version])
  return explained('version', stringOf(version), meaning)
}

// ---- precedence

// The arguments of a call that have two versions; and if its first argument has both.
const PAIR = [0, 1]
const LISTED = [0, 0]

function comparedOrThrow(version, other, meaning, places = PAIR) {
  const order = compareOnce(version, other, meaning.dialect)
  if (order !== null) return order
  const at = readVersion(version, meaning.dialect) < 0 ? 0 : 1
  throw invalidVersion([version, other][at], meaning, places[at])
}

/** How two versions of a list compare. */
export const compareListed = (version, other, meaning) =>
  comparedOrThrow(version, other, meaning, LISTED)

export function compare(version, other, options) {
  const meaning = meaningFor(options, [version, other])
  const string = stringOf(version)
  return comparedOrThrow(string, stringOf(other), meaning)
}

export const rcompare = (version, other, options) => 0 - compare(version, other, options)
export const compareLoose = (version, other) => compare(version, other)
export const gt = (version, other, options) => compare(version, other, options) > 0
export const gte = (version, other, options) => compare(version, other, options) >= 0
export const lt = (version, other, options) => compare(version, other, options) < 0
export const lte = (version, other, options) => compare(version, other, options) <= 0
export const eq = (version, other, options) => compare(version, other, options) === 0
export const neq = (version, other, options) => compare(version, other, options) !== 0

const COMPARISONS = { '': eq, '=': eq, '==': eq, '!=': neq, '>': gt, '>=': gte, '<': lt, '<=': lte }

const plain = (version) => (typeof version === 'object' ? version?.version : version)

export function cmp(version, operator, other, options) {
  if (operator === '===') return plain(version) === plain(other)
  if (operator === '!==') return plain(version) !== plain(other)
  if (!Object.hasOwn(COMPARISONS, operator)) throw new TypeError(`Invalid operator: ${operator}`)
  return COMPARISONS[operator](version, other, options)
}

// ---- build metadata, which has no precedence: an order of its own, after that

function compareDigits(digits, others) {
  const [first, second] = [digits, others].map((it) => it.replace(/^0+(?=.)/, ''))
  if (first.length !== second.length) return first.length < second.length ? -1 : 1
  return first === second ? 0 : first < second ? -1 : 1
}

export function compareIdentifiers(identifier, other) {
  const [isNumber, otherIsNumber] = [identifier, other].map((it) => /^\d+$/.test(it))
  if (isNumber && otherIsNumber) return compareDigits(`${identifier}`, `${other}`)
  if (isNumber !== otherIsNumber) return isNumber ? -1 : 1
  return identifier === other ? 0 : identifier < other ? -1 : 1
}

export const rcompareIdentifiers = (identifier, other) => compareIdentifiers(other, identifier)

function compareBuilds(build, other) {
  const at = build.findIndex((it, index) => it !== other[index])
  if (at < 0) return build.length < other.length ? -1 : 0
  return at < other.length ? compareIdentifiers(build[at], other[at]) : 1
}

// The identifiers of the build metadata of a valid version, of which nothing else has a `+`.
function buildOf(string) {
  const at = string.indexOf('+')
  return identifiersOf(at < 0 ? '' : string.slice(at + 1).trim())
}

function compareStrings(version, other, meaning, places) {
  const order = comparedOrThrow(version, other, meaning, places)
  if (order || !(version.includes('+') || other.includes('+'))) return order
  return compareBuilds(buildOf(version), buildOf(other))
}

export function compareBuild(version, other, options) {
  const meaning = meaningFor(options, [version, other])
  const string = stringOf(version)
  return compareStrings(string, stringOf(other), meaning)
}

function sorted(list, options, sign) {
  const meaning = meaningFor(options, list)
  const entries = Array.from(list, (version) => ({ version, string: stringOf(version) }))
  entries.sort((one, other) => sign * compareStrings(one.string, other.string, meaning, LISTED))
  entries.forEach(({ version }, index) => {
    list[index] = version
  })
  return list
}

export const sort = (list, options) => sorted(list, options, 1)
export const rsort = (list, options) => sorted(list, options, -1)
