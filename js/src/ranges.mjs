// Ranges that are read once.
import { askRange, callWith, calls, stringBack } from './calls.mjs'
import { invalidRange, noString, stringOrNull } from './errors.mjs'
import {
  MEANING, checkDialect, identify, isSameMeaning, meaningFor,
} from './options.mjs'
import { Comparator, NO_VERSION, isComparator, rangesOf } from './comparators.mjs'
import { stringOf } from './versions.mjs'

// The memory of the module has so many ranges, so that it doesn't fill. A range whose place another
// one took is read again.
const PLACES = 1000
const owners = []
const addresses = []
let next = 0

function shownOf(address, call) {
  if (calls()[call](address) !== 0) throw new RangeError('out of memory')
  return stringBack()
}

/** A string that is read as a range. */
class ReadRange {
  #place = -1

  constructor(string, meaning) {
    this.string = string
    this.meaning = meaning
  }

  /** Whether it is read: it may be invalid. */
  read() {
    const { dialect, rule } = this.meaning
    const address = callWith('range_read', this.string, dialect, rule)
    if (address === 0) return false
    if (owners[next]) calls().range_free(addresses[next])
    owners[next] = this
    addresses[next] = address
    this.#place = next
    next = (next + 1) % PLACES
    return true
  }

  /** Where it is in the memory of the module, until another range is read. */
  get address() {
    if (owners[this.#place] === this || this.read()) return addresses[this.#place]
    throw invalidRange(this.string, this.meaning)
  }

  /** Whether a version is in it; an invalid one isn't. */
  has(version) {
    return askRange(this.address, version) === 1
  }

  /** What a call returns of this range and another. */
  beside(other, call) {
    const second = this.address && other.address
    return calls()[call](this.address, second)
  }

  /** The string that a call returns of it. */
  shown(call) {
    return shownOf(this.address, call)
  }

  /** A string that reads back as a range of the same versions; null if none was found. */
  requirement() {
    return stringOrNull(calls().range_requirement(this.address))
  }

  /** What is in this range and not in another, each kind as comparators; null if nothing is. */
  without(other) {
    const address = this.beside(other, 'range_difference')
    if (address === 0) throw new RangeError('out of memory')
    try {
      if (calls().range_is_empty(address) === 1) return null
      const [releases, preReleases] = ['range_releases', 'range_pre_releases'].map((call) => {
        const comparators = shownOf(address, call)
        return comparators === NO_VERSION ? null : comparators
      })
      return { releases, preReleases, lowest: shownOf(address, 'range_lowest') }
    } finally {
      calls().range_free(address)
    }
  }
}

/** Ranges of comparators as one string. */
export const formatted = (ranges) => ranges.map((range) => range.join(' ')).join('||')

let readOf

/** A range of node-semver's class. Its fields can't be written. */
export class Range {
  #read
  #ranges = null
  #set = null

  static {
    readOf = (value) => {
      const isOne = value !== null && typeof value === 'object' && #read in value
      return isOne ? value.#read : null
    }
  }

  constructor(range, options) {
    const meaning = meaningFor(options, [range])
    const read = readRange(range, meaning)
    if (read === readOf(range)) return range
    this.#read = read
    identify(this, meaning, 'raw', read.string.trim().replace(/\s+/g, ' '))
  }

  get [MEANING]() { return this.#read.meaning }
  get options() { return this.#read.meaning.options }
  get loose() { return Boolean(this.#read.meaning.options.loose) }
  get includePrerelease() { return this.#read.meaning.isIncluded }

  #written() {
    this.#ranges ??= rangesOf(this.#read.string, this.#read.meaning)
    return this.#ranges
  }

  get set() {
    this.#set ??= Object.freeze(this.#written().map((range) =>
      Object.freeze(range.map((it) => new Comparator(it, this.#read.meaning)))))
    return this.#set
  }

  get range() { return formatted(this.#written()) }

  format() { return this.range }
  toString() { return this.range }
  toRequirement() { return this.#read.requirement() }

  toJSON() {
    const { options, loose, includePrerelease, raw, set, range } = this
    return { options, loose, includePrerelease, raw, set, range }
  }

  [Symbol.for('nodejs.util.inspect.custom')](depth, options, inspect) {
    return `Range ${inspect(this.toJSON(), options)}`
  }

  /** The comparators of another range, by the options of this one. */
  parseRange(range) {
    return new Range(range, this.#read.meaning).set[0]
  }

  test(version) {
    if (!version) return false
    checkDialect(this.#read.meaning, version)
    return this.#read.has(stringOf(version))
  }

  intersects(other, options) {
    if (!isRange(other)) throw new TypeError('a Range is required')
    const meaning = options === undefined ? this.#read.meaning : meaningFor(options, [this, other])
    if (options === undefined) checkDialect(meaning, other)
    return readRange(this, meaning).beside(readRange(other, meaning), 'range_is_apart') === 0
  }
}

// Whether a value is a range that was read, also by another copy of the package or by node-semver.
function isRange(value) {
  if (value === null || typeof value !== 'object') return false
  if (readOf(value) !== null) return true
  const { raw, range: string } = value
  return typeof raw === 'string' && typeof string === 'string'
}

const mayBeRange = (value) => typeof value === 'string' || isComparator(value) || isRange(value)

// A comparator as a range, in each dialect: Cargo takes a version without operator for `^`.
const alone = ({ operator, value }) => (operator ? value : value ? `=${value}` : '*')

/** The string of a range, which may be one that was read. */
export function rangeStringOf(range) {
  if (typeof range === 'string') return range
  if (!mayBeRange(range)) throw noString('range', range)
  return isComparator(range) ? alone(range) : readOf(range)?.string ?? `${range.raw}`
}

/** A range that was read: it may have been before. Throws if it is invalid. */
export function readRange(range, meaning, argument = 0) {
  const read = readOf(range)
  if (read !== null && isSameMeaning(read.meaning, meaning)) return read
  const found = new ReadRange(rangeStringOf(range), meaning)
  if (found.read()) return found
  throw invalidRange(found.string, meaning, argument)
}

/** The same, but null if it is invalid, or no range at all. */
export function readRangeOrNull(range, meaning) {
  if (!mayBeRange(range)) return null
  const read = readOf(range)
  if (read !== null && isSameMeaning(read.meaning, meaning)) return read
  const found = new ReadRange(rangeStringOf(range), meaning)
  return found.read() ? found : null
}
