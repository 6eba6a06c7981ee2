// Comparators, and the form in which node-semver writes them.
import { OUT_OF_MEMORY, callWith, stringBack } from './calls.mjs'
import { noString } from './errors.mjs'
import {
  MEANING, checkDialect, identify, isSameMeaning, meaningFor,
} from './options.mjs'
import { readRange } from './ranges.mjs'
import { SemVer, cmp, parse, valid } from './versions.mjs'

const ANY = Symbol('SemVer ANY')
/** Comparators that no version satisfies. */
export const NO_VERSION = '<0.0.0-0'
const PARTS = /^(<=|>=|<|>|=|)(.*)$/s

/** Whether a value is a comparator, also of another copy of the package or of node-semver. */
export function isComparator(value) {
  if (value === null || typeof value !== 'object') return false
  return typeof value.operator === 'string' && typeof value.value === 'string'
}

/** A comparator of node-semver's class. Its fields can't be written; `parse` changes them. */
export class Comparator {
  #meaning
  #operator
  #semver

  static get ANY() { return ANY }

  constructor(comparator, options) {
    const meaning = meaningFor(options, [comparator])
    if (comparator instanceof Comparator && isSameMeaning(comparator.#meaning, meaning)) {
      return comparator
    }
    this.#meaning = meaning
    this.parse(isComparator(comparator) ? comparator.value : comparator)
  }

  /** Makes the comparator another one. */
  parse(comparator) {
    if (typeof comparator !== 'string') throw noString('comparator', comparator)
    const [, operator, version] = PARTS.exec(comparator.trim())
    const isAny = operator === '' && version === ''
    // As node-semver, which hands on the other options alone: a version has no rule for ranges.
    const semver = isAny ? ANY : parse(version.trim(), this.#meaning.with('by-dialect'))
    if (semver === null) throw new TypeError(`Invalid comparator: ${comparator}`)
    this.#operator = operator === '=' ? '' : operator
    this.#semver = semver
    identify(this, this.#meaning, 'value', isAny ? '' : this.#operator + semver.version)
  }

  get [MEANING]() { return this.#meaning }
  get options() { return this.#meaning.options }
  get loose() { return Boolean(this.#meaning.options.loose) }
  get operator() { return this.#operator }
  get semver() { return this.#semver }

  toString() { return this.value }

  toJSON() {
    const { options, loose, operator, semver, value } = this
    return { options, loose, operator, semver, value }
  }

  [Symbol.for('nodejs.util.inspect.custom')](depth, options, inspect) {
    return `Comparator ${inspect(this.toJSON(), options)}`
  }

  test(version) {
    if (this.#semver === ANY || version === ANY) return true
    checkDialect(this.#meaning, version)
    if (typeof version === 'string' && valid(version, this.#meaning) === null) return false
    return cmp(version, this.#operator, this.#semver, this.#meaning)
  }

  intersects(other, options) {
    if (!isComparator(other)) throw new TypeError('a Comparator is required')
    const meaning = options === undefined ? this.#meaning : meaningFor(options, [this, other])
    if (options === undefined) checkDialect(meaning, other)
    const [one, two] = [this, other].map((it) => readRange(it, meaning))
    return one.beside(two, 'range_is_apart') === 0
  }
}

// The comparators of one range, as strings: none twice, none that asks nothing beside others, and
// alone the one that no version satisfies.
function written(comparators, meaning) {
  const lowest = meaning.isIncluded ? '>=0.0.0-0' : '>=0.0.0'
  const values = new Set(comparators.map((it) => (it === lowest ? '' : it.replace(/^=/, ''))))
  if (values.has(NO_VERSION)) return [NO_VERSION]
  if (values.size > 1) values.delete('')
  return [...values]
}

/**
 * The ranges of a string as node-semver writes them, each a list of comparators, as strings; null
 * if it is invalid.
 */
export function rangesOf(string, meaning) {
  const { dialect, rule } = meaning
  const status = callWith('range_comparators', string, dialect, rule)
  if (status === OUT_OF_MEMORY) throw new RangeError('out of memory')
  if (status !== 0) return null
  const all = stringBack().split(' || ').map((range) => written(range.split(' '), meaning))
  const some = all.filter(([first]) => first !== NO_VERSION)
  const any = some.find(([first]) => first === '')
  return any ? [any] : some.length ? some : all.slice(0, 1)
}
