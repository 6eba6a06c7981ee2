// The options of a call, and of the objects that are given to it.
import { numberOf } from './names.mjs'

/** Under it objects of the classes have the meaning by which they were read. */
export const MEANING = Symbol('meaning')

/** What options say. */
class Meaning {
  constructor(options, dialect, preReleases) {
    this.options = options
    this.name = dialect ?? 'npm'
    this.preReleases = preReleases ?? 'by-dialect'
    this.dialect = numberOr('dialect_name', this.name, 'dialect')
    this.rule = numberOr('rule_name', this.preReleases, 'rule for pre-releases')
    this.hasDialect = typeof dialect === 'string'
    this.hasRule = typeof preReleases === 'string'
    this.isOfNpm = this.name === 'npm'
    this.isIncluded = this.preReleases === 'included'
    this.isDefault = this.isOfNpm && this.preReleases === 'by-dialect'
  }

  /** The same dialect with a rule for pre-releases. */
  with(preReleases) {
    if (this.preReleases === preReleases) return this
    const { loose } = this.options
    return new Meaning({ loose, dialect: this.name, preReleases }, this.name, preReleases)
  }

  /** What these options say where an object is that was read by others. */
  beside(own) {
    if (this.hasDialect || own === null) return this
    if (this.hasRule) return own.dialect === this.dialect ? this : own.with(this.preReleases)
    // As node-semver, which reads a range with `includePrerelease` again without.
    return own.isOfNpm && own.isIncluded ? this : own
  }
}

function numberOr(call, name, what) {
  const number = numberOf(call, name)
  if (number === undefined) throw new TypeError(`unknown ${what}: ${String(name)}`)
  return number
}

const NONE = Object.freeze({})
const LOOSE = Object.freeze({ loose: true })
let byDefault = null

/**
 * What options say, each read once. As in node-semver what is no object stands for `loose`, by
 * which nothing is read otherwise: so `versions.map(valid)` may pass an index.
 */
export function meaningOf(options) {
  if (!options) {
    byDefault ??= new Meaning(NONE)
    return byDefault
  }
  if (options instanceof Meaning) return options
  if (typeof options !== 'object') return new Meaning(LOOSE)
  const { dialect, includePrerelease, preReleases, loose, rejectLoose } = options
  if (loose && rejectLoose) throw new TypeError('loose: versions and ranges are read strictly')
  if (includePrerelease && (preReleases ?? 'included') !== 'included') {
    throw new TypeError('includePrerelease contradicts preReleases')
  }
  const isSaid = includePrerelease !== undefined && includePrerelease !== null
  const rule = includePrerelease ? 'included' : isSaid ? 'by-dialect' : null
  return new Meaning(options, dialect, preReleases ?? rule)
}

// The meaning by which an object was read, also by another copy of the package or by node-semver;
// null of others. A version and a range have `raw`, and a comparator has `value`.
function ownMeaning(value) {
  if (value === null || typeof value !== 'object') return null
  const own = value[MEANING]
  if (own !== undefined) return own
  const { raw = value.value, options } = value
  return typeof raw === 'string' && options ? meaningOf(options) : null
}

const mixed = (own, other) =>
  new TypeError(`objects of two dialects, ${own.name} and ${other.name}: the options must say one`)

/**
 * What options say of versions and ranges. If they say no dialect, it is that of the objects among
 * these; and the rule is then that of the first object, if options say none.
 */
export function meaningFor(options, values) {
  const given = meaningOf(options)
  if (given.hasDialect) return given
  let own = null
  for (const value of values) {
    const its = ownMeaning(value)
    if (its !== null && own !== null && its.dialect !== own.dialect) throw mixed(own, its)
    own ??= its
  }
  return given.beside(own)
}

/** Throws if a value that a method takes is of another dialect than the method's object. */
export function checkDialect(meaning, value) {
  const its = ownMeaning(value)
  if (its !== null && its.dialect !== meaning.dialect) throw mixed(meaning, its)
}

/** Whether two meanings are the same. */
export function isSameMeaning(one, other) {
  return one.dialect === other.dialect && one.rule === other.rule
}

/** Gives an object a field of its own that can't be written. */
export function field(object, name, value) {
  Object.defineProperty(object, name, { value, enumerable: true, configurable: true })
}

/**
 * Gives an object of a class the fields of its own by which `assert.deepStrictEqual` compares it.
 * Each takes a third of the time of `new SemVer`, so options are such a field only if they change
 * what is read.
 */
export function identify(object, meaning, name, value) {
  field(object, name, value)
  if (!meaning.isDefault) field(object, 'options', meaning.options)
}
