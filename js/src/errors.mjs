// Where and why a string is an invalid version or range.
import { OUT_OF_MEMORY, callWith, numberAt, stringBack } from './calls.mjs'
import { reasonOf, sentenceOf } from './names.mjs'
import { field } from './options.mjs'

/** What returns the index in a string of the character at an offset in bytes. */
export function indicesIn(string) {
  const indices = []
  let index = 0
  for (const character of string) {
    const code = character.codePointAt(0)
    const length = code < 0x80 ? 1 : code < 0x800 ? 2 : code < 0x10000 ? 3 : 4
    for (let at = 0; at < length; at += 1) indices.push(index)
    index += character.length
  }
  indices.push(index)
  return (offset) => indices[Number(offset)]
}

/** The string that a call handed back, by what it returned; null if there is none. */
export function stringOrNull(returned) {
  if (returned === OUT_OF_MEMORY) throw new RangeError('out of memory')
  return returned === 0 ? stringBack() : null
}

/**
 * Gives an object `withCarets`, which is made when it is read. It isn't enumerable, so it isn't
 * shown or copied together with the fields that it repeats.
 */
function addCarets(object, kind, string, { dialect }) {
  const get = () => stringOrNull(callWith(`${kind}_with_carets`, string, dialect))
  return Object.defineProperty(object, 'withCarets', { get, configurable: true })
}

/** Where and why a version or a range is invalid, and what may be meant; null if it is valid. */
export function explained(kind, string, meaning) {
  const { dialect } = meaning
  const number = callWith(`${kind}_refused`, string, dialect)
  if (number === 0) return null
  if (number < 0) throw new RangeError('out of memory')
  const [offset, start, end] = [0, 1, 2].map(numberAt).map(indicesIn(string))
  const explanation = {
    offset,
    span: Object.freeze({ start, end }),
    reason: reasonOf(number),
    sentence: sentenceOf(number),
    suggestion: stringOrNull(callWith(`${kind}_suggested`, string, dialect)),
  }
  return addCarets(explanation, kind, string, meaning)
}

/** A string, as a message shows it. */
const shortened = (string) => (string.length > 80 ? `${string.slice(0, 80)}...` : string)

const BEGINS = { version: 'Invalid Version', range: 'Invalid SemVer Range' }

/** A version or a range is invalid. */
export class SemverError extends TypeError {
  static {
    Object.defineProperty(this.prototype, 'name', {
      value: 'SemverError', writable: true, configurable: true,
    })
  }

  constructor(kind, argument, input, explanation, meaning) {
    const { offset, sentence } = explanation
    super(`${BEGINS[kind]}: ${shortened(input)} (offset ${offset}: ${sentence})`)
    const fields = { kind, argument, input, ...explanation }
    for (const [name, value] of Object.entries(fields)) field(this, name, value)
    addCarets(this, kind, input, meaning)
  }
}

/** A requirement can't be raised to a version. */
export class UpgradeError extends TypeError {
  static {
    Object.defineProperty(this.prototype, 'name', {
      value: 'UpgradeError', writable: true, configurable: true,
    })
  }

  constructor(range, version, message) {
    super(message)
    field(this, 'range', range)
    field(this, 'version', version)
  }
}

/** Why a string wasn't read as a version. */
export const invalidVersion = (string, meaning, argument = 0) =>
  new SemverError('version', argument, string, explained('version', string, meaning), meaning)

/** Why a string wasn't read as a range: it is invalid, or memory ran out. */
export function invalidRange(string, meaning, argument = 0) {
  const explanation = explained('range', string, meaning)
  if (explanation === null) return new RangeError('out of memory')
  return new SemverError('range', argument, string, explanation, meaning)
}

export const noString = (what, value) =>
  new TypeError(`Invalid ${what}. Must be a string. Got type "${typeof value}".`)
