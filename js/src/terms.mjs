// The terms of a range, as they are written.
import { OUT_OF_MEMORY, readTerms, replaceOnce, stringAt, stringBack } from './calls.mjs'
import { indicesIn, invalidRange, invalidVersion, noString } from './errors.mjs'
import { checkDialect, meaningOf } from './options.mjs'
import { stringOf } from './versions.mjs'

// A component by its kind and its number, which for a wildcard is that of its character: null if it
// isn't written.
function componentOf(kind, number, meaning) {
  if (kind === 0n) return null
  if (kind === 2n) return String.fromCharCode(Number(number))
  return meaning.isOfNpm ? Number(number) : number
}

// A version of its numbers, in a string in which an offset in bytes is an index.
function versionOf(numbers, string, meaning, indexAt) {
  const [start, end, hasV, ...parts] = numbers
  const part = (at) => {
    const begin = indexAt(parts[at])
    return string.slice(begin, begin + Number(parts[at + 1]))
  }
  return {
    start: indexAt(start),
    end: indexAt(end),
    hasV: hasV === 1n,
    major: componentOf(parts[0], parts[1], meaning),
    minor: componentOf(parts[2], parts[3], meaning),
    patch: componentOf(parts[4], parts[5], meaning),
    prerelease: part(6),
    build: part(8),
  }
}

function termOf(numbers, string, meaning, indexAt) {
  const [range, sign, signLength, start, end, hasUpper] = numbers
  return {
    range: Number(range),
    operator: stringAt(Number(sign), Number(signLength)),
    start: indexAt(start),
    end: indexAt(end),
    version: versionOf(numbers.slice(6, 19), string, meaning, indexAt),
    upper: hasUpper === 1n ? versionOf(numbers.slice(19), string, meaning, indexAt) : null,
  }
}

/** The terms of a range, in order. */
export function terms(range, options) {
  const meaning = meaningOf(options)
  if (typeof range !== 'string') throw noString('range', range)
  const read = readTerms(range, meaning.dialect)
  if (read === null) throw invalidRange(range, meaning)
  const isAscii = read.length === range.length
  const indexAt = isAscii ? Number : indicesIn(range)
  return read.terms.map((numbers) => termOf(numbers, range, meaning, indexAt))
}

// Whether a version of a term, if it has one, is the given one: at the same place, and the same.
const isWritten = (version, written) => version !== null &&
  Object.keys(version).every((key) => version[key] === written[key])

// How many bytes the beginning of a string has, up to an index.
const bytesBefore = (string, index) => new TextEncoder().encode(string.slice(0, index)).length

/** A range in which a version of a term has the numbers of another version, in its form. */
export function replaceVersion(range, written, version, options) {
  const meaning = meaningOf(options)
  checkDialect(meaning, version)
  if (typeof range !== 'string') throw noString('range', range)
  const string = stringOf(version)
  const versions = terms(range, options).flatMap((term) => [term.version, term.upper])
  if (!versions.some((it) => isWritten(it, written))) {
    throw new TypeError(`the range does not have this version at index ${written.start}`)
  }
  const begin = bytesBefore(range, written.start)
  const made = replaceOnce(range, begin, string, meaning.dialect)
  if (made === 0) return stringBack()
  if (made === OUT_OF_MEMORY) throw new RangeError('out of memory')
  throw made === -1 ? invalidVersion(string, meaning, 1) : invalidRange(range, meaning)
}
