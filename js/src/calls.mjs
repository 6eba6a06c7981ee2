// The functions of the WebAssembly module, and the strings that are written into its memory.
//
// The module has one buffer for strings, which grows. A call reads all its arguments first and then
// writes them, so no code of a caller runs between the first byte that is written and the result.
//
// js/build.cjs puts the bytes of the module in place of this import, or where they are.
import { EMBEDDED, WHERE } from './module.mjs'

/** What a call returns if memory ran out. */
export const OUT_OF_MEMORY = -3

const encoder = new TextEncoder()
// A string may begin with U+FEFF, which is white space to npm.
const decoder = new TextDecoder('utf-8', { ignoreBOM: true })

let functions = null
let bytes, numbers
let buffer // where strings are written: { begin, capacity }, an address and a number of bytes

// The string at the beginning of the buffer, with its length in bytes. Both are replaced together,
// so that one can't be there without the other; no string is equal to that of NOTHING.
const NOTHING = Object.freeze({ string: null, length: 0 })
let held = NOTHING

function open(instance) {
  const { exports } = instance
  if (!(exports.memory instanceof WebAssembly.Memory) || typeof exports.numbers !== 'function') {
    throw new TypeError('the module is not that of this package')
  }
  functions = exports
  held = NOTHING
  buffer = { begin: 0, capacity: 0 }
  try {
    refresh()
    reserve(1024)
  } catch (error) {
    // So the next call opens it again.
    functions = null
    throw error
  }
}

// What sees the memory has to be made anew when that has grown.
function refresh() {
  bytes = new Uint8Array(functions.memory.buffer)
  numbers = new Uint32Array(functions.memory.buffer, functions.numbers(), 14)
}

// Two hexadecimal digits a byte: packed they take a seventh less than Base64.
function bytesOfModule(digits) {
  const valueAt = (index) => {
    const code = digits.charCodeAt(index)
    return code < 58 ? code - 48 : code - 87
  }
  const found = new Uint8Array(digits.length / 2)
  for (let at = 0; at < found.length; at += 1) {
    found[at] = 16 * valueAt(2 * at) + valueAt(2 * at + 1)
  }
  return found
}

/** The functions. The first call compiles the module, which takes milliseconds. */
export function calls() {
  if (functions === null) {
    if (EMBEDDED === null) throw new Error('the module is not compiled yet: await ready() first')
    init(bytesOfModule(EMBEDDED))
  }
  return functions
}

/** Takes a compiled module, or its bytes, in place of the one that the first call compiles. */
export function init(module) {
  const compiled = module instanceof WebAssembly.Module ? module : new WebAssembly.Module(module)
  if (functions === null) open(new WebAssembly.Instance(compiled))
}

/** Compiles the module if it isn't yet, without holding up the thread. */
export async function ready() {
  if (functions !== null) return
  const fetched = async () => (await fetch(WHERE)).arrayBuffer()
  const source = EMBEDDED === null ? await fetched() : bytesOfModule(EMBEDDED)
  init(await WebAssembly.compile(source))
}

// Makes the buffer larger. What was written to it is still there, and if memory ran out, so is the
// buffer itself.
function reserve(capacity) {
  const begin = functions.reserve(capacity)
  if (begin === 0) throw new RangeError('out of memory')
  buffer = { begin, capacity }
}

// Writes a string at an offset of the buffer, as UTF-8. Returns how many bytes it has.
function write(offset, string) {
  const { length } = string
  if (offset + length > buffer.capacity) reserve(2 * (offset + length))
  if (bytes.length === 0) refresh()
  if (length > 200) return writeUtf8(offset, string)
  const begin = buffer.begin + offset
  for (let index = 0; index < length; index += 1) {
    const code = string.charCodeAt(index)
    if (code > 127) return writeUtf8(offset, string)
    bytes[begin + index] = code
  }
  return length
}

function writeUtf8(offset, string) {
  const most = offset + 3 * string.length
  if (most > buffer.capacity) reserve(most)
  if (bytes.length === 0) refresh()
  const place = bytes.subarray(buffer.begin + offset, buffer.begin + buffer.capacity)
  return encoder.encodeInto(string, place).written
}

// Writes a string at the beginning of the buffer, if it isn't there yet. Returns how many bytes it
// has.
function hold(string) {
  if (string === held.string) return held.length
  held = NOTHING
  const length = write(0, string)
  held = { string, length }
  return length
}

/** Makes a call with the address and the length of a string, and then the other arguments. */
export function callWith(name, string, ...others) {
  const call = calls()[name]
  const length = hold(string)
  return call(buffer.begin, length, ...others)
}

/** Returns whether a version satisfies a range, or a negative number if one of them is invalid. */
export function askOnce(version, range, dialect, rule) {
  const { range_satisfied: call } = calls()
  const rangeLength = hold(range)
  const length = write(rangeLength, version)
  const { begin } = buffer
  return call(begin, rangeLength, begin + rangeLength, length, dialect, rule)
}

/** Returns 1 if a version is in a range that was read, 0 if not, and else a negative number. */
export function askRange(address, version) {
  const { range_has: call } = calls()
  const length = hold(version)
  return call(address, buffer.begin, length)
}

/** Returns how two versions compare by precedence; null if one is invalid. */
export function compareOnce(version, other, dialect) {
  const { version_compare: call } = calls()
  const length = hold(version)
  const otherLength = write(length, other)
  const { begin } = buffer
  const order = call(begin, length, begin + length, otherLength, dialect)
  return order < 0 ? null : order - 1
}

/** Reads a version into the numbers. Returns how many bytes it has, or -1 if it is invalid. */
export function readVersion(version, dialect) {
  const { version_read: call } = calls()
  const length = hold(version)
  return call(buffer.begin, length, dialect) === 0 ? length : -1
}

/** Returns the index of the best of some versions that are in a range; their number if none is. */
export function bestOf(address, versions, isLowest) {
  const { range_best: call } = calls()
  held = NOTHING
  const first = 4 * versions.length
  let end = first
  const lengths = versions.map((version) => {
    const length = write(end, version)
    end += length
    return length
  })
  if (end > buffer.capacity) reserve(end)
  if (bytes.length === 0) refresh()
  const { begin } = buffer
  new Uint32Array(bytes.buffer, begin, lengths.length).set(lengths)
  const index = call(address, begin, lengths.length, begin + first, isLowest ? 1 : 0)
  if (index < 0) throw new RangeError('out of memory')
  return index
}

/** A number of 64 bits that a call handed back, by its index: a BigInt. */
export function bigAt(index) {
  if (bytes.length === 0) refresh()
  return (BigInt(numbers[2 * index + 1]) << 32n) + BigInt(numbers[2 * index])
}

/** The same of a number that isn't above 2^53. */
export function numberAt(index) {
  if (bytes.length === 0) refresh()
  return numbers[2 * index] + numbers[2 * index + 1] * 2 ** 32
}

/** The string that a call handed back. */
export function stringBack() {
  const begin = numberAt(0)
  return decoder.decode(bytes.subarray(begin, begin + numberAt(1)))
}

/** A part of the string that was written last, of which the call handed back where it is. */
export function partOf(string, length, index) {
  const partLength = numberAt(index + 1)
  if (partLength === 0) return ''
  const begin = numberAt(index)
  if (string.length === length) return string.slice(begin, begin + partLength)
  return decoder.decode(bytes.subarray(buffer.begin + begin, buffer.begin + begin + partLength))
}

const NUMBERS_OF_TERM = 32

/**
 * Reads the terms of a range. Returns the numbers of each, and how many bytes the range has; null
 * if it is invalid or memory ran out.
 */
export function readTerms(range, dialect) {
  const { range_terms: call } = calls()
  const length = hold(range)
  const count = call(buffer.begin, length, dialect)
  if (count < 0) return null
  const begin = numberAt(0)
  const terms = Array.from({ length: count }, (_, index) => {
    const at = begin + 8 * NUMBERS_OF_TERM * index
    return [...new BigUint64Array(bytes.buffer, at, NUMBERS_OF_TERM)]
  })
  return { terms, length }
}

/**
 * Makes a range in which the version that begins at an offset has the numbers of another one.
 * Returns 0 if it was made, 1 if no version of the range begins there, or else a negative number.
 */
export function replaceOnce(range, start, version, dialect) {
  const { range_replaced: call } = calls()
  const rangeLength = hold(range)
  const length = write(rangeLength, version)
  const { begin } = buffer
  return call(begin, rangeLength, start, begin + rangeLength, length, dialect)
}

/**
 * Makes a range that is raised to a version. Returns 0 if it was made, 1 if there is nothing to do,
 * or else a negative number.
 */
export function upgradeOnce(range, version, dialect, rule) {
  const { range_upgraded: call } = calls()
  const rangeLength = hold(range)
  const length = write(rangeLength, version)
  const { begin } = buffer
  return call(begin, rangeLength, begin + rangeLength, length, dialect, rule)
}

/** A string of ASCII that is in the memory. */
export function stringAt(begin, length) {
  return decoder.decode(bytes.subarray(begin, begin + length))
}
