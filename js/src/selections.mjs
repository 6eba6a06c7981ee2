// Which versions satisfy a range, and what two ranges have in common.
import { askOnce, bestOf } from './calls.mjs'
import { explained } from './errors.mjs'
import { isSameMeaning, meaningFor, meaningOf } from './options.mjs'
import { rangesOf } from './comparators.mjs'
import { Range, formatted, rangeStringOf, readRange, readRangeOrNull } from './ranges.mjs'
import { SemVer, compareListed, printedVersion, stringOf } from './versions.mjs'

// The string that was asked last as a range. It is read once it is asked again.
let lastString = ''
let lastMeaning = null
let lastRead = null

function readAgain(range, meaning) {
  if (typeof range !== 'string') return readRangeOrNull(range, meaning)
  if (lastMeaning !== null && range === lastString && isSameMeaning(meaning, lastMeaning)) {
    lastRead ??= readRangeOrNull(range, meaning)
    return lastRead
  }
  lastString = range
  lastMeaning = meaning
  lastRead = null
  return null
}

export function satisfies(version, range, options) {
  const meaning = meaningFor(options, [range, version])
  const string = version ? stringOf(version) : null
  const read = readAgain(range, meaning)
  if (string === null) return false
  if (read !== null) return read.has(string)
  return typeof range === 'string' && askOnce(string, range, meaning.dialect, meaning.rule) === 1
}

export function validRange(range, options) {
  const meaning = meaningFor(options, [range])
  const string = typeof range === 'string' ? range : readRangeOrNull(range, meaning)?.string
  const ranges = string === undefined ? null : rangesOf(string, meaning)
  return ranges === null ? null : formatted(ranges) || '*'
}

export function toComparators(range, options) {
  return new Range(range, options).set.map((comparators) => comparators.map(String))
}

export function explainRange(range, options) {
  const meaning = meaningFor(options, [range])
  return explained('range', rangeStringOf(range), meaning)
}

// The versions of a list that are any, with their strings, and what the options say of them.
function listed(versions, range, options) {
  const some = Array.from(versions).filter(Boolean)
  const meaning = meaningFor(options, [range, ...some])
  return [some.map((version) => ({ version, string: stringOf(version) })), meaning]
}

export function filter(versions, range, options) {
  const [entries, meaning] = listed(versions, range, options)
  const read = readRange(range, meaning, 1)
  return entries.filter(({ string }) => read.has(string)).map(({ version }) => version)
}

function best(versions, range, options, isLowest) {
  const [entries, meaning] = listed(versions, range, options)
  const read = readRangeOrNull(range, meaning)
  if (read === null) return null
  const index = bestOf(read.address, entries.map(({ string }) => string), isLowest)
  return index < entries.length ? entries[index].version : null
}

export const maxSatisfying = (versions, range, options) => best(versions, range, options, false)
export const minSatisfying = (versions, range, options) => best(versions, range, options, true)

export function minVersion(range, options) {
  const meaning = meaningFor(options, [range])
  const lowest = readRange(range, meaning).shown('range_lowest')
  return lowest === '' ? null : printedVersion(lowest, meaning)
}

// Two ranges that were read: each object by its own rule, unless the options say one.
function readBoth(range, other, options) {
  const given = meaningOf(options)
  return [[range, other], [other, range]].map((pair, at) =>
    readRange(pair[0], meaningFor(given, pair), at))
}

// What a call returns of two ranges.
function asked(range, other, options, call) {
  const [one, two] = readBoth(range, other, options)
  return one.beside(two, call)
}

export const intersects = (range, other, options) =>
  asked(range, other, options, 'range_is_apart') === 0
export const subset = (range, other, options) =>
  asked(range, other, options, 'range_is_within') === 1

export function compareRanges(range, other, options) {
  const [one, two] = readBoth(range, other, options)
  return { lost: one.without(two), gained: two.without(one) }
}

const BEYOND = { '>': '>=', '<': '<=' }

export function outside(version, range, side, options) {
  const meaning = meaningFor(options, [range, version])
  if (!Object.hasOwn(BEYOND, side)) throw new TypeError('Must provide a hilo val of "<" or ">"')
  const { version: string } = new SemVer(version, meaning)
  const read = readRange(range, meaning, 1)
  const beyond = readRange(BEYOND[side] + string, meaning.with('included'))
  return read.beside(beyond, 'range_is_apart') === 1
}

export const gtr = (version, range, options) => outside(version, range, '>', options)
export const ltr = (version, range, options) => outside(version, range, '<', options)

// A range of the versions of a list from an index to another: one to the last has no end.
function between(list, first, last) {
  if (last === list.length - 1) return first === 0 ? '*' : `>=${list[first]}`
  if (first === last) return `${list[first]}`
  return first === 0 ? `<=${list[last]}` : `${list[first]} - ${list[last]}`
}

export function simplifyRange(versions, range, options) {
  const list = Array.from(versions)
  const meaning = meaningFor(options, [range, ...list])
  list.sort((one, other) => compareListed(stringOf(one), stringOf(other), meaning))
  const isIn = list.map((version) => satisfies(version, range, meaning))
  const ranges = []
  let first = 0
  isIn.forEach((is, at) => {
    if (is && !isIn[at - 1]) first = at
    if (is && !isIn[at + 1]) ranges.push(between(list, first, at))
  })
  const simplified = ranges.join(' || ')
  const original = String(range?.raw ?? range)
  return simplified.length < original.length ? simplified : range
}
