// What makes a version of another version or string: by hand, as node-semver's README says, and not
// proved. That a result is a version, the module says.
import { compare, compareIdentifiers, parse, valid } from './versions.mjs'
import { meaningFor, meaningOf } from './options.mjs'
import { noString } from './errors.mjs'

export const SEMVER_SPEC_VERSION = '2.0.0'

export const RELEASE_TYPES = Object.freeze([
  'major', 'premajor', 'minor', 'preminor', 'patch', 'prepatch', 'prerelease',
])

const wrong = (why) => new Error(`invalid increment argument: ${why}`)

// The identifiers of the next pre-release after some.
function nextPre(pre, identifier, identifierBase) {
  const base = Number(identifierBase) ? 1 : 0
  if (!identifier && identifierBase === false) throw wrong('identifier is empty')
  const last = pre.findLastIndex((it) => typeof it === 'number')
  if (identifier && identifierBase === false && last < 0 && identifier === pre.join('.')) {
    throw wrong('identifier already exists')
  }
  const raised = last < 0 ? [...pre, base] : pre.map((it, index) => (index === last ? it + 1 : it))
  if (!identifier) return raised
  const isSame = pre.length > 0 && compareIdentifiers(pre[0], identifier) === 0
  if (isSame && !Number.isNaN(Number(raised[1]))) return raised
  return identifierBase === false ? [identifier] : [identifier, base]
}

const zero = (number) => (typeof number === 'bigint' ? 0n : 0)
const more = (number) => (typeof number === 'bigint' ? number + 1n : number + 1)

// The three numbers of the next release.
function nextNumbers({ major, minor, patch, prerelease }, release) {
  const isRelease = prerelease.length === 0
  const none = zero(major)
  if (release === 'patch') return [major, minor, isRelease ? more(patch) : patch]
  if (release === 'minor') return [major, patch || isRelease ? more(minor) : minor, none]
  return [minor || patch || isRelease ? more(major) : major, none, none]
}

// The three numbers of the next version, and the identifiers of its pre-release.
function nextParts(version, release, identifier, identifierBase) {
  const { major, minor, patch, prerelease } = version
  const none = zero(major)
  const pre = (before) => nextPre(before, identifier, identifierBase)
  const isRelease = prerelease.length === 0
  switch (release) {
    case 'major': case 'minor': case 'patch': return [nextNumbers(version, release), []]
    case 'premajor': return [[more(major), none, none], pre([])]
    case 'preminor': return [[major, more(minor), none], pre([])]
    case 'prepatch': return [[major, minor, more(patch)], pre([])]
    case 'prerelease': return [[major, minor, isRelease ? more(patch) : patch], pre(prerelease)]
    case 'pre': return [[major, minor, patch], pre(prerelease)]
    default: throw wrong(release)
  }
}

/** The string of the next version, with the build metadata of the one before. */
export function incremented(version, release, identifier, identifierBase) {
  const { build } = version
  const [numbers, pre] = nextParts(version, release, identifier, identifierBase)
  const before = pre.length ? `${numbers.join('.')}-${pre.join('.')}` : numbers.join('.')
  return build.length ? `${before}+${build.join('.')}` : before
}

export function inc(version, release, options, identifier, identifierBase) {
  if (typeof options === 'string') return inc(version, release, undefined, options, identifier)
  const meaning = meaningFor(options, [version])
  const found = parse(version, meaning)
  if (found === null) return null
  try {
    return valid(incremented(found, release, identifier, identifierBase), meaning)
  } catch {
    return null
  }
}

export function diff(version, other) {
  const meaning = meaningFor(null, [version, other])
  const order = compare(version, other, meaning)
  if (order === 0) return null
  const [one, two] = [version, other].map((it) => parse(it, meaning, true))
  const [high, low] = order > 0 ? [one, two] : [two, one]
  const toRelease = low.prerelease.length > 0 && high.prerelease.length === 0
  if (toRelease) {
    if (low.minor === 0 && low.patch === 0) return 'major'
    if (high.patch !== 0) return 'patch'
    return high.minor !== 0 ? 'minor' : 'major'
  }
  const prefix = high.prerelease.length ? 'pre' : ''
  for (const part of ['major', 'minor', 'patch']) if (one[part] !== two[part]) return prefix + part
  return 'prerelease'
}

export function clean(version, options) {
  const meaning = meaningOf(options)
  if (typeof version !== 'string') throw noString('version', version)
  const found = parse(version.trim().replace(/^[=v]+/, ''), meaning)
  return found === null ? null : found.version
}

// Up to three numbers of at most 16 digits, which no digits are before or after.
const NUMBERS = String.raw`(?<!\d)(\d{1,16})(?:\.(\d{1,16}))?(?:\.(\d{1,16}))?`
const dotted = (one) => String.raw`${one}(?:\.${one})*`
const PRE = dotted(String.raw`(?:0|[1-9]\d*|\d*[A-Za-z-][0-9A-Za-z-]*)`)
const BUILD = dotted('[0-9A-Za-z-]+')
const COERCED = new RegExp(String.raw`${NUMBERS}(?!\d)`, 'g')
const WHOLE = String.raw`${NUMBERS}(?:-(${PRE}))?(?:\+(${BUILD}))?`
const COERCED_WHOLE = new RegExp(String.raw`${WHOLE}(?!\d)`, 'g')

export function coerce(version, options) {
  const meaning = meaningFor(options, [version])
  if (typeof version === 'object') return parse(version, meaning)
  const string = typeof version === 'number' ? String(version) : version
  if (typeof string !== 'string') return null
  const { rtl } = meaning.options
  const found = coerced(string, meaning.isIncluded ? COERCED_WHOLE : COERCED, rtl)
  if (found === null) return null
  const [, major, minor = '0', patch = '0', pre, build] = found
  const text = `${major}.${minor}.${patch}${pre ? `-${pre}` : ''}${build ? `+${build}` : ''}`
  return parse(text, meaning)
}

function coerced(string, pattern, rtl) {
  let found = null
  for (let at = 0; at < string.length; at += 1) {
    pattern.lastIndex = at
    const next = pattern.exec(string)
    if (next === null) return found
    if (!rtl) return next
    const end = next.index + next[0].length
    if (found === null || end > found.index + found[0].length) found = next
    at = next.index
  }
  return found
}
