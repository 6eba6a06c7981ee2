// Random texts of npm's ranges, the versions to match them with, and what node-semver accepts or
// rejects by accident, because of how it replaces texts.
'use strict'

const ALPHABET = [...'01 .-*x<>=~^|va+']
const SIGNS = ['', '', '', '=', '<', '<=', '>', '>=', '~', '~>', '^', '^']
const COMPONENTS = ['0', '0', '1', '1', '2', '3', '10', 'x', 'X', '*']
const QUALIFIERS = ['', '', '', '', '-a', '-0', '-rc.1', '-01', '-a.01', '-1a', '-a-b', '--', '-', '-a..b', '+b', '+01', '-a+b', '+']
const SPACES = ['', '', '', '', ' ', '  ', '\t', '\u00a0', '\ufeff']
const BARS = ['||', ' || ', '|| ', ' ||']
const PRE_RELEASES = ['', '-0', '-0.0', '-1', '-a', '-a.0', '-b', '-rc.1', '-zz']

// What node-semver accepts although no page says so, each with a test of the text.
const ACCIDENTS = [
  ['more than one `v` or `=`, or white space between', /[v=]\s*[v=]|v\s/],
  ['white space within an operator', /[<>]\s+=|~\s+>/],
  ['a comparison after `~` or `^`', /[~^]>?\s*[<>=]/],
  ['an operator at a side of a hyphen range', /[<>=~^][^|]*\s-\s|\s-\s[^|]*[<>=~^]/],
  ['`*` next to what it replaces', /\*[^\s|.]|[^\s|.<>=~^v]\*|[<>=~^v]\s*\*\S|[^\s|<>][<>]?=\s*\*/]
]

// What it rejects although its pages allow it, by the same accident.
const REFUSALS = [
  ['`=` between white space after `v`, and before it a part of a pre-release that begins with digits', /[\dxX*]-(?:[0-9A-Za-z-]+\.)*\d+(?:v|[A-Za-z-][^\s|]*v)\s+=\s/]
]

function simple (random) {
  const components = Array.from({ length: random.of([1, 2, 3, 3]) }, () => random.of(COMPONENTS))
  const v = random.below(6) === 0 ? 'v' : ''
  return random.of(SIGNS) + random.of(SPACES) + v + components.join('.') + random.of(QUALIFIERS)
}

function range (random) {
  if (random.below(6) === 0) return `${simple(random).replace(/^[<>=~^]+\s*/, '')} - ${simple(random).replace(/^[<>=~^]+\s*/, '')}`
  return Array.from({ length: random.of([0, 1, 1, 1, 1, 2, 2, 3]) }, () => simple(random)).join(random.of([' ', '  ', '\t', '\u00a0']))
}

// Simple ranges that state nearly the same numbers. Those with three numbers mostly have a
// pre-release.
function related (random) {
  const numbers = [0, 0, 0].map(() => random.of([0, 0, 1, 2, 9]))
  const one = () => {
    const stated = numbers.slice(0, random.of([1, 2, 3, 3])).map((n) => n + (random.below(6) === 0 ? 1 : 0))
    const pre = stated.length === 3 && random.below(4) !== 0 ? random.of(['-0', '-a', '-a.0', '-rc.1', '-1']) : ''
    return random.of(['', '=', '<', '<=', '>', '>=', '~', '^']) + stated.join('.') + pre
  }
  return Array.from({ length: random.of([1, 2, 2, 3]) }, one).join(random.of([' ', ' ', ' || ']))
}

function text (random) {
  if (random.below(3) === 0) return related(random)
  return random.of(SPACES) + Array.from({ length: random.of([1, 1, 1, 2, 3]) }, () => range(random)).join(random.of(BARS)) + random.of(SPACES)
}

function changed (random) {
  const of = text(random)
  const at = random.below(of.length + 1)
  return of.slice(0, at) + random.of([...ALPHABET, '']) + of.slice(at + random.below(2))
}

// A word at the limits: numbers around 2^53 - 1 and with about 257 digits, identifiers of about 250
// and 256 characters, and words of about 256 characters.
const NUMBERS = ['9007199254740990', '9007199254740991', '9007199254740992', '18446744073709551616']
const LENGTHS = [249, 250, 251, 252, 255, 256, 257, 258]
const filled = (random, front, length) => front + Array.from({ length: length - front.length }, () => random.of([...'aZ-9b0'])).join('')

function limitedNumber (random) {
  if (random.below(8) === 0) return random.of(['x', 'X', '*'])
  if (random.below(20) === 0) return '1'.padEnd(random.of(LENGTHS), '0')
  return random.of(random.below(4) === 0 ? NUMBERS : ['0', '1', '2'])
}

function limitedIdentifier (random) {
  const kind = random.below(6)
  if (kind === 0) return '1'.padEnd(random.of(LENGTHS), '0')
  if (kind === 1) return filled(random, 'a', random.of(LENGTHS))
  if (kind === 2) return '2'.padEnd(random.of([1, 249, 255, 256, 257]), '3') + filled(random, 'b', random.of([1, 250, 251, 252]))
  return random.of(['a', '0', 'rc', '1', '9007199254740991'])
}

function limitedWord (random) {
  const numbers = Array.from({ length: random.of([1, 2, 3, 3, 3, 3]) }, () => limitedNumber(random))
  const parts = (mark) => numbers.length < 3 || random.below(2) ? '' : mark + Array.from({ length: random.of([1, 1, 2]) }, () => limitedIdentifier(random)).join('.')
  const v = random.below(3) ? '' : 'v'
  let [pre, build] = [parts('-'), parts('+')]
  const whole = () => v + numbers.join('.') + pre + build
  const missing = random.of([254, 255, 256, 257, 258]) - whole().length
  if (numbers.length === 3 && missing >= 2 && random.below(2)) {
    const more = filled(random, 'c', Math.min(missing - 1, 250))
    if (build || random.below(2)) build += (build ? '.' : '+') + more
    else pre += (pre ? '.' : '-') + more
  }
  return whole()
}

function limited (random) {
  if (random.below(4) === 0) return `${limitedWord(random)} - ${limitedWord(random)}`
  return Array.from({ length: random.of([1, 1, 1, 2]) }, () => random.of(SIGNS) + limitedWord(random)).join(random.of([' ', ' || ']))
}

// The versions to match a text with: the numbers that each simple range states, completed at
// random, and versions around these.
function asked (random, of) {
  const asked = []
  for (const part of of.split(/[\s|]+/).slice(0, 4)) {
    const stated = (part.split(/[-+]/)[0].match(/\d+/g) || []).slice(0, 3).map((n) => Math.min(Number(n), Number.MAX_SAFE_INTEGER))
    let numbers = [0, 1, 2].map((at) => stated[at] ?? random.of([0, 0, 1, 7]))
    for (let round = 0; round < 3; round++) {
      for (const pre of PRE_RELEASES) asked.push(numbers.join('.') + pre)
      const at = random.below(3)
      numbers = numbers.map((n, place) => place === at ? Math.min(Math.max(0, n + random.of([-1, 1, 1])), Number.MAX_SAFE_INTEGER) : n)
    }
  }
  for (const pre of ['', '-a']) asked.push('0.0.0' + pre, '99.0.0' + pre)
  return [...new Set(asked)]
}

// `>=0.0.0` with a build or a `v` matches everything here, but is a comparator in node-semver, even
// as the left side of a hyphen range. And with `includePrerelease`, the left side `1.2.3+b` begins
// with 1.2.3 in node-semver, since `-0` is put after the build. So node-semver gets the text
// without both.
const plain = (of) => of.replace(/\+[0-9A-Za-z.-]+/g, '').replace(/v0\.0\.0/g, '0.0.0')

const isOf = (of) => ([, ...tests]) => tests.every((test) => test.test(of))

module.exports = { ALPHABET, ACCIDENTS, REFUSALS, text, changed, limited, asked, plain, isOf }
