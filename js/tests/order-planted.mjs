// Errors that make a result depend on earlier calls, as changes of the package's source. order.mjs
// has to find each of them.

// Replaces some lines that occur exactly once.
const inPlaceOf = (old, other) => (source) => {
  if (source.split(old).length !== 2) throw new Error(`not there once: ${old}`)
  return source.replace(old, () => other)
}

/** The package with slots for only two ranges, so that each range loses its slot all the time. */
export const withFewPlaces = inPlaceOf('const PLACES = 1000', 'const PLACES = 2')

export const PLANTED = [
  ['the last string is reset without its length', inPlaceOf(
    "const { range_best: call } = calls()\n  held = NOTHING\n",
    "const { range_best: call } = calls()\n  held = { ...held, string: '' }\n")],
  ['the last string is kept when others are written over it', inPlaceOf(
    'const { range_best: call } = calls()\n  held = NOTHING\n',
    'const { range_best: call } = calls()\n')],
  ['a string counts as the last one if it has its length', inPlaceOf(
    'if (string === held.string) return held.length',
    'if (string.length === held.string?.length) return held.length')],
  ["a range doesn't see that another one took its place", inPlaceOf(
    'if (owners[this.#place] === this || this.read())',
    'if (this.#place >= 0 || this.read())')],
  ['a range loses its place to the one that it is compared with', (source) => inPlaceOf(
    'const second = this.address && other.address\n    return calls()[call](this.address, second)',
    'const first = this.address\n    return calls()[call](first, other.address)',
  )(withFewPlaces(source))],
  ['a range is read by the options of the one before it', inPlaceOf(
    'range === lastString && isSameMeaning(meaning, lastMeaning)',
    'range === lastString')],
  ['the memory is seen as it was before it grew', inPlaceOf(
    'reserve(2 * (offset + length))\n  if (bytes.length === 0) refresh()\n',
    'reserve(2 * (offset + length))\n')],
  ['a buffer that moved is used at its former place', inPlaceOf(
    'buffer = { begin, capacity }\n}',
    'buffer = { begin: buffer.begin || begin, capacity }\n}')],
]
