// The page: it passes what is typed to the package, which comes before this in the same script.

const COLUMNS = [
  ['cargo', 'Cargo'], ['npm', 'npm'],
  ['crate-cargo', 'semver-parser 0.10, Cargo mode'], ['crate-npm', 'semver-parser 0.10, npm mode'],
]
const FIELDS = ['range', 'other', 'versions', 'preReleases', 'dialect']

// So much is shown: of lines, of errors, of the characters of a string, and around an error.
const MOST_LINES = 1000, MOST_ERRORS = 100, LONGEST = 400, AROUND = 60
// A link with more characters isn't one that people send.
const LONGEST_LINK = 8000

const element = (id) => document.getElementById(id)
const state = () => Object.fromEntries(FIELDS.map((id) => [id, element(id).value]))
const clipped = (text) => (text.length > LONGEST ? `${text.slice(0, LONGEST)}…` : text)

function made(tag, className, text) {
  const it = document.createElement(tag)
  it.className = className
  it.textContent = clipped(text)
  return it
}

// A range that was read in a dialect; null if it is invalid.
function readIn(dialect, range, preReleases) {
  try {
    return new Range(range, { dialect, preReleases })
  } catch (error) {
    if (error instanceof SemverError) return null
    throw error
  }
}

// What is contained, lost or gained, in words.
function shownPart(part) {
  if (part === null) return 'nothing'
  const { releases, preReleases } = part
  return [releases, preReleases && `pre-releases ${preReleases}`].filter(Boolean).join(', ')
}

// ---- what the range contains in each dialect, and what another range loses and gains

// A range without any version: what a range loses to it is all that the range contains, printed as
// what is lost and gained.
const WITHOUT_VERSIONS = '<0.0.0-0'

function rangeRow([dialect, title], range, now) {
  const row = made('tr', '', '')
  const chosen = dialect === now.dialect ? ' chosen' : ''
  const options = { dialect, preReleases: now.preReleases }
  const contained = range && compareRanges(range, WITHOUT_VERSIONS, options).lost
  const shown = range ? shownPart(contained) : 'invalid'
  row.append(made('td', chosen, title), made('td', `range${chosen}`, shown))
  if (now.other.trim() === '') return row
  const other = readIn(dialect, now.other, now.preReleases)
  const changes = range && other && compareRanges(range, other, options)
  for (const part of ['lost', 'gained']) {
    row.append(made('td', `range${chosen}`, changes ? shownPart(changes[part]) : 'invalid'))
  }
  return row
}

function showRanges(ranges, now) {
  const heads = ['dialect', 'contains', ...(now.other.trim() === '' ? [] : ['lost', 'gained'])]
  element('range-heads').replaceChildren(...heads.map((it) => made('th', '', it)))
  element('ranges').replaceChildren(...COLUMNS.map((column, at) => rangeRow(column, ranges[at], now)))
}

// ---- the versions

// Whether a version is in a range in a dialect: `yes`, `no`, `invalid`, or `–` if the range is
// invalid.
function resultFor(version, range, dialect) {
  if (range === null) return '–'
  if (valid(version, { dialect }) === null) return 'invalid'
  return range.test(version) ? 'yes' : 'no'
}

function rowOf(version, ranges, now) {
  const results = COLUMNS.map(([dialect], at) => resultFor(version, ranges[at], dialect))
  const row = made('tr', new Set(results).size > 1 ? 'differs' : '', '')
  row.append(made('td', 'version', version))
  COLUMNS.forEach(([dialect], at) => {
    const chosen = dialect === now.dialect ? ' chosen' : ''
    row.append(made('td', (results[at] === '–' ? 'invalid' : results[at]) + chosen, results[at]))
  })
  return row
}

// ---- errors

// An invalid string, with carets under the part that the error is about, why it is invalid, and
// what may have been meant.
function errorOf(what, { dialect }, string, { offset, span, sentence, suggestion }) {
  const [, title] = COLUMNS.find(([name]) => name === dialect)
  const from = Math.max(0, offset - AROUND), until = Math.min(string.length, offset + AROUND)
  const start = Math.max(from, span.start), end = Math.min(until, span.end)
  const before = (from > 0 ? '…' : '') + string.slice(from, start)
  const after = string.slice(start, until) + (until < string.length ? '…' : '')
  const carets = '^'.repeat(Math.max(1, [...string.slice(start, end)].length))
  const section = made('div', 'error', '')
  section.append(made('div', '', `${title}: invalid ${what}: ${sentence}`))
  section.append(made('pre', '', `${before}${after}\n${' '.repeat([...before].length)}${carets}`))
  if (suggestion !== null) section.append(made('div', '', `Did you mean ${suggestion}?`))
  return section
}

function errorsOf(versions, now) {
  const { range, other, dialect } = now
  const ranges = other.trim() === '' ? [range] : [range, other]
  const explained = [
    ...ranges.map((it) => ['range', it, explainRange(it, { dialect })]),
    ...versions.map((it) => ['version', it, explainVersion(it, { dialect })]),
  ]
  return explained.filter(([, , why]) => why !== null).slice(0, MOST_ERRORS)
    .map(([what, string, why]) => errorOf(what, now, string, why))
}

// ---- all

const linkOf = (now) => {
  const link = `#${new URLSearchParams(now)}`
  return link.length > LONGEST_LINK ? '#' : link
}

function show() {
  const now = state()
  const lines = now.versions.split('\n').filter((it) => it.trim() !== '')
  const versions = lines.slice(0, MOST_LINES)
  const ranges = COLUMNS.map(([dialect]) => readIn(dialect, now.range, now.preReleases))
  showRanges(ranges, now)
  const heads = COLUMNS.map(([name, title], at) =>
    made('th', name === now.dialect ? 'chosen' : '', ranges[at] ? title : `${title}: invalid`))
  element('heads').replaceChildren(made('th', '', 'version'), ...heads)
  element('rows').replaceChildren(...versions.map((version) => rowOf(version, ranges, now)))
  element('more').hidden = lines.length === versions.length
  element('more').textContent = `The first ${versions.length} of ${lines.length} lines are shown.`
  element('errors').replaceChildren(...errorsOf(versions, now))
  element('link').href = linkOf(now)
}

// The state that the address has, if any.
function restore() {
  for (const [id, value] of new URLSearchParams(location.hash.slice(1))) {
    if (!FIELDS.includes(id)) continue
    const { options } = element(id)
    if (!options || [...options].some((it) => it.value === value)) element(id).value = value
  }
  show()
}

function keep() {
  history.replaceState(null, '', linkOf(state()))
  show()
}

await ready()
for (const id of FIELDS) element(id).addEventListener('input', keep)
addEventListener('hashchange', restore)
restore()
