// Compares what check-lock-file lists for changed lock files with node-semver.
//
// `node planted-locks.js PROGRAM COUNT SEED FILE..`: each FILE is a yarn.lock, a package-lock.json
// with "packages", or the output of `cargo metadata`, for which nothing is listed. node-semver
// stands for Cargo too: they agree on carets and the versions used here. For each file it makes
// COUNT copies in which one package has another version, determines itself which requirements that
// breaks, and compares the lines. It prints the first difference, and then exits with 1.
'use strict'

const fs = require('fs')
const os = require('os')
const path = require('path')
const semver = require('semver')
const { spawnSync } = require('child_process')
const { Random } = require('./with-node-semver.js')

const VERSIONS = ['0.0.1', '1.0.0', '2.0.0-rc.1', '99.0.0', '1.2.3--canary.1']

// The requirements of a yarn.lock: who requires which name by which range, and the index of what is
// found.
function asksOfYarn (text) {
  const isBerry = text.includes('__metadata:')
  const blocks = text.split(/\n\n/).filter((it) => /^["@a-z]/i.test(it.trim()) && !it.startsWith('#'))
  const found = {}
  const packages = []
  for (const block of blocks) {
    const lines = block.split('\n').filter((it) => it && !it.startsWith('#'))
    const head = lines[0].slice(0, -1)
    if (head === '__metadata') continue
    const keys = isBerry ? head.replace(/^"|"$/g, '').split(', ') : head.split(/, (?=["@a-z])/i).map((it) => it.replace(/^"|"$/g, ''))
    const version = /^ {2}version:? "?([^"]*)"?$/m.exec(block)[1]
    const at = packages.push({ keys, version, needs: [] }) - 1
    let inside = ''
    for (const line of lines.slice(1)) {
      const section = /^ {2}(\w+):$/.exec(line)
      if (section) inside = section[1]
      else if (!line.startsWith('    ')) inside = ''
      const need = /^ {4}"?([^":]+?)"?:? "?([^"]*)"?$/.exec(line)
      if (need && /^(d|optionalD)ependencies$/.test(inside)) packages[at].needs.push([need[1], need[2]])
    }
    for (const key of keys) found[key.split('::')[0]] = at
  }
  const asks = []
  const asked = new Set()
  for (const it of packages) {
    const name = it.keys[0].slice(0, it.keys[0].indexOf('@', 1))
    for (const [need, spec] of it.needs) {
      asked.add(`${need}@${spec}`)
      const at = found[`${need}@${spec}`] ?? found[`${need}@npm:${spec}`]
      asks.push({ who: name, by: it, name: need, spec, at })
    }
  }
  if (!isBerry) {
    packages.forEach((it, at) => it.keys.filter((key) => !asked.has(key)).forEach((key) => {
      const end = key.indexOf('@', 1)
      asks.push({ who: 'the project', name: key.slice(0, end), spec: key.slice(end + 1), at })
    }))
  }
  return { packages, asks }
}

// The path at which a package of npm's tree finds a name: in its own node_modules, or in one
// further up.
function placeOf (entries, from, name) {
  for (let base = from; ;) {
    const place = `${base}${base === '' ? '' : '/'}node_modules/${name}`
    if (place in entries) return place
    if (base === '') return undefined
    base = base.slice(0, Math.max(base.lastIndexOf('node_modules/'), 0)).replace(/\/$/, '')
  }
}

// The requirements of a package-lock.json. If two kinds of dependencies have a name, the later one
// counts.
function asksOfNpm (text) {
  const entries = JSON.parse(text).packages
  const places = Object.keys(entries).filter((place) => place.includes('node_modules/') && entries[place].version)
  const packages = places.map((place) => ({ keys: [place], version: entries[place].version }))
  const asks = []
  for (const [place, it] of Object.entries(entries)) {
    const isOwn = !place.includes('node_modules/')
    const peers = Object.entries(it.peerDependencies ?? {})
      .filter(([name]) => !(it.peerDependenciesMeta ?? {})[name]?.optional)
    const needs = { ...Object.fromEntries(peers), ...it.dependencies, ...it.optionalDependencies, ...(isOwn ? it.devDependencies : {}) }
    for (const [need, spec] of Object.entries(needs)) {
      const at = places.indexOf(placeOf(entries, place, need))
      asks.push({ who: place === '' ? 'the project' : place, name: need, spec, at })
    }
  }
  return { packages, asks }
}

// The requirements in the output of `cargo metadata`.
function asksOfCargo (text) {
  const graph = JSON.parse(text)
  const packages = graph.packages.map((it) => ({ keys: [it.id], version: it.version }))
  const places = graph.packages.map((it) => it.id)
  const asks = []
  for (const node of graph.resolve.nodes) {
    const from = places.indexOf(node.id)
    const it = graph.packages[from]
    for (const dep of node.deps) {
      const at = places.indexOf(dep.pkg)
      const kinds = dep.dep_kinds.map(({ kind, target }) => `${kind} ${target}`)
      for (const need of it.dependencies) {
        if (need.name !== graph.packages[at].name || !kinds.includes(`${need.kind ?? null} ${need.target ?? null}`)) continue
        asks.push({ who: it.name, by: packages[from], name: need.name, spec: need.req, at })
      }
    }
  }
  return { packages, asks }
}

// The requirements of a file, by its kind.
const asksOf = (text) => !text.startsWith('{') ? asksOfYarn(text)
  : 'resolve' in JSON.parse(text) ? asksOfCargo(text) : asksOfNpm(text)

// A copy of JSON in which a package has another version.
function changedOfJson (text, place, version) {
  const lock = JSON.parse(text)
  const entry = lock.packages[place] ?? lock.packages.find((it) => it.id === place)
  entry.version = version
  return JSON.stringify(lock, null, 2)
}

// The range that is required, or null if it is invalid.
const rangeOf = (spec) => {
  const bare = spec.startsWith('npm:') ? spec.slice(4).replace(/^@?[^@]+@/, '') : spec.replace(/, */g, ' ')
  return semver.validRange(bare) === null ? null : bare
}

const whoIs = (ask) => ask.by === undefined ? ask.who
  : ask.by.version === '0.0.0-use.local' ? ask.who : `${ask.who} ${ask.by.version}`

// A copy of a yarn.lock in which a package has another version, or null if it isn't found.
function changedOfYarn (text, old, version) {
  const key = old.keys.length === 1 || text.includes('__metadata:') ? old.keys.join(', ') : null
  const begin = text.split('\n').findIndex((line) => line.endsWith(':') && !line.startsWith(' ') &&
    (key === null ? line.includes(old.keys[0]) && line.includes(old.keys[1]) : line.slice(0, -1).replace(/^"|"$/g, '') === key))
  const lines = text.split('\n')
  if (begin < 0) return null
  lines[begin + 1] = lines[begin + 1].replace(old.version, version)
  return lines.join('\n')
}

// A changed copy of a lock file, and the lines that have to be listed for it.
function planted (text, parsed, at, version) {
  const { packages, asks } = parsed
  const old = packages[at]
  const copy = text.startsWith('{') ? changedOfJson(text, old.keys[0], version) : changedOfYarn(text, old, version)
  if (copy === null) return null
  const changed = { ...old, version }
  const wanted = asks.filter((ask) => ask.at === at && rangeOf(ask.spec) !== null &&
    !semver.satisfies(version, rangeOf(ask.spec)))
    .map((ask) => `${ask.spec}\t${version}\t${whoIs({ ...ask, by: ask.by === old ? changed : ask.by })} requires ${ask.name}`)
  return { copy, wanted }
}

function main () {
  const [program, count, seed, ...files] = process.argv.slice(2)
  const random = new Random(Number(seed))
  const made = fs.mkdtempSync(path.join(os.tmpdir(), 'planted-'))
  process.on('exit', () => fs.rmSync(made, { recursive: true }))
  let copies = 0
  let errors = 0
  for (const file of files) {
    const text = fs.readFileSync(file, 'utf8')
    const parsed = asksOf(text)
    const name = path.basename(file)
    const folder = fs.mkdtempSync(path.join(made, 'copy-'))
    const manifest = path.join(path.dirname(file), 'package.json')
    if (fs.existsSync(manifest)) fs.copyFileSync(manifest, path.join(folder, 'package.json'))
    for (let done = 0; done < Number(count);) {
      const at = random.below(parsed.packages.length)
      const version = VERSIONS[random.below(VERSIONS.length)]
      if (parsed.packages[at].version.endsWith('use.local')) continue
      const plant = planted(text, parsed, at, version)
      if (plant === null) continue
      done += 1
      fs.writeFileSync(path.join(folder, name), plant.copy)
      const ran = spawnSync(program, ['--quiet', '--format', 'tsv', path.join(folder, name)], { encoding: 'utf8' })
      const listed = ran.stdout.split('\n').filter((it) => it !== '').sort()
      if (listed.join('\n') !== [...plant.wanted].sort().join('\n')) {
        console.log(`${file}: ${parsed.packages[at].keys[0]} with ${version}`)
        console.log('listed:', listed, 'wanted:', plant.wanted, ran.stderr)
        process.exit(1)
      }
      copies += 1
      errors += plant.wanted.length
    }
  }
  console.log(`${copies} changed copies, ${errors} planted errors: each is listed, and no other`)
}

main()
