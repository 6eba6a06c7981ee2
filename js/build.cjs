#!/usr/bin/env node
// Makes the package of js/ in a directory, of the module:
//
//     js/build.cjs MODULE DIRECTORY
//
// `index.cjs` has the module's bytes and js/src, without comments; `index.mjs` and the paths of
// node-semver (`functions/satisfies.js`) hand on what it has, so there is one state. `browser.mjs`
// has js/src without the bytes.
'use strict'
const fs = require('fs')
const path = require('path')

const [, , module_, directory] = process.argv
const js = __dirname
const PARTS = [
  'calls', 'names', 'options', 'errors', 'versions', 'increments', 'comparators', 'ranges',
  'selections', 'terms', 'upgrades',
]
const HEAD = '// Made of js/src, which has comments, and of the WebAssembly module.\n'

const read = (...names) => fs.readFileSync(path.join(js, ...names), 'utf8')

function write (name, text) {
  const file = path.join(directory, name)
  fs.mkdirSync(path.dirname(file), { recursive: true })
  fs.writeFileSync(file, text)
}

// Of a module of js/src what isn't an import, an export or a comment.
function sourceOf (part) {
  const text = read('src', `${part}.mjs`)
    .replace(/^import [^']*'[^']*'\n/gm, '')
    .replace(/^export /gm, '')
    .replace(/^\s*(\/\/.*|\/\*\*[^]*?\*\/)\n/gm, '')
  return text.trim()
}

const sources = PARTS.map(sourceOf).join('\n\n')
const exported = [...read('src', 'index.mjs').matchAll(/\{([^}]*)\}/g)]
const list = exported.flatMap(([, names]) => names.match(/\w+/g)).join(', ')
const bytes = fs.readFileSync(module_).toString('hex')

write('index.cjs', `${HEAD}'use strict'
const EMBEDDED = '${bytes}', WHERE = null

${sources}

module.exports = { ${list} }
`)
write('index.mjs', `${HEAD}import semver from './index.cjs'

export const { ${list} } = semver
export default semver
`)
write('browser.mjs', `${HEAD}const EMBEDDED = null
const WHERE = new URL('./semver_parser.wasm', import.meta.url)

${sources}

export { ${list} }
export default { ${list} }
`)

// The paths of node-semver: each has the call as its value.
const named = (calls) => Object.fromEntries(calls.split(' ').map((it) => [it, it]))
const PATHS = {
  classes: { SemVer: 'semver', Range: 'range', Comparator: 'comparator' },
  functions: named('clean cmp coerce compare compareBuild compareLoose diff eq gt gte inc lt lte ' +
    'major minor neq parse patch prerelease rcompare rsort satisfies sort valid'),
  ranges: {
    ...named('gtr intersects ltr maxSatisfying minSatisfying minVersion outside subset toComparators'),
    simplifyRange: 'simplify',
    validRange: 'valid',
  },
}
const dashed = (name) => name.replace(/[A-Z]/g, (it) => `-${it.toLowerCase()}`)
for (const [folder, calls] of Object.entries(PATHS)) {
  for (const [call, name] of Object.entries(calls)) {
    const file = `${folder}/${dashed(name)}`
    write(`${file}.js`, `module.exports = require('../index.cjs').${call}\n`)
    write(`${file}.d.ts`, `import { ${call} } from '../index.cjs'\nexport = ${call}\n`)
  }
}
const classes = Object.keys(PATHS.classes).join(', ')
write('classes/index.js', `const { ${classes} } = require('../index.cjs')
module.exports = { ${classes} }
`)
write('classes/index.d.ts', `export { ${classes} } from '../index.cjs'\n`)
for (const name of ['index', 'preload']) {
  write(`${name}.js`, "module.exports = require('./index.cjs')\n")
  write(`${name}.d.ts`, "export * from './index.cjs'\n")
}

write('index.d.cts', read('index.d.ts'))
for (const name of ['index.d.mts', 'browser.d.mts']) {
  write(name, "export * from './index.cjs'\nexport * as default from './index.cjs'\n")
}
for (const name of ['README.md', '../LICENSE-APACHE', '../LICENSE-MIT']) {
  write(path.basename(name), read(name))
}
const version = read('..', 'VERSION').trim()
write('package.json', read('package.json').replace(/"version": ".*?"/, `"version": "${version}"`))
fs.copyFileSync(module_, path.join(directory, 'semver_parser.wasm'))
