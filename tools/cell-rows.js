// Writes the rows for each form of a term in rust/tests/layers anew, as npm and Cargo read it:
// `node tools/cell-rows.js JUDGE`. JUDGE is the built `versions-by-cargo-semver` of
// tools/comparisons, and NODE_PATH has to name the directory with npm's own modules (`$(npm root
// -g)/npm/node_modules`).
//
// The expected results come from node-semver, by default and with `includePrerelease`, and from the
// crate `semver`. Each operator is combined with zero to three numbers, with zeros and with a
// pre-release. Each such range is matched with the versions at and around its bounds.
'use strict'

const { execFileSync } = require('child_process')
const fs = require('fs')
const path = require('path')
const semver = require('semver')

const CASES = path.join(__dirname, '..', 'rust', 'tests', 'layers')
const NAMES = ['each_term_by_npm', 'each_term_by_cargo']

const OPERATORS = ['', '=', '<', '<=', '>', '>=', '~', '^']
const PARTIALS = ['*', '1', '0', '1.2', '0.2', '0.0', '1.2.3', '0.2.3', '0.0.3', '0.0.0',
  '1.2.3-b', '0.2.3-b', '0.0.3-b', '0.0.0-b']
const HYPHENS = PARTIALS.flatMap((left) => ['*', '1.2', '1.2.3', '1.2.3-b'].map((right) => `${left} - ${right}`))

const VERSIONS = ['0.0.0-0', '0.0.0-a', '0.0.0-b', '0.0.0-c', '0.0.0', '0.0.1-0', '0.0.1', '0.0.2',
  '0.0.3-0', '0.0.3-a', '0.0.3-b', '0.0.3-c', '0.0.3', '0.0.4-0', '0.0.4', '0.0.9', '0.1.0-0', '0.1.0',
  '0.1.9', '0.2.0-0', '0.2.0', '0.2.2', '0.2.3-0', '0.2.3-a', '0.2.3-b', '0.2.3-c', '0.2.3', '0.2.4-0',
  '0.2.4', '0.2.9', '0.3.0-0', '0.3.0', '0.9.9', '1.0.0-0', '1.0.0', '1.1.9', '1.2.0-0', '1.2.0',
  '1.2.2', '1.2.3-0', '1.2.3-a', '1.2.3-b', '1.2.3-c', '1.2.3', '1.2.4-0', '1.2.4', '1.2.9',
  '1.3.0-0', '1.3.0', '1.9.9', '2.0.0-0', '2.0.0', '3.0.0']

function row (name, call, range, matches) {
  const kept = matches && VERSIONS.filter((version, at) => matches[at])
  return [`${name}\t${call}\t${range}\t${VERSIONS.join(' ')}`,
    `${name}: ${kept ? ['means', ...kept].join(' ') : 'not-a-range'}`]
}

function byNpm (range, call, options) {
  const matches = semver.validRange(range) === null
    ? null
    : VERSIONS.map((version) => semver.satisfies(version, range, options))
  return row(NAMES[0], call, range, matches)
}

// Matches each range with each version by the program.
function byCargo (judge, ranges) {
  const input = ranges.flatMap((range) => VERSIONS.map((version) => `${range}\t${version}`)).join('\n')
  const said = execFileSync(judge, { input }).toString().split('\n')
  return ranges.map((range, at) => {
    const own = said.slice(at * VERSIONS.length, (at + 1) * VERSIONS.length)
    return row(NAMES[1], 'meant-as-cargo', range, own.includes('none') ? null : own.map((word) => word === 'true'))
  })
}

function main ([judge]) {
  const terms = OPERATORS.flatMap((operator) => PARTIALS.map((partial) => operator + partial))
  const rows = [...terms, ...HYPHENS].flatMap((range) => [
    byNpm(range, 'meant-as-npm', {}),
    byNpm(range, 'meant-with-all-as-npm', { includePrerelease: true })
  ]).concat(byCargo(judge, terms))
  for (const [at, name] of ['stdin', 'stdout'].entries()) {
    const file = path.join(CASES, name)
    const others = fs.readFileSync(file, 'utf8').split('\n').slice(0, -1)
      .filter((line) => !NAMES.some((own) => line.startsWith(own)))
    fs.writeFileSync(file, [...others, ...rows.map((it) => it[at])].map((line) => `${line}\n`).join(''))
  }
  console.log(`${rows.length} rows`)
}

main(process.argv.slice(2))
