// Writes the rows for numbers at the limit of a dialect in rust/tests/layers anew: which number is
// too large. `node tools/limit-rows.js JUDGE`. JUDGE is the built `limits-by-cargo-semver` of
// tools/comparisons, and NODE_PATH has to name the directory with npm's own modules (`$(npm root
// -g)/npm/node_modules`).
//
// The expected results come from node-semver, whose error says which of the three numbers of a
// comparator is too large, and from the crate `semver` if a number that is written is above Cargo's
// limit. node-semver's limit is 2^53 - 1, so for the other dialects it reads the same range with that
// number instead of 2^64 - 1, and with the operator that means the same to npm.
'use strict'

const { execFileSync } = require('child_process')
const fs = require('fs')
const path = require('path')
const semver = require('semver')

const CASES = path.join(__dirname, '..', 'rust', 'tests', 'layers')
const NAME = 'at_the_limit'
const LIMITS = { npm: 2n ** 53n - 1n, cargo: 2n ** 64n - 1n, 'crate-cargo': 2n ** 64n - 1n, 'crate-npm': 2n ** 64n - 1n }
const PLACES = ['major', 'minor', 'patch']

const OPERATORS = ['', '=', '<', '<=', '>', '>=', '~', '^']

// The numbers of the terms as differences from the limit, where 1 stands for itself. Each term has
// the limit.
const NUMBERS = [1, 2, 3].flatMap(numbersOf).filter((numbers) => numbers.includes('M'))

function numbersOf (count) {
  if (count === 0) return [[]]
  return numbersOf(count - 1).flatMap((numbers) => ['1', 'M', 'M+1'].map((next) => [...numbers, next]))
}

function written (numbers, limit) {
  return numbers.map((number) => ({ 1: 1n, M: limit, 'M+1': limit + 1n })[number]).join('.')
}

// A term with the meaning to npm that this term has in a dialect.
function termOfNpm (dialect, operator, numbers) {
  const isThree = numbers.length === 3
  if (operator === '' && (dialect === 'cargo' || (dialect === 'crate-cargo' && isThree))) return ['^', numbers]
  // In the dialects of the crate, `>1.2` is `>1.2.0`.
  if (operator === '>' && dialect.startsWith('crate')) return ['>', [...numbers, '0', '0'].slice(0, 3)]
  return [operator, numbers]
}

// The index of the number of a term that is too large to node-semver, or -1.
function byNpm (operator, numbers) {
  const text = operator + numbers.map((number) => (number === '0' ? '0' : written([number], LIMITS.npm))).join('.')
  try {
    new semver.Range(text) // eslint-disable-line no-new
    return -1
  } catch (error) {
    return PLACES.findIndex((place) => error.message === `Invalid ${place} version`)
  }
}

function rowsOf (dialect, indexOf) {
  const limit = LIMITS[dialect]
  return OPERATORS.flatMap((operator) => NUMBERS.map((numbers) => {
    const text = operator + written(numbers, limit)
    const index = indexOf(operator, numbers, text)
    const found = index < 0 ? 'a range' : tooLarge(dialect, operator, numbers, index)
    return [`${NAME}\trefused-range-as-${dialect}\t${text}`, `${NAME}: ${found}`]
  }))
}

function tooLarge (dialect, operator, numbers, index) {
  const offset = operator.length + numbers.slice(0, index).map((number) => written([number], LIMITS[dialect]).length + 1)
    .reduce((sum, length) => sum + length, 0)
  const reason = numbers[index] === 'M' ? 'bound-too-large' : 'too-large'
  return `${offset}: number too large, ${dialect === 'npm' ? 'npm-' : ''}${reason}`
}

// The index of a written number that is above the limit of the crate `semver`, by text.
function writtenTooLarge (judge) {
  const texts = OPERATORS.flatMap((operator) => NUMBERS.map((numbers) => operator + written(numbers, LIMITS.cargo)))
  const said = execFileSync(judge, { input: texts.join('\n') + '\n' }).toString().split('\n')
  return Object.fromEntries(texts.map((text, at) =>
    [text, PLACES.findIndex((place) => said[at] === `value of ${place} version number exceeds u64::MAX`)]))
}

function main ([judge]) {
  const above = writtenTooLarge(judge)
  const rows = Object.keys(LIMITS).flatMap((dialect) => rowsOf(dialect, (operator, numbers, text) =>
    dialect === 'cargo' && above[text] >= 0 ? above[text] : byNpm(...termOfNpm(dialect, operator, numbers))))
  for (const [at, name] of ['stdin', 'stdout'].entries()) {
    const file = path.join(CASES, name)
    const others = fs.readFileSync(file, 'utf8').split('\n').filter((line) => line && !line.startsWith(NAME))
    fs.writeFileSync(file, [...others, ...rows.map((row) => row[at])].join('\n') + '\n')
  }
}

main(process.argv.slice(2))
