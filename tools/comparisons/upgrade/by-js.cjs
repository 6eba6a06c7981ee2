// Raises requirements by the JavaScript package: the same as by-rust.rs without an argument.
'use strict'

const { readFileSync, writeFileSync } = require('fs')
const { SemverError, UpgradeError, upgrade } = require('semver-parser-proved')

// Returns what is written for a case.
function result (range, version, dialect) {
  try {
    return upgrade(range, version, { dialect }) ?? '!none'
  } catch (error) {
    if (error instanceof UpgradeError) return '!cannot'
    if (!(error instanceof SemverError)) throw error
    return error.kind === 'version' ? '!version' : '!range'
  }
}

const fields = readFileSync(0, 'utf8').split('\0').slice(0, -1)
const results = []
for (let at = 0; at < fields.length; at += 3) {
  results.push(`${result(...fields.slice(at, at + 3))}\0`)
}
writeFileSync(1, results.join(''))
