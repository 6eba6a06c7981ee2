// The messages of the JavaScript package, with carets. main.rs says how calls are read and messages
// are written.
'use strict'
const { readFileSync } = require('node:fs')
const { Range, SemVer, UpgradeError, upgrade } = require(process.argv[2])

function messageOf(what, dialect, string, version) {
  try {
    if (what === 'version') new SemVer(string, { dialect })
    else if (what === 'range') new Range(string, { dialect })
    else upgrade(string, version, { dialect })
    return ''
  } catch (error) {
    return error instanceof UpgradeError ? error.message : error.withCarets
  }
}

const fields = readFileSync(0, 'utf8').split('\0')
for (let at = 0; at + 4 < fields.length; at += 4) {
  process.stdout.write(`${messageOf(...fields.slice(at, at + 4))}\0`)
}
