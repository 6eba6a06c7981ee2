// Raises a requirement to a newer version, and keeps how it is written:
//
//     npm install FILE.tgz
//     node raise-requirement.cjs '~1.2 || ^2.0' 3.1.4 [DIALECT]
//
// prints `~1.2 || ^2.0 || ^3.1`. A range that has this version or a higher one is printed as it is.
// DIALECT is `npm`, the default, `cargo`, `crate-npm` or `crate-cargo`.
//
// The status is 0 if the range that is printed has the version or a higher one. It is 1 if the
// requirement can't be raised, such as `1.x` to 2.0.0-rc.1, and 2 if an argument is invalid.
'use strict'

const { upgrade, UpgradeError } = require('semver-parser-proved')

function main(range, version, dialect = 'npm', ...more) {
  if (version === undefined || more.length > 0) {
    console.error('usage: raise-requirement.cjs RANGE VERSION [npm|cargo|crate-npm|crate-cargo]')
    return 2
  }
  try {
    console.log(upgrade(range, version, { dialect }) ?? range)
    return 0
  } catch (error) {
    console.error(error.message)
    return error instanceof UpgradeError ? 1 : 2
  }
}

process.exitCode = main(...process.argv.slice(2))
