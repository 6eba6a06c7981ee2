// What the package exports.
export { init, ready } from './calls.mjs'
export { SemverError, UpgradeError } from './errors.mjs'
export {
  SemVer, cmp, compare, compareBuild, compareIdentifiers, compareLoose, eq, explainVersion, gt, gte,
  lt, lte, major, minor, neq, parse, patch, prerelease, rcompare, rcompareIdentifiers, rsort, sort,
  valid,
} from './versions.mjs'
export { RELEASE_TYPES, SEMVER_SPEC_VERSION, clean, coerce, diff, inc } from './increments.mjs'
export { Comparator } from './comparators.mjs'
export { Range } from './ranges.mjs'
export {
  compareRanges, explainRange, filter, gtr, intersects, ltr, maxSatisfying, minSatisfying,
  minVersion, outside, satisfies, simplifyRange, subset, toComparators, validRange,
} from './selections.mjs'
export { replaceVersion, terms } from './terms.mjs'
export { upgrade } from './upgrades.mjs'
