// Requirements that are raised.
import { stringBack, upgradeOnce } from './calls.mjs'
import { UpgradeError, invalidRange, invalidVersion, noString, stringOrNull } from './errors.mjs'
import { meaningFor } from './options.mjs'
import { stringOf } from './versions.mjs'

const INVALID_VERSION = -1
const INVALID_RANGE = -2
const CANNOT_UPGRADE = -4

/** A requirement that is raised to a version; null if it has one at or above that. */
export function upgrade(range, version, options) {
  const meaning = meaningFor(options, [version])
  if (typeof range !== 'string') throw noString('range', range)
  const string = stringOf(version)
  const returned = upgradeOnce(range, string, meaning.dialect, meaning.rule)
  if (returned === INVALID_VERSION) throw invalidVersion(string, meaning, 1)
  if (returned === INVALID_RANGE) throw invalidRange(range, meaning)
  if (returned === CANNOT_UPGRADE) throw new UpgradeError(range, string, stringBack())
  return stringOrNull(returned)
}
