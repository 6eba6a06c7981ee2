// A project that uses each name, member and path of `@types/semver` 7.5.8, written for these types.
// It compiles with them and, unchanged, with the types of the package installed as `semver`.
import * as semver from 'semver'
import all from 'semver'
import { Comparator, Options, Range, SemVer } from 'semver'
import satisfiesAlone = require('semver/functions/satisfies')
import incAlone = require('semver/functions/inc')
import subsetAlone = require('semver/ranges/subset')
import SemVerAlone = require('semver/classes/semver')
import RangeAlone = require('semver/classes/range')
import ComparatorAlone = require('semver/classes/comparator')
import preload = require('semver/preload')

declare const options: semver.Options
declare const rangeOptions: semver.RangeOptions
declare const either: boolean | semver.RangeOptions | undefined
declare const orLoose: boolean | semver.Options | undefined
declare const string: string
declare const versions: readonly string[]
const coerceOptions: semver.CoerceOptions = { rtl: true, loose: undefined, includePrerelease: undefined }
const base: semver.inc.IdentifierBase = '1'
const baseAlone: incAlone.IdentifierBase = base
const release: semver.ReleaseType = 'prerelease'
const operator: semver.Operator = '>='
const specVersion: '2.0.0' = semver.SEMVER_SPEC_VERSION
const types: semver.ReleaseType[] = semver.RELEASE_TYPES

// Versions: what the calls return has the types of `@types/semver`, with any options.
const one: SemVer | null = semver.parse(string)
const two: SemVer | null = semver.parse(null, options) ?? semver.parse(undefined, orLoose) ?? semver.parse(one, true)
const three: SemVer = new SemVer(string, rangeOptions)
const four: semver.SemVer = new semver.SemVer(three, orLoose)
const five: SemVer | null = semver.coerce(1, coerceOptions) ?? semver.coerce(three) ?? semver.coerce(undefined)
const six: SemVer | null = semver.minVersion(string, options) ?? semver.minVersion(new Range('^1'), orLoose)
const numbers: number[] = [
  semver.major(string), semver.minor(three, orLoose), semver.patch(string, options), three.major, four.minor, one ? one.patch : 0,
]
const validStrings: (string | null)[] = [
  semver.valid(string), semver.valid(one, orLoose), semver.valid(undefined), semver.clean(string, options), semver.inc(three, release, 'beta'),
  semver.inc(string, 'major', orLoose, 'beta'), semver.inc(string, 'minor', 'beta', false), incAlone(string, 'patch', 'beta', baseAlone),
]
const identifiers: ReadonlyArray<string | number> | null = semver.prerelease(three, orLoose)
const kind: semver.ReleaseType | null = semver.diff(string, three)
const fields: [string, boolean, Options, readonly string[], ReadonlyArray<string | number>] =
  [three.raw, three.loose, three.options, three.build, three.prerelease]
const strings: string[] = [three.version, three.format(), three.toString(), `${three}`]
const orders: (1 | 0 | -1)[] = [
  three.compare(four), three.compareMain(string), three.comparePre(four), three.compareBuild(string), semver.compare(string, three, orLoose),
  semver.rcompare(three, string, options), semver.compareLoose(string, string), semver.compareBuild(string, three, orLoose),
  semver.compareIdentifiers('1', null), semver.rcompareIdentifiers(undefined, 'a'),
]
const next: SemVer = three.inc('prerelease', 'beta')
const comparisons: boolean[] = [semver.gt, semver.gte, semver.lt, semver.lte, semver.eq, semver.neq].map((call) => call(string, three, orLoose))
const compared: boolean = semver.cmp(three, operator, string, options)
const sorted: string[] = semver.sort(semver.rsort([...versions], orLoose), options)
const sortedObjects: SemVer[] = semver.sort([three, four]).sort(semver.compare)

// Ranges.
const range: Range = new Range(new semver.Range(string, rangeOptions), either)
const satisfied: boolean[] = [
  semver.satisfies(string, range, either), satisfiesAlone(three, string), range.test(string), range.test(three), range.intersects(range, either),
  semver.intersects(range, string, either), semver.subset(string, range, rangeOptions), subsetAlone(string, string), semver.gtr(three, range, either),
  semver.ltr(string, range, either), semver.outside(three, range, '<', either),
]
const best: (string | null)[] = [semver.maxSatisfying(versions, range, either), semver.minSatisfying(versions, string, either)]
const bestObject: SemVer | null = semver.maxSatisfying([three, four], string)
const normal: (string | null)[] = [semver.validRange(range, either), semver.validRange(null), range.range, range.raw, range.format()]
const lists: string[][] = semver.toComparators(range, orLoose)
const simpler: string | Range = semver.simplifyRange([...versions], range, options)
const ofRange: [boolean, boolean, Options] = [range.loose, range.includePrerelease, range.options]
const set: ReadonlyArray<readonly Comparator[]> = range.set
const parts: readonly Comparator[] = range.parseRange(string)

// Comparators.
const comparator: Comparator = new Comparator(new semver.Comparator(string), orLoose)
const bound: SemVer = comparator.semver
const sign: '' | '=' | '<' | '>' | '<=' | '>=' = comparator.operator
const isEqual: boolean = comparator.operator === '=' || comparator.operator === ''
const ofComparator: [string, boolean, Options, number] = [comparator.value, comparator.loose, comparator.options, comparator.semver.major]
comparator.parse(string)
const tested: boolean = comparator.test(three) && comparator.intersects(comparator, options)

// What a project does with the names.
class Named extends Range { readonly label: string = 'a' }
interface Kept extends semver.RangeOptions { readonly kept: boolean }
interface Entry { version: SemVer, range: Range, options?: semver.Options }
const kept: Kept = { kept: true, includePrerelease: true }
const entry: Entry = { version: new SemVerAlone(string), range: new RangeAlone(string), options: kept }
const named: boolean = semver.satisfies(entry.version, new Named('^1'), kept)
const ofPath: Comparator = new ComparatorAlone('>1.2.3')
const samePath: typeof semver.valid = preload.valid
const picked: Pick<typeof semver, 'satisfies' | 'validRange'> = semver
const ofDefault: all.SemVer | null = all.parse(string, options)
const byMajor = (list: readonly SemVer[]): Map<number, SemVer> => new Map(list.map((it) => [it.major, it]))
function readOr (text: string, given: semver.Options): semver.SemVer { return semver.parse(text, given) ?? new semver.SemVer('0.0.0', given) }

export {
  two, five, six, specVersion, types, numbers, validStrings, identifiers, kind, fields, strings, orders, next, comparisons, compared, sorted, sortedObjects,
  satisfied, best, bestObject, normal, lists, simpler, ofRange, set, parts, bound, sign, isEqual, ofComparator, tested, named, ofPath, samePath, picked, ofDefault, byMajor, readOr,
}
