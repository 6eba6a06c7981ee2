// What `tsc --strict` accepts with the package's types, and what it rejects.
import * as semver from 'semver-parser-proved'
import satisfiesAlone = require('semver-parser-proved/functions/satisfies')
import RangeAlone = require('semver-parser-proved/classes/range')

const isMet: boolean = semver.satisfies('1.2.3', '^1', { dialect: 'cargo', preReleases: 'excluded' })
const isMetToo: boolean = satisfiesAlone('1.2.3', new RangeAlone('^1'), true)
const highest: string | null = semver.maxSatisfying(['1.2.3'], '^1', { includePrerelease: true })
const version: semver.SemVer | null = semver.parse('1.2.3', { loose: true })
const parts: ReadonlyArray<string | number> = version?.prerelease ?? []
const next: number = semver.major('1.2.3') + 1
const ofCargo: bigint = semver.major('1.2.3', { dialect: 'cargo' }) + 1n
const large: bigint | undefined = semver.parse('1.2.3', { dialect: 'cargo' })?.minor
const order: -1 | 0 | 1 = semver.compare('1.2.3', version ?? '1.2.4')
const sorted: string[] = semver.sort(['1.2.3'])
const kept: (string | semver.SemVer)[] = semver.filter(['1.2.3', ...(version ? [version] : [])], '1')
const valid: (string | null)[] = ['1.2.3'].map(semver.valid)
const why: semver.Explanation | null = semver.explainVersion('1.2')
const part: semver.Span | undefined = why?.span
const meant: string | null | undefined = why?.suggestion
const requirement: string | null = new semver.Range('^1').toRequirement()
const lost: string | null | undefined = semver.compareRanges('^1', '^1.2').lost?.releases
const values: string[] = new semver.Range('^1').set.flatMap((it) => it.map(({ value }) => value))
const written: semver.Term[] = semver.terms('^1.2 || 1 - 2', { loose: false })
const second: number | 'x' | 'X' | '*' | null | undefined = written[1].upper?.minor
const where: [number, number, boolean] = [written[0].start, written[0].version.end, written[0].version.hasV]
const incremented: string | null = semver.inc('1.2.3', 'prerelease', 'beta', false)
const ready: Promise<void> = semver.ready()
export { isMet, isMetToo, highest, parts, next, ofCargo, large, order, sorted, kept, valid, why, part, meant, requirement, lost, values, written, second, where, incremented, ready }

// @ts-expect-error: no dialect has this name
semver.valid('1.2.3', { dialect: 'yarn' })
// @ts-expect-error: a range is a string
semver.satisfies('1.2.3', 1)
// @ts-expect-error: Cargo's numbers are bigint
semver.major('1.2.3', { dialect: 'cargo' }) + 1
// @ts-expect-error: a field can't be written
new semver.SemVer('1.2.3').major = 5
// @ts-expect-error: no such kind of release
semver.inc('1.2.3', 'huge')

// Numbers have the type of the dialect, even through several calls: an object keeps its own
// dialect.
const C = { dialect: 'cargo' } as const
const sum: bigint = new semver.SemVer('1.2.3', C).major + semver.coerce('1.2.3', C)!.minor + semver.minVersion('1.2.3', C)!.patch
const bound = new semver.Range('1.2.3', C).set[0][0].semver
const ofBound: bigint = bound === semver.Comparator.ANY ? 0n : bound.major
const alone = new semver.Comparator('1.2.3', C).semver
const ofAlone: bigint = alone === semver.Comparator.ANY ? 0n : alone.major
const kept64: bigint = semver.minor(new semver.SemVer('1.2.3', C)) + semver.parse(new semver.SemVer('1.2.3', C))!.patch
const readAgain: number = new semver.SemVer(new semver.SemVer('1.2.3', C), { dialect: 'npm' }).major + new semver.SemVer('1.2.3', true).minor
const lowestOfNpm: number = semver.minVersion(new semver.Range('1.2.3', { includePrerelease: true }))!.major + semver.coerce(1)!.major
const either = (dialect: semver.Dialect, options: semver.Options, any: semver.AnyVersion): (number | bigint)[] => [
  semver.major('1.2.3', { dialect }), semver.minor('1.2.3', options), semver.patch(any), new semver.SemVer('1.2.3', options).major,
  semver.coerce('1.2.3', { dialect, rtl: true })!.major, semver.coerce(any)!.minor, semver.parse(any)!.patch, semver.minVersion('1', { dialect })!.major, semver.parse('1.2.3', options)!.major,
]
const reason: semver.Reason | undefined = why?.reason
const lowest: string | undefined = semver.compareRanges('^1', '^1.2').lost?.lowest
const place = (error: semver.SemverError): [string, number, number] => [error.kind, error.argument, error.span.end]
class Named extends semver.Range { readonly label: string = 'a' }
const satisfiedByAny: boolean = semver.satisfies(new semver.SemVer('1.2.3', C), new Named('^1'), C)
export { sum, ofBound, ofAlone, kept64, readAgain, lowestOfNpm, either, reason, lowest, place, satisfiedByAny }

const replaced: string = semver.replaceVersion('^1.2', written[0].version, new semver.SemVer('2.0.0'))
const upgraded: string | null = semver.upgrade('^1.2', new semver.SemVer('2.0.0'), { dialect: 'npm' })
const notRaised = (error: semver.UpgradeError): [string, string] => [error.range, error.version]
const componentOfCargo: bigint | 'x' | 'X' | '*' = semver.terms('1.2.3', C)[0].version.major
const termOfEither = (dialect: semver.Dialect): number | bigint | 'x' | 'X' | '*' => semver.terms('1', { dialect })[0].version.major
export { replaced, upgraded, notRaised, componentOfCargo, termOfEither }

// @ts-expect-error: there may be nothing to raise
const alwaysRaised: string = semver.upgrade('^1.2', '2.0.0')
// @ts-expect-error: a requirement is a string
semver.upgrade(new semver.Range('^1.2'), '2.0.0')

// @ts-expect-error: the terms are those of a string
semver.terms(new semver.Range('1'))
// @ts-expect-error: only a hyphen range has a second version
semver.terms('1')[0].upper.start
// @ts-expect-error: a component may be a wildcard
const noWildcard: number = semver.terms('1')[0].version.major
// @ts-expect-error: Cargo's components are bigint
const smallComponent: number | 'x' | 'X' | '*' = semver.terms('1', C)[0].version.major
// @ts-expect-error: Cargo's numbers are bigint in each class and call
new semver.SemVer('1.2.3', C).major + 1
// @ts-expect-error
semver.coerce('1.2.3', C)!.major + 1
// @ts-expect-error
semver.minVersion('1.2.3', C)!.major + 1
// @ts-expect-error
new semver.SemVer(new semver.SemVer('1.2.3', C)).major + 1
// @ts-expect-error
bound === semver.Comparator.ANY ? 0 : bound.major + 1
// @ts-expect-error: if the dialect isn't known, it may be either
semver.major('1.2.3', { dialect: 'npm' as semver.Dialect }) + 1
// @ts-expect-error: no reason has this name
const wrongReason: semver.Reason = 'broken'
// @ts-expect-error: there may be no suggestion
const repaired: string = semver.explainVersion('1.2')!.suggestion
// @ts-expect-error: there may be no pre-releases
const unchecked: string = semver.compareRanges('^1', '^1.2').lost!.preReleases
