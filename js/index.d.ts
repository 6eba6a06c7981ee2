/** Whose rules apply to strings. `crate-cargo` and `crate-npm` are the modes of the Rust crate `semver-parser`. */
export type Dialect = 'npm' | 'cargo' | 'crate-npm' | 'crate-cargo'

/** The type of a dialect's numbers: `number` in npm's dialect, and `bigint` in the others, whose numbers have 64 bits. */
export type NumberOf<D extends Dialect> = D extends 'npm' ? number : bigint

/** The options of a call. `Options` without a type argument is for npm's dialect only, as in `@types/semver`. */
export interface Options<D extends Dialect = 'npm'> {
  /** Whose rules apply. The default is the dialect of the objects that are passed, or npm's if none is passed. */
  dialect?: D | undefined
  /** Whether all pre-releases within the bounds satisfy a range. This is node-semver's option; `true` means `preReleases: 'included'`. */
  includePrerelease?: boolean | undefined
  /** Which pre-releases satisfy a range: those that the tool accepts by default, all within the bounds, or none. */
  preReleases?: 'by-dialect' | 'included' | 'excluded' | undefined
  /** Has no effect, unless `rejectLoose` is true: versions and ranges are always read strictly. */
  loose?: boolean | undefined
  /** Whether the call throws a `TypeError` if `loose` is true. */
  rejectLoose?: boolean | undefined
}

/** The same type as `Options`, by its name in `@types/semver`. */
export interface RangeOptions<D extends Dialect = 'npm'> extends Options<D> {}

/** The options of `coerce`. */
export interface CoerceOptions<D extends Dialect = 'npm'> extends Options<D> {
  /** Whether the last version of the string is returned instead of the first. */
  rtl?: boolean | undefined
}

/** Options, or `true`, which means `{ loose: true }`. */
export type OptionsOrLoose<D extends Dialect = 'npm'> = Options<D> | boolean | null | undefined

/** Options without a dialect: an object keeps its own. */
type WithoutDialect = (Options & { dialect?: undefined }) | boolean | null | undefined

export type ReleaseType = 'major' | 'premajor' | 'minor' | 'preminor' | 'patch' | 'prepatch' | 'prerelease'
export type Operator = '===' | '!==' | '' | '=' | '==' | '!=' | '>' | '>=' | '<' | '<='

/** A version. Its numbers are `bigint` in the dialects of 64 bits. */
export declare class SemVer<D extends Dialect = 'npm'> {
  /** Throws a `SemverError` if the version is invalid. */
  constructor(version: string | SemVer<D>, options?: WithoutDialect)
  constructor(version: AnyVersion, options: OptionsOrLoose<D>)
  readonly options: Options<D>
  readonly loose: boolean
  readonly includePrerelease: boolean
  /** The string that was read. */
  readonly raw: string
  readonly major: NumberOf<D>
  readonly minor: NumberOf<D>
  readonly patch: NumberOf<D>
  /** The pre-release identifiers. One that is only digits is a number if it is below 2^53 - 1, and otherwise a string. */
  readonly prerelease: ReadonlyArray<string | number>
  /** The build identifiers. */
  readonly build: readonly string[]
  /** The version without build metadata, such as `1.2.3-rc.1`. */
  readonly version: string
  /** Returns `version`. */
  format(): string
  toString(): string
  /** Returns all fields; a `bigint` becomes a string of its digits. */
  toJSON(): object
  /** Compares by precedence: -1, 0 or 1. */
  compare(other: AnyVersion): -1 | 0 | 1
  /** Compares only the three numbers. */
  compareMain(other: AnyVersion): -1 | 0 | 1
  /** Compares only the pre-releases. */
  comparePre(other: AnyVersion): -1 | 0 | 1
  /** Compares only the build metadata. */
  compareBuild(other: AnyVersion): -1 | 0 | 1
  /**
   * Changes the version to the next one, and returns it. Throws an `Error` if there is no such kind of release, and a
   * `SemverError` if the next version would be invalid.
   */
  inc(release: ReleaseType | 'pre', identifier?: string, identifierBase?: inc.IdentifierBase | false): this
}

/** A version: a string, or an object. */
export type AnyVersion = string | SemVer<Dialect>

/** A comparator: an operator and a version. */
export declare class Comparator<D extends Dialect = 'npm'> {
  /** The symbol that is the value of `semver` if every version satisfies the comparator. It has the type of `semver`, as in `@types/semver`. */
  static readonly ANY: SemVer<any>
  /** Throws a `TypeError` if the comparator is invalid. */
  constructor(comparator: string | Comparator<D>, options?: WithoutDialect)
  constructor(comparator: string | Comparator<Dialect>, options: OptionsOrLoose<D>)
  readonly options: Options<D>
  readonly loose: boolean
  /** Never `=`, which is written as `''`. The type has it, as in `@types/semver`. */
  readonly operator: '' | '=' | '<' | '>' | '<=' | '>='
  readonly semver: SemVer<D>
  readonly value: string
  toString(): string
  toJSON(): object
  /** Changes the comparator to another one. Throws a `TypeError` if that is invalid. */
  parse(comparator: string): void
  test(version: AnyVersion): boolean
  intersects(other: Comparator<Dialect>, options?: OptionsOrLoose<Dialect>): boolean
}

/** A range that was read. */
export declare class Range<D extends Dialect = 'npm'> {
  /** Throws a `SemverError` if the range is invalid. */
  constructor(range: RangeOf<D>, options?: WithoutDialect)
  constructor(range: AnyRange, options: OptionsOrLoose<D>)
  readonly options: Options<D>
  readonly loose: boolean
  readonly includePrerelease: boolean
  /** The string that was read, with single spaces. */
  readonly raw: string
  /** The comparators of each range between `||`. */
  readonly set: ReadonlyArray<readonly Comparator<D>[]>
  /** The normal form, such as `>=1.2.0 <2.0.0-0`. It is npm's in each dialect. */
  readonly range: string
  format(): string
  toString(): string
  /**
   * Returns a string that reads back, with the options of the range, as a range of the same versions, in the syntax of
   * its dialect: what can be written into a package.json or a Cargo.toml. It is null if no such string was found.
   */
  toRequirement(): string | null
  toJSON(): object
  /** Returns the comparators of another range with the options of this one. If the range has several parts, they are those of the first. */
  parseRange(range: string): readonly Comparator<D>[]
  test(version: AnyVersion | null | undefined): boolean
  intersects(other: Range<Dialect>, options?: OptionsOrLoose<Dialect>): boolean
}

/** A range: a string, or an object of a dialect. */
type RangeOf<D extends Dialect> = string | Range<D> | Comparator<D>

/** A range: a string, or an object. */
export type AnyRange = RangeOf<Dialect>

/** The reason why a string is invalid, as a word. */
export type Reason =
  | 'empty' | 'not-three-numbers' | 'leading-zero' | 'empty-identifier' | 'unexpected-character' | 'too-large' | 'too-long'
  | 'text-after' | 'not-utf8' | 'number-expected' | 'unexpected-end' | 'cargo-commas' | 'cargo-wildcard' | 'cargo-bars'
  | 'cargo-v' | 'cargo-hyphen' | 'npm-comma' | 'crate-comma' | 'crate-v' | 'npm-too-large'
  | 'too-many-comparators' | 'bound-too-large' | 'npm-bound-too-large'

/** A part of a string: the index at which it begins, and the one after it. */
export interface Span {
  readonly start: number
  readonly end: number
}

/** Where and why a string is invalid, and what may have been meant. */
export interface Explanation {
  /**
   * An index of the string. It is the index of the first character that isn't allowed there, or the string's length if
   * something is missing at its end. If a number of a range is too large, it is the index of that number.
   */
  readonly offset: number
  /**
   * The part of the string to underline: the characters of the same kind around the offset, such as a whole number or a
   * whole operator. For a leading zero it is the number that begins with it. It is empty only at the end of the string.
   */
  readonly span: Span
  readonly reason: Reason
  /** The reason as a sentence. */
  readonly sentence: string
  /** The valid string that may have been meant, or null if none is known. It differs from the string only in the spans of errors. */
  readonly suggestion: string | null
  /**
   * Three lines for a terminal: why the string is invalid, the string, and carets below its span. Characters other than
   * the printable ones of ASCII are escaped there. It is made when it is read, and isn't enumerable.
   */
  readonly withCarets: string
}

/** A version or a range is invalid. */
export declare class SemverError extends TypeError implements Explanation {
  private constructor()
  readonly name: 'SemverError'
  /** Whether the string should have been a version or a range. */
  readonly kind: 'version' | 'range'
  /** Which of the versions, ranges and lists that were passed to the call has the string, counted from 0. */
  readonly argument: 0 | 1
  /** The invalid string. */
  readonly input: string
  readonly offset: number
  readonly span: Span
  readonly reason: Reason
  readonly sentence: string
  readonly suggestion: string | null
  readonly withCarets: string
}

/** A requirement can't be raised to a version: the raised range wouldn't contain it. */
export declare class UpgradeError extends TypeError {
  private constructor()
  readonly name: 'UpgradeError'
  /** The requirement. */
  readonly range: string
  /** The version. */
  readonly version: string
}

/** The versions that are in a range and not in another. The comparators are npm's in each dialect. */
export interface Part {
  /** The releases, or null if there are none. Read this range with `preReleases: 'excluded'`. */
  releases: string | null
  /** The pre-releases, or null if there are none. Read this range with `preReleases: 'included'`, and test only pre-releases with it. */
  preReleases: string | null
  /** The lowest version. */
  lowest: string
}

export declare const SEMVER_SPEC_VERSION: '2.0.0'
/** The kinds of releases, frozen. */
export declare const RELEASE_TYPES: ReleaseType[]

/** Compiles the module before the first call, without blocking the thread. */
export declare function ready(): Promise<void>
/** Uses a compiled module, or its bytes, instead of the one that the first call would compile. */
export declare function init(module: object): void

/** Returns the version without build metadata, or null if it is invalid. */
export declare function valid(version: unknown, options?: OptionsOrLoose<Dialect> | number): string | null
/** Returns the version. If it is invalid, returns null, or throws a `SemverError` if `throwErrors` is true. */
export declare function parse<D extends Dialect = 'npm'>(version: string | SemVer<D>, options?: WithoutDialect, throwErrors?: boolean): SemVer<D> | null
export declare function parse<D extends Dialect = 'npm'>(version: unknown, options?: OptionsOrLoose<D>, throwErrors?: boolean): SemVer<D> | null
/** Returns the version in a string that may have `=`, `v` or white space before it; null if there is no version. */
export declare function clean(version: string, options?: OptionsOrLoose<Dialect>): string | null
/** Returns the first version in a string, such as `2.3.4` in `v2.3.4.5`, or the last one with `rtl`; null if there is none. */
export declare function coerce<D extends Dialect = 'npm'>(version: string | number | SemVer<D> | null | undefined, options?: CoerceOptions & { dialect?: undefined }): SemVer<D> | null
export declare function coerce<D extends Dialect = 'npm'>(version: AnyVersion | number | null | undefined, options?: CoerceOptions<D>): SemVer<D> | null
/** Returns the next version for a kind of release; null if the version is invalid, there is no such kind, or the next version would be invalid. */
export declare function inc(version: AnyVersion, release: ReleaseType, options?: OptionsOrLoose<Dialect>, identifier?: string, identifierBase?: inc.IdentifierBase | false): string | null
export declare function inc(version: AnyVersion, release: ReleaseType, identifier?: string, identifierBase?: inc.IdentifierBase | false): string | null
export declare namespace inc {
  /** The number with which a pre-release begins. */
  type IdentifierBase = '0' | '1'
}
/** Returns the kind of release between two versions; null if they have the same precedence. */
export declare function diff(version: AnyVersion, other: AnyVersion): ReleaseType | null
/** Returns the pre-release identifiers, or null if there are none or the version is invalid. */
export declare function prerelease(version: unknown, options?: OptionsOrLoose<Dialect>): ReadonlyArray<string | number> | null
/** Returns a number of a version. Throws a `SemverError` if the version is invalid. */
export declare function major<D extends Dialect = 'npm'>(version: string | SemVer<D>, options?: WithoutDialect): NumberOf<D>
export declare function major<D extends Dialect = 'npm'>(version: AnyVersion, options: OptionsOrLoose<D>): NumberOf<D>
export declare function minor<D extends Dialect = 'npm'>(version: string | SemVer<D>, options?: WithoutDialect): NumberOf<D>
export declare function minor<D extends Dialect = 'npm'>(version: AnyVersion, options: OptionsOrLoose<D>): NumberOf<D>
export declare function patch<D extends Dialect = 'npm'>(version: string | SemVer<D>, options?: WithoutDialect): NumberOf<D>
export declare function patch<D extends Dialect = 'npm'>(version: AnyVersion, options: OptionsOrLoose<D>): NumberOf<D>
/** Returns where and why a string is an invalid version, or null if it is valid. */
export declare function explainVersion(version: AnyVersion, options?: OptionsOrLoose<Dialect>): Explanation | null

/** Returns whether a version satisfies a range; false if either is invalid. */
export declare function satisfies(version: AnyVersion | null | undefined, range: AnyRange, options?: OptionsOrLoose<Dialect>): boolean
/** Returns the highest version that satisfies a range, the first one of equal versions; null if none does. */
export declare function maxSatisfying<T extends AnyVersion>(versions: Iterable<T>, range: AnyRange, options?: OptionsOrLoose<Dialect>): T | null
/** Returns the lowest version that satisfies a range, the first one of equal versions; null if none does. */
export declare function minSatisfying<T extends AnyVersion>(versions: Iterable<T>, range: AnyRange, options?: OptionsOrLoose<Dialect>): T | null
/** Returns the versions that satisfy a range, in the order of the list. Invalid versions are skipped. Throws a `SemverError` if the range is invalid. */
export declare function filter<T extends AnyVersion>(versions: Iterable<T>, range: AnyRange, options?: OptionsOrLoose<Dialect>): T[]
/** Returns the normal form of a range, such as `>=1.2.0 <2.0.0-0`, which is npm's in each dialect; null if the range is invalid. */
export declare function validRange(range: unknown, options?: OptionsOrLoose<Dialect>): string | null
/** The comparators of each range between `||`. */
export declare function toComparators(range: AnyRange, options?: OptionsOrLoose<Dialect>): string[][]
/** Returns where and why a string is an invalid range; null if it is valid. */
export declare function explainRange(range: AnyRange, options?: OptionsOrLoose<Dialect>): Explanation | null
/**
 * A component of a version in a term: a number, or a wildcard as it is written. After a wildcard, a number may be above
 * the dialect's limit. One above 2^64 - 1 is given as 2^64 - 1, and a `number` above 2^53 - 1 is rounded.
 */
export type TermComponent<D extends Dialect = 'npm'> = NumberOf<D> | 'x' | 'X' | '*'

/** A version as it is written in a term of a range. Its indices are those of the range's string. */
export interface TermVersion<D extends Dialect = 'npm'> {
  /** The index of its first character, which may be a `v`. */
  start: number
  /** The index after its last character. */
  end: number
  /** Whether it begins with a `v`. */
  hasV: boolean
  major: TermComponent<D>
  /** The second component, null if it isn't written. */
  minor: TermComponent<D> | null
  /** The third component, null if it isn't written. */
  patch: TermComponent<D> | null
  /** The pre-release, such as `rc.1`, or an empty string. */
  prerelease: string
  /** The build metadata, or an empty string. */
  build: string
}

/** The operator of a term. It is `'~'` also for `~>`. */
export type TermOperator = '' | '=' | '<' | '<=' | '>' | '>=' | '~' | '^' | '-'

/** A term of a range, as it is written. */
export interface Term<D extends Dialect = 'npm'> {
  /** The index of its range: how many `||` are before it. */
  range: number
  /** The operator; `''` if there is none, and `'-'` for a hyphen range. */
  operator: TermOperator
  /** The index of its first character. */
  start: number
  /** The index after its last character. */
  end: number
  /** Its version, or the one before the hyphen. */
  version: TermVersion<D>
  /** The version after the hyphen; null if it isn't a hyphen range. */
  upper: TermVersion<D> | null
}

/** Returns the terms of a range as they are written, and where each is. Throws a `SemverError` if the range is invalid. */
export declare function terms(range: string, options?: WithoutDialect): Term[]
export declare function terms<D extends Dialect = 'npm'>(range: string, options: OptionsOrLoose<D>): Term<D>[]
/**
 * Returns a range in which a version of a term has the numbers of another version. The form of the version in the
 * range is kept: how many components it has, its wildcards and its `v`. If it has three numbers, the pre-release of
 * the other version is written, too; the build metadata of the other version never is. Throws a `SemverError` if the
 * range or the other version is invalid, and a `TypeError` if the range doesn't have the version `written` there.
 */
export declare function replaceVersion(range: string, written: TermVersion<Dialect>, version: AnyVersion, options?: OptionsOrLoose<Dialect>): string
/**
 * Raises a requirement, so that it contains a newer version, and keeps how it is written: `^1.2` and 2.3.4 give `^2.3`.
 * Returns null if the range has a version at or above the newer one, so nothing is ever lowered.
 *
 * The terms after the last `||` are raised, if their bounds allow no version at or above the newer one:
 *
 * - The version of a term without an operator or with `=`, `~`, `^` or `<=`, and the right version of a hyphen range,
 *   becomes the newer one, with as many components, with its wildcards and its `v`. The pre-release is written after
 *   three numbers, and build metadata is left out.
 * - If the result wouldn't contain the newer version then, and that is a pre-release, three numbers are written where
 *   they mean the same: after `^`, after `~` instead of two, and in Cargo's dialect without an operator.
 * - The version of `<` becomes the next one above the newer version. Its last number that isn't 0 says which number is
 *   raised by one, and what follows that is 0. A pre-release `0` is kept.
 * - `>=` and `>` are kept.
 *
 * If the range has `||`, the raised terms are added as one more alternative instead, so that no version is lost. They
 * are raised in place only if all versions that change are upper bounds: those of `<` and `<=`, and right versions of
 * hyphen ranges. An upper bound with a pre-release isn't raised in place either, except for `<` with the pre-release
 * `0`. Everything else stays as it is.
 *
 * Throws a `SemverError` if the version is invalid, or else if the range is, and an `UpgradeError` if the raised range
 * wouldn't contain the version, such as `1.x` for 2.0.0-rc.1.
 */
export declare function upgrade(range: string, version: AnyVersion, options?: OptionsOrLoose<Dialect>): string | null
/** Returns the lowest version of all that satisfy a range; null if none does. */
export declare function minVersion<D extends Dialect = 'npm'>(range: RangeOf<D>, options?: WithoutDialect): SemVer<D> | null
export declare function minVersion<D extends Dialect = 'npm'>(range: AnyRange, options: OptionsOrLoose<D>): SemVer<D> | null
/** Returns whether any version satisfies both ranges. */
export declare function intersects(range: AnyRange, other: AnyRange, options?: OptionsOrLoose<Dialect>): boolean
/** Returns whether every version that satisfies the first range satisfies the second. */
export declare function subset(range: AnyRange, other: AnyRange, options?: OptionsOrLoose<Dialect>): boolean
/** Returns what is lost and gained if the second range replaces the first; each is null if nothing is. */
export declare function compareRanges(range: AnyRange, other: AnyRange, options?: OptionsOrLoose<Dialect>): { lost: Part | null, gained: Part | null }
/** Returns whether a version is above every version that satisfies a range. */
export declare function gtr(version: AnyVersion, range: AnyRange, options?: OptionsOrLoose<Dialect>): boolean
/** Returns whether a version is below every version that satisfies a range. */
export declare function ltr(version: AnyVersion, range: AnyRange, options?: OptionsOrLoose<Dialect>): boolean
/** Calls `gtr` for `>`, and `ltr` for `<`. */
export declare function outside(version: AnyVersion, range: AnyRange, side: '<' | '>', options?: OptionsOrLoose<Dialect>): boolean
/** Looks for a range, in npm's form, that the same versions of a list satisfy. Returns it if it is shorter, and otherwise the range itself; for an invalid range it returns an empty string. */
export declare function simplifyRange<R extends AnyRange>(versions: Iterable<string>, range: R, options?: OptionsOrLoose<Dialect>): string | R

/** Compares two versions by precedence: -1, 0 or 1. Throws a `SemverError` if a version is invalid. */
export declare function compare(version: AnyVersion, other: AnyVersion, options?: OptionsOrLoose<Dialect>): -1 | 0 | 1
/** Compares in reverse order. */
export declare function rcompare(version: AnyVersion, other: AnyVersion, options?: OptionsOrLoose<Dialect>): -1 | 0 | 1
/** Does the same as `compare`, since strings are always read strictly. */
export declare function compareLoose(version: AnyVersion, other: AnyVersion): -1 | 0 | 1
/** Compares two versions by precedence, and those of equal precedence by build metadata. */
export declare function compareBuild(version: AnyVersion, other: AnyVersion, options?: OptionsOrLoose<Dialect>): -1 | 0 | 1
/** Compares two identifiers: -1, 0 or 1. */
export declare function compareIdentifiers(identifier: Identifier, other: Identifier): -1 | 0 | 1
export declare function rcompareIdentifiers(identifier: Identifier, other: Identifier): -1 | 0 | 1
type Identifier = string | number | null | undefined
/** Compares two versions with an operator. Throws a `TypeError` if there is no such operator. */
export declare function cmp(version: AnyVersion, operator: Operator, other: AnyVersion, options?: OptionsOrLoose<Dialect>): boolean
export declare function gt(version: AnyVersion, other: AnyVersion, options?: OptionsOrLoose<Dialect>): boolean
export declare function gte(version: AnyVersion, other: AnyVersion, options?: OptionsOrLoose<Dialect>): boolean
export declare function lt(version: AnyVersion, other: AnyVersion, options?: OptionsOrLoose<Dialect>): boolean
export declare function lte(version: AnyVersion, other: AnyVersion, options?: OptionsOrLoose<Dialect>): boolean
export declare function eq(version: AnyVersion, other: AnyVersion, options?: OptionsOrLoose<Dialect>): boolean
export declare function neq(version: AnyVersion, other: AnyVersion, options?: OptionsOrLoose<Dialect>): boolean
/** Sorts a list in place by `compareBuild`, and returns it. */
export declare function sort<T extends AnyVersion>(versions: T[], options?: OptionsOrLoose<Dialect>): T[]
/** Sorts from the highest to the lowest. */
export declare function rsort<T extends AnyVersion>(versions: T[], options?: OptionsOrLoose<Dialect>): T[]
