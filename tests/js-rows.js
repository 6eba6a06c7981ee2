// Tests the JavaScript package with the rows of crates/replayed_cases and rust/tests/layers: which
// versions satisfy a range, what a version is parsed to, where and why a string is invalid, how two
// ranges compare, and what a raised range and a requirement are.
//
//     node tests/js-rows.js PACKAGE
'use strict';
const fs = require('fs');
const path = require('path');

const TABLES = ['crates/replayed_cases', 'rust/tests/layers'];
const semver = require(path.resolve(process.argv[2]));

// The dialects and rules for pre-releases, by the names in the rows.
const meaning = (dialect, preReleases) => ({ dialect, preReleases });
const MEANINGS = {
    'meant-as-cargo': meaning('cargo', 'by-dialect'), 'meant-as-npm': meaning('npm', 'by-dialect'),
    'meant-with-all-as-cargo': meaning('cargo', 'included'), 'meant-with-all-as-npm': meaning('npm', 'included'),
};
const PAIRS = {}, SETS = {}, WHOLES = {}, WHOLE_PAIRS = {};
for (const [rule, name] of [['by-dialect', 'stated'], ['included', 'mean'], ['excluded', 'releases']]) {
    for (const mode of ['cargo', 'npm']) {
        const options = meaning(`crate-${mode}`, rule);
        MEANINGS[`${name}-${mode}`] = options;
        PAIRS[`pair-${name}-${mode}`] = options;
        SETS[`set-${name}-${mode}`] = options;
        WHOLES[`whole-${name}-${mode}`] = options;
        WHOLE_PAIRS[`whole-pair-${name}-${mode}`] = options;
    }
}
const VERSIONS = { 'version-as-cargo': 'cargo', 'version-as-npm': 'npm', version: 'crate-cargo', 'read-ref': 'crate-cargo' };
const REFUSED_VERSIONS = { 'refused-as-cargo': 'cargo', 'refused-as-npm': 'npm', 'refused-as-crate': 'crate-cargo' };
const REFUSED_RANGES = {
    'refused-range-as-cargo': 'cargo', 'refused-range-as-npm': 'npm',
    'refused-range-as-crate-cargo': 'crate-cargo', 'refused-range-as-crate-npm': 'crate-npm',
};
const UPGRADED = { 'upgraded-as-cargo': 'cargo', 'upgraded-as-npm': 'npm' };
const REQUIRED = { 'requirement-as-cargo': 'cargo', 'requirement-as-npm': 'npm' };
const IS_ERROR = /^(not[- ]a[- ]range|number[- ]too[- ]large)$/;
const NOTHING = '<0.0.0-0';

let asked = 0;

function expect(what, found, right) {
    asked += 1;
    if (JSON.stringify(found) === JSON.stringify(right)) return;
    console.log(`JavaScript rows: ${what}: ${JSON.stringify(found)} instead of ${JSON.stringify(right)}`);
    process.exit(1);
}

// A string of a table without escapes; crates/replayed_cases/src/text.rt describes them.
function expanded(escaped) {
    const meant = (string, at) => string.replace(/\\([\s\S])/g, (all, it) =>
        it === '#' ? String(at) : { n: '\n', r: '\r', t: '\t', '\\': '\\' }[it]);
    return escaped.split(/(\\\([^)]*\))/).map((piece) => {
        const found = /^\\\(([^,]*),([^,]*),([\s\S]*)\)$/.exec(piece);
        if (!found) return meant(piece);
        const each = Array.from({ length: Number(found[1]) }, (_, at) => meant(found[2], at));
        return each.join(meant(found[3]));
    }).join('');
}

function askVersions(what, range, list, options, answer) {
    const versions = list.split(' ').filter((it) => it !== '');
    expect(`${what} is a range`, semver.validRange(range, options) !== null, !IS_ERROR.test(answer));
    const met = answer.replace(/^means ?| ?end$/g, '').split(' ');
    const right = versions.filter((version) => !IS_ERROR.test(answer) && met.includes(version));
    expect(what, versions.filter((version) => semver.satisfies(version, range, options)), right);
    if (!IS_ERROR.test(answer)) expect(what, semver.filter(versions, range, options), right);
}

// Identifiers as the rows have them: those of digits are numbers if they fit 64 bits.
const kept = (identifiers) => identifiers.map((it) => (/^\d+$/.test(it) && BigInt(it) < 2n ** 64n ? String(BigInt(it)) : String(it)));

function askVersion(what, string, dialect, answer) {
    const right = /^(\d+) (\d+) (\d+) pre\[(.*?)\] build\[(.*?)\]$/.exec(answer);
    const found = semver.parse(string, { dialect });
    if (right === null) return expect(what, found, null);
    const parts = right.slice(4).map((it) => it.replace(/(?:Alpha)?Numeric\((.*?)\)/g, '$1').split(/[ .]/).filter((part) => part !== ''));
    const { major, minor, patch, prerelease, build } = found;
    return expect(what, [major, minor, patch].map(String).concat(kept(prerelease), '+', kept(build)),
        [...right.slice(1, 4), ...kept(parts[0]), '+', ...kept(parts[1])]);
}

function askWhy(what, string, why, answer) {
    if (/^a (version|range)$/.test(answer)) return expect(what, why, null);
    const [, at, words] = /^(\d+): (.*)$/.exec(answer);
    return expect(what, [Buffer.byteLength(string.slice(0, why.offset)), why.reason], [Number(at), words.split(', ').pop()]);
}

function askPair(what, range, other, options, answer) {
    if (IS_ERROR.test(answer)) return;
    const [, within, overlaps] = /within (\w+), overlaps (\w+)/.exec(answer);
    expect(`${what}, within`, String(semver.subset(range, other, options)), within);
    expect(`${what}, overlaps`, String(semver.intersects(range, other, options)), overlaps);
}

function askSet(what, range, options, answer) {
    if (IS_ERROR.test(answer)) return;
    const [, least] = /least (\S+),/.exec(answer);
    expect(what, String(semver.minVersion(range, options)?.version ?? 'none'), least);
}

const shown = (it) => `${it?.releases ?? NOTHING}, pre-releases ${it?.preReleases ?? NOTHING}`;

function askWhole(what, range, options, answer) {
    if (IS_ERROR.test(answer)) return;
    expect(what, shown(semver.compareRanges(NOTHING, range, options).gained), answer);
}

function askWholePair(what, range, other, options, answer) {
    if (IS_ERROR.test(answer)) return;
    const { lost, gained } = semver.compareRanges(range, other, options);
    expect(what, `lost ${shown(lost)}; gained ${shown(gained)}`, answer.replace(/; shared.*/, ''));
}

function askUpgrade(what, range, version, dialect, answer) {
    expect(what, upgraded(range, version, dialect), answer);
}

// A range that is raised, in quotes, or why it isn't.
function upgraded(range, version, dialect) {
    try {
        const raised = semver.upgrade(range, version, { dialect });
        return raised === null ? 'nothing to do' : `"${raised}"`;
    } catch (error) {
        if (error instanceof semver.UpgradeError) return error.message.replace(/: .*/, '');
        if (!(error instanceof semver.SemverError)) throw error;
        return error.kind === 'version' ? 'invalid version' : 'invalid range: not a range';
    }
}

function askRequirement(what, range, options, answer) {
    if (IS_ERROR.test(answer)) return expect(what, semver.validRange(range, options), null);
    const found = new semver.Range(range, options).toRequirement();
    return expect(what, found === null ? 'none' : `"${found}"`, answer);
}

const lines = (name) => TABLES.flatMap((table) =>
    fs.readFileSync(path.join(__dirname, '..', table, name), 'utf8').split('\n').slice(0, -1));
const wanted = lines('stdout');
lines('stdin').forEach((line, at) => {
    const [name, call, escaped, list = ''] = line.split('\t');
    const answer = wanted[at].slice(name.length + 2);
    const string = expanded(escaped);
    const what = `${call} ${JSON.stringify(escaped)}`;
    if (call in MEANINGS) askVersions(what, string, expanded(list), MEANINGS[call], answer);
    if (call in VERSIONS) askVersion(what, string, VERSIONS[call], answer);
    if (call in REFUSED_VERSIONS) askWhy(what, string, semver.explainVersion(string, { dialect: REFUSED_VERSIONS[call] }), answer);
    if (call in REFUSED_RANGES) askWhy(what, string, semver.explainRange(string, { dialect: REFUSED_RANGES[call] }), answer);
    if (call in UPGRADED) askUpgrade(what, string, expanded(list), UPGRADED[call], answer);
    if (call in REQUIRED) askRequirement(what, string, meaning(REQUIRED[call], expanded(list)), answer);
    if (call in PAIRS) askPair(what, string, expanded(list), PAIRS[call], answer);
    if (call in SETS) askSet(what, string, SETS[call], answer);
    if (call in WHOLES) askWhole(what, string, WHOLES[call], answer);
    if (call in WHOLE_PAIRS) askWholePair(what, string, expanded(list), WHOLE_PAIRS[call], answer);
});

// The order of SemVer 2.0.0, section 11, in which build metadata is ignored.
const IN_ORDER = [
    '1.0.0-alpha', '1.0.0-alpha.1', '1.0.0-alpha.beta', '1.0.0-beta', '1.0.0-beta.2', '1.0.0-beta.11', '1.0.0-rc.1', '1.0.0',
    '2.0.0', '2.1.0', '2.1.1',
];
for (const dialect of ['npm', 'cargo', 'crate-npm', 'crate-cargo']) {
    IN_ORDER.forEach((version, at) => IN_ORDER.forEach((other, against) => {
        expect(`${version} and ${other}`, semver.compare(`${version}+b`, other, { dialect }), Math.sign(at - against));
    }));
}

console.log(`JavaScript rows: ${asked} results, passed`);
