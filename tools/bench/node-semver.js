// Times node-semver on the pairs in a file. A line has a range and a version, separated by a tab.
// Each range is parsed anew. Prints the nanoseconds for a pair, the best of PASSES passes in groups
// of a thousand pairs, and how many ranges contain their version.
//
//     node node-semver.js PAIRS PASSES
'use strict';
const fs = require('fs');
const Range = require('semver/classes/range');

const [, , file, passes] = process.argv;
const pairs = fs.readFileSync(file, 'utf8').split('\n').filter((line) => line !== '');
const stretches = [];
for (let at = 0; at < pairs.length; at += 1000) {
  stretches.push(pairs.slice(at, at + 1000).map((line) => line.split('\t')));
}
const best = stretches.map(() => Infinity);
let met = 0;
for (let pass = 0; pass < Number(passes); pass += 1) {
  met = 0;
  stretches.forEach((stretch, at) => {
    const begin = process.hrtime.bigint();
    for (const [range, version] of stretch) {
      if (new Range(range).test(version)) met += 1;
    }
    best[at] = Math.min(best[at], Number(process.hrtime.bigint() - begin));
  });
}
const time = best.reduce((sum, each) => sum + each, 0) / pairs.length;
console.log(`${time.toFixed(1)} ${met}`);
