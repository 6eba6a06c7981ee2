// Compares how node-semver reads the ranges that sets are printed as.
//
// `node ranges-of-sets-with-node-semver.js PROGRAM COUNT SEED`: PROGRAM is the program
// `layers` of rust/tests. It makes COUNT pairs of range texts in npm mode, each with some versions near
// their bounds. The program returns what the second text loses, gains and keeps of the first: for
// each version, and as range texts. In node-semver these ranges have to match the same versions:
// releases by default, and pre-releases with `includePrerelease`. It prints how many versions were
// in a range and how many weren't, and the first difference.
'use strict'

const semver = require('semver')
const { Random, range, version, answers } = require('./with-node-semver.js')

const VERSIONS = 12
const PARTS = ['lost', 'gained', 'shared']

function pair (random) {
  const ranges = [1, 2].map(() => Array.from({ length: random.of([1, 1, 2, 3]) }, () => range(random)))
  const texts = ranges.map((parts) => parts.map((part) => part.text).join(' || '))
  return { texts, versions: Array.from({ length: VERSIONS }, () => version(random, random.of(ranges))) }
}

// The words after each version: the sets that contain it, according to the program.
const said = (answer) => answer.split('; ').slice(1).map((one) => one.split(':')[1].trim().split(' '))

// The ranges of releases and of pre-releases for each part.
const whole = (answer) => answer.split('; ').map((part) => part.slice(part.indexOf(' ') + 1).split(', pre-releases '))

function main ([program, count, seed]) {
  const random = new Random(seed)
  const pairs = Array.from({ length: Number(count) }, () => pair(random))
  const met = answers(program, pairs.map(({ texts, versions }) => `pair-mean-npm\t${texts[0]}\t${texts[1]};${versions.join(' ')}`))
  const printed = answers(program, pairs.map(({ texts }) => `whole-pair-mean-npm\t${texts[0]}\t${texts[1]}`))
  const counts = { in: 0, not: 0 }
  pairs.forEach(({ texts, versions }, at) => {
    const [words, parts] = [said(met[at]), whole(printed[at])]
    versions.forEach((one, place) => PARTS.forEach((part, of) => {
      const ours = words[place].includes(part)
      const isPreRelease = semver.prerelease(one) !== null
      const text = parts[of][isPreRelease ? 1 : 0]
      const theirs = semver.satisfies(one, text, { includePrerelease: isPreRelease })
      if (ours !== theirs) throw new Error(`${texts.join('  and  ')}: ${part} ${text}: ${one} is ${ours ? '' : 'not '}in it, but node-semver says otherwise`)
      counts[ours ? 'in' : 'not']++
    }))
  })
  console.log(`ranges of sets: ${count} pairs, seed ${seed}: no difference; ${counts.in} times a version was in a part, ${counts.not} times it wasn't`)
}

main(process.argv.slice(2))
