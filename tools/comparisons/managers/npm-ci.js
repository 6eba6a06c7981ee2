// Reads directories, one on each line, and writes a line of JSON for each: why `npm ci` rejects the
// lock file and the manifests there (nothing if it accepts them), whose requirements it checks, and
// which optional dependencies it leaves out because they can't be installed.
//
// `npm-ci.js NPM REGISTRY CACHE` has the directory of npm, the registry and the cache. It uses
// npm's own libraries to do what `npm ci` does before it removes node_modules.
'use strict'
const path = require('path')
const { createInterface } = require('readline')
const [npm, registry, cache] = process.argv.slice(2)
const Arborist = require(path.join(npm, 'node_modules', '@npmcli', 'arborist'))
const validateLockfile = require(path.join(npm, 'lib', 'utils', 'validate-lockfile.js'))

// As in buildIdealTree, which looks for edges that aren't valid: links aren't followed.
const lookedAt = tree => {
  const found = new Set([tree])
  for (const node of found) {
    for (const edge of node.edgesOut.values()) if (edge.to) found.add(edge.to)
  }
  const tops = [...tree.inventory.values()].filter(node => !node.location.includes('node_modules'))
  return [...new Set([...found, ...tops])].map(node => node.location)
}

const leftOutOf = tree => {
  const nodes = [tree, ...tree.inventory.values()]
  const edges = nodes.flatMap(node => [...node.edgesOut.values()])
  const left = edges.filter(edge => edge.type === 'optional' && !(edge.to && edge.valid))
  return left.map(edge => [edge.from.location, edge.name])
}

const answerOn = async folder => {
  const tree = new Arborist({ path: folder, registry, cache, audit: false, packageLock: true, fetchRetries: 0 })
  await tree.loadVirtual()
  const virtual = new Map(tree.virtualTree.inventory)
  const looked = lookedAt(tree.virtualTree)
  const refused = await tree.buildIdealTree().then(
    ideal => validateLockfile(virtual, ideal.inventory),
    error => [`${error.code}: ${error.message}`]
  )
  return { refused, looked, left_out: tree.idealTree ? leftOutOf(tree.idealTree) : [] }
}

const main = async () => {
  for await (const folder of createInterface({ input: process.stdin })) {
    const answer = await answerOn(folder).catch(error => ({ refused: [String(error.message)], looked: [], left_out: [] }))
    process.stdout.write(JSON.stringify(answer) + '\n')
  }
}
main()
