// The examples in the README's table of results that differ from node-semver's. To compare the
// table's column for node-semver with node-semver itself:
//
//     node differences.mjs README MODULE
import { readFileSync } from 'node:fs'
import { createRequire } from 'node:module'
import { fileURLToPath } from 'node:url'
import { isDeepStrictEqual } from 'node:util'

// What a call of the table returns, as the table shows it: an object as its string.
function shown(library, call) {
  try {
    const found = Function(...Object.keys(library), `return ${call}`)(...Object.values(library))
    return found !== null && typeof found === 'object' ? `${found}` : found
  } catch {
    return 'throws'
  }
}

const meant = (cell) => (cell === 'throws' ? cell : Function(`return (${cell.replace(/^`|`$/g, '')})`)())

/** The rows of the table in which a column, 2 for node-semver or 3 for this library, isn't what
 * it returns. */
export function wrongRows(readme, library, column) {
  const rows = readme.split('\n').filter((line) => /^\| .* \| `\w+\(/.test(line))
    .map((line) => line.replaceAll('\\|', '\0').split('|').map((cell) => cell.replaceAll('\0', '|').trim()))
  if (rows.length < 15 || rows.some(({ length }) => length !== 7)) throw new Error(`${rows.length} rows`)
  return rows.map((cells) => [cells[2].replace(/^`|`$/g, ''), cells[column + 1]])
    .filter(([call, right]) => !isDeepStrictEqual(shown(library, call), meant(right)))
}

if (process.argv[1] === fileURLToPath(import.meta.url)) {
  const [, , readme, module_] = process.argv
  const wrong = wrongRows(readFileSync(readme, 'utf8'), createRequire(import.meta.url)(module_), 2)
  for (const [call, right] of wrong) console.log(`node-semver doesn't return ${right} of ${call}`)
  process.exit(wrong.length ? 1 : 0)
}
