// The names of dialects, rules and reasons, of which the module is asked.
import { calls, stringBack } from './calls.mjs'

const tables = new Map()

const named = (call, number) => (calls()[call](number) === 0 ? stringBack() : null)

/** The number of a name by a call that names numbers; undefined if there is no such name. */
export function numberOf(call, name) {
  if (!tables.has(call)) {
    const table = new Map()
    for (let number = 0; named(call, number) !== null; number += 1) {
      table.set(named(call, number), number)
    }
    tables.set(call, table)
  }
  return tables.get(call).get(name)
}

/** The name of a reason, and its sentence. */
export const reasonOf = (number) => named('reason_name', number)
export const sentenceOf = (number) => named('reason_sentence', number)
