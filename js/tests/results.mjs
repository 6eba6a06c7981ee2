// What a call of cases.json returns, in the form in which node-semver's results are stored there.

// The fields of an object of a class, and of what it contains, as the cases have them.
function plain(value) {
  if (typeof value === 'symbol') return String(value)
  if (value === null || typeof value !== 'object') return value
  if (Array.isArray(value)) return value.map(plain)
  const isKept = ([name, it]) => name !== 'options' && it !== undefined
  const fields = Object.entries(value.toJSON?.() ?? value).filter(isKept)
  return Object.fromEntries(fields.map(([name, it]) => [name, plain(it)]))
}

function made(library, call, [...values]) {
  const [name, method] = call.split('.')
  if (!/^[A-Z]/.test(name)) return library[name](...values)
  const object = new library[name](...values.splice(0, method === undefined ? values.length : 1))
  if (method === undefined) return object
  const given = values.map((it) => (method === 'intersects' ? new library[name](it) : it))
  return object[method](...given)
}

/** What a call returns, or the kind of error that it throws; make-cases.cjs names the calls. */
export function result(library, call, values) {
  try {
    const given = values.map((it) => (it === '(undefined)' ? undefined : structuredClone(it)))
    return plain(made(library, call, given))
  } catch (error) {
    return error instanceof TypeError ? 'TypeError' : 'Error'
  }
}
