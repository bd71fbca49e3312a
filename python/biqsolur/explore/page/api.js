// Questions to the explorer's server. Addresses are relative, so each has the secret word of the page's own.

export class Refusal extends Error {
  constructor(status, table) {
    super(table.error || `the explorer answered ${status}`);
    this.status = status;
    this.table = table;
  }
}

export class Gone extends Error {
  constructor() {
    super("The explorer has ended, or can no longer be reached. Start it again, and open the address that it prints: " +
      "what you took along is safe, and forks that were not saved are gone.");
  }
}

async function answered(request) {
  let response;
  try {
    response = await request;
  } catch (error) {
    if (error.name === "AbortError") throw error;
    throw new Gone();
  }
  let table;
  try {
    table = await response.json();
  } catch (error) {
    if (error.name === "AbortError") throw error;
    throw response.ok ? new Gone() : new Refusal(response.status, {});
  }
  if (!response.ok) throw new Refusal(response.status, table);
  return table;
}

export function address(name, words = {}) {
  const query = new URLSearchParams(Object.entries(words).filter(([, value]) => value !== undefined && value !== null));
  return `api/${name}?${query}`;
}

export function ask(name, words = {}, signal = undefined) {
  return answered(fetch(address(name, words), { signal }));
}

export function act(name, table = {}) {
  return answered(fetch(`api/${name}`, {
    method: "POST", headers: { "content-type": "application/json" }, body: JSON.stringify(table),
  }));
}
