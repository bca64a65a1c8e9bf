// What the browser keeps for this board: of the tab in sessionStorage, of the browser in localStorage. Names begin with the board's path,
// so that the boards of several airports at one address keep apart.

export const HERE = new URL(".", location.href).pathname;

const nameOf = (key) => `apron ${HERE} ${key}`;

export function read(store, key, otherwise) {
  try {
    return JSON.parse(store.getItem(nameOf(key))) ?? otherwise;
  } catch {
    return otherwise;
  }
}

// Where a browser keeps nothing, the page does without: a reload then makes a new client.
export function keep(store, key, value) {
  try {
    if (value === null) store.removeItem(nameOf(key));
    else store.setItem(nameOf(key), JSON.stringify(value));
  } catch {
    // There is nobody to tell.
  }
}

// The ends of the names that begin so.
export function keysWith(store, beginning) {
  try {
    return Object.keys(store).filter((key) => key.startsWith(nameOf(beginning))).map((key) => key.slice(nameOf(beginning).length));
  } catch {
    return [];
  }
}
