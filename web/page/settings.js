// What this browser keeps for the page, by name. Where it keeps nothing, it lasts as long as the tab.

export function kept(name, otherwise) {
  try {
    return JSON.parse(localStorage.getItem(`canvas.${name}`)) ?? otherwise;
  } catch {
    return otherwise;
  }
}

export function keep(name, value) {
  try {
    localStorage.setItem(`canvas.${name}`, JSON.stringify(value));
  } catch {
    // (there is no room, or the browser keeps nothing)
  }
}
