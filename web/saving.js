// What goes out of the page, by the reader's own hand: into the clipboard, or into a file.

/** Puts a text into the clipboard, and answers whether the browser let it. */
export async function copied(text) {
  try {
    await navigator.clipboard.writeText(text);
    return true;
  } catch {
    return false;
  }
}

/** Gives a file to save. */
export function save(name, kind, content) {
  const url = URL.createObjectURL(new Blob([content], { type: kind }));
  const link = Object.assign(document.createElement("a"), { href: url, download: name });
  document.body.append(link);
  link.click();
  link.remove();
  setTimeout(() => URL.revokeObjectURL(url), 10000);
}

/** A name for a file of this position, of letters and digits alone. */
export function fileName(fen, ending) {
  return `minimate-${fen.replace(/[^A-Za-z0-9]+/g, "-")}.${ending}`;
}
