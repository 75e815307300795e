// A script in the page's address, and files that are saved.

const KEY = "#script=";
export const MOST_OCTETS = 48000; // of a script in an address

/** The part of an address that carries a script. */
export function fragmentOf(octets) {
  let signs = "";
  for (let at = 0; at < octets.length; at += 8192) signs += String.fromCharCode(...octets.subarray(at, at + 8192));
  return KEY + btoa(signs).replaceAll("+", "-").replaceAll("/", "_").replace(/=+$/, "");
}

/** The script that an address carries; null where it carries none. */
export function scriptIn(fragment) {
  if (!fragment.startsWith(KEY)) return null;
  try {
    const signs = atob(fragment.slice(KEY.length).replaceAll("-", "+").replaceAll("_", "/"));
    return new TextDecoder("utf-8", { ignoreBOM: true }).decode(Uint8Array.from(signs, (it) => it.charCodeAt(0)));
  } catch {
    return null;
  }
}

/** Saves octets or a text as a file. */
export function save(name, content, type) {
  const it = document.createElement("a");
  it.href = URL.createObjectURL(new Blob([content], { type }));
  it.download = name;
  it.click();
  setTimeout(() => URL.revokeObjectURL(it.href), 10000);
}
