/** Saves texts as files, and opens files as texts. */
import { html } from './dom.js';

const KEPT_MS = 60000;

/**
 * Hands a text to the browser as a file.
 * @param {string} name
 * @param {string} text
 */
export function save(name, text) {
  const address = URL.createObjectURL(new Blob([text], { type: 'text/plain;charset=utf-8' }));
  const link = html('a', { href: address, download: name, hidden: true });
  document.body.append(link);
  link.click();
  link.remove();
  setTimeout(() => URL.revokeObjectURL(address), KEPT_MS);
}

/**
 * A file's text: UTF-8 without a byte order mark; if it isn't that, the letters of Windows.
 * @param {Blob} file
 */
export async function textOf(file) {
  const bytes = await file.arrayBuffer();
  try {
    return new TextDecoder('utf-8', { fatal: true }).decode(bytes);
  } catch {
    return new TextDecoder('windows-1252').decode(bytes);
  }
}

/**
 * A name for a file, from that of the building's file or its title.
 * @param {string} name
 * @param {string} ending
 */
export function fileName(name, ending) {
  const stem = name.replace(/\.[A-Za-z0-9]*$/, '').replace(/[^\p{L}\p{N}._-]+/gu, '-').replace(/^[-.]+|[-.]+$/g, '').slice(0, 60);
  return `${stem || 'building'}${ending}`;
}
