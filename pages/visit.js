// What belongs to the address that is shown now, and ends as another one is.

let now = new AbortController(), urls = [];

/** Aborted as another address is shown. */
export const visitSignal = () => now.signal;

/** The address of a blob, for an element that is shown now. The type is one of this page's, never one that came. */
export function urlOf(blob, type) {
  const url = URL.createObjectURL(new Blob([blob], { type }));
  urls.push(url);
  return url;
}

export function endVisit() {
  now.abort();
  now = new AbortController();
  urls.forEach(url => URL.revokeObjectURL(url));
  urls = [];
}
