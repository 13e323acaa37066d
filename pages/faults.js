// What a reader is told where something can't be done.

/** A fault whose message is made for readers. Any other error is one of the page's own. */
export class Told extends Error {}

/** What a reader is told of an error. */
export const wordsOf = error => error instanceof Told ? error.message : 'The page failed: ' + String(error);
