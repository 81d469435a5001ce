/** Cuts a TypeScript text into token words, the end among them. No part of the proved library, which checks every word again. */
export function cut(text: string): BigUint64Array;
