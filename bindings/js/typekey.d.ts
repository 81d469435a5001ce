/** Loads typekey.wasm: its bytes, a compiled module, or where it is (a URL, in Node also a path). By itself: beside this module. */
export function load(source?: BufferSource | WebAssembly.Module | URL | string): Promise<TypeKey>;

/** The library. It keeps nothing between calls; one instance serves one call at a time. A trap is thrown, and the instance thrown away. */
export class TypeKey {
  private constructor();
  /** Reads a type from a text and its token words. */
  read(text: string | Uint8Array, tokens: BigUint64Array | Iterable<bigint>, options?: { preserveParens?: boolean; start?: number }): Reading | ReadRefusal;
  /** Takes a key back: the tree that it stands for. Positions in it are 0. */
  takeBack(key: Uint8Array): Taken | KeyRefusal;
  /** Says what differs between two keys. `most`: refuse if there are more pairs; by itself there is room for all. */
  differ(left: Uint8Array, right: Uint8Array, options?: { most?: number }): Compared | DifferRefusal;
  /** The call as C sees it, and all that was lent. Words are two halves each, the lower first. */
  readInto(text: Uint8Array, tokens: BigUint64Array, start: number, options: number, room: { nodes: number; names: number; notes: number; key: number }):
    { answer: number[]; nodes: Uint32Array; names: Uint32Array; notes: Uint32Array; key: Uint8Array };
  takeBackInto(key: Uint8Array, room: { nodes: number; names: number; text: number }):
    { answer: number[]; nodes: Uint32Array; names: Uint32Array; text: Uint8Array };
  differInto(left: Uint8Array, right: Uint8Array, words: number): { answer: number[]; list: Uint32Array };
  /** For tests: a byte that lent memory is filled with before each call. */
  dirt: number | undefined;
}

export interface Reading {
  ok: true;
  key: Uint8Array;
  tree: Tree;
  diagnostics: Diagnostic[];
  /** Where reading stopped: a token, and 1 if the first half of it was used. */
  end: { token: number; half: number };
  /** How many type rules were entered: the types that were begun, those in a constraint of infer each time that it is read. At most 16 times the number of tokens. */
  entered: number;
}

export interface Taken {
  ok: true;
  tree: Tree;
}

export interface ReadRefusal {
  ok: false;
  number: 1 | 2 | 3 | 5 | 6 | 7 | 8 | 9 | 11 | 20 | 21 | 22 | 23 | 24 | 25 | 26 | 27 | 28 | 31;
  name: RefusalName;
  /** The token's index; 0 for BadList and NoSpace, which have no place. */
  token: number;
  /** 1 if its first half was used, as the first `<` of `<<`. */
  half: 0 | 1;
  /** The first byte not yet used, which is the one to point at; 0 for BadList, BadToken and NoSpace. */
  byte: number;
  sentence: string;
}

export interface KeyRefusal {
  ok: false;
  number: 6 | 8 | 10 | 11;
  name: RefusalName;
  bit: number;
  sentence: string;
}

export interface Compared {
  ok: true;
  /** Where the trees differ, in the key's order: no pair exactly when the keys are the same bytes. */
  pairs: Pair[];
}

/** The first bits of two nodes that differ in themselves, of which nothing inside is told; or of two spellings that differ. */
export interface Pair {
  /** A bit of the left key, as in `Node.bits`. */
  left: number;
  right: number;
}

export interface DifferRefusal {
  ok: false;
  number: 6 | 10 | 29;
  name: RefusalName;
  /** Whose key it is; `neither` for ManyDifferences. */
  side: 'left' | 'right' | 'neither';
  bit: number;
  sentence: string;
}

export type RefusalName =
  | 'BadList' | 'BadToken' | 'Unexpected' | 'TooDeep' | 'TooTall' | 'TooLong' | 'NoRoom' | 'ManyNotes' | 'BadKey' | 'NoSpace' | 'ManyTrials' | 'ManyDifferences' | FormName;

/** Of a form that is known and not read: 20 to 27 and 31. */
export type FormName =
  | 'PrefixMark' | 'ParameterModifier' | 'DefaultValue' | 'MisplacedThis' | 'RestNotLast' | 'TypeParameterModifier' | 'ImportSource' | 'ImportOptions' | 'MemberForm';

export interface Diagnostic {
  number: 1 | 2 | 3 | 4 | 5 | 6 | 7 | 8 | 9 | 10 | 11 | 12 | 13;
  name:
    | 'EmptyTypeParameters' | 'EmptyArguments' | 'ThisOnConstructor' | 'RequiredAfterOptional' | 'RestAfterLabel' | 'OptionalAfterLabel' | 'OptionalRest'
    | 'OptionalIndex' | 'CommaAfterIndex' | 'LiteralIndex' | 'KeywordIndex' | 'NotOneIndex' | 'ReservedName';
  /** Bytes of the text. */
  first: number;
  end: number;
  /** A second place: of RequiredAfterOptional the latest optional element before the required one. Others have none. */
  other: { first: number; end: number } | null;
  sentence: string;
}

/** A tree. Iterating gives its nodes in the key's order: each before its children. */
export class Tree implements Iterable<Node> {
  private constructor();
  /** What spans point into: the text that was read, or the spellings of a key. */
  text: Uint8Array;
  readonly root: Node;
  readonly nodes: readonly Node[];
  [Symbol.iterator](): Iterator<Node>;
  /** Goes through the key field by field: a width and a number, or 0 and the bytes of a spelling. */
  fields(tell?: (width: number, value: number | Uint8Array) => void): Node[];
}

export type Tag =
  | 'reference' | 'keyword' | 'literal' | 'parens' | 'union' | 'intersection' | 'array' | 'indexed' | 'conditional' | 'infer' | 'operator'
  | 'function' | 'constructor' | 'mapped' | 'template' | 'predicate' | 'typeof' | 'import' | 'tuple' | 'optional' | 'rest' | 'named'
  | 'non-null' | 'nullable' | 'object' | 'type parameter' | 'parameter'
  | 'property' | 'method' | 'call signature' | 'construct signature' | 'index signature';

export interface Node {
  tag: Tag;
  /** What it is to the node above, such as `extends`; `root` for the first. */
  role: string;
  depth: number;
  /** Its bytes in the text; 0 and 0 in a tree that was taken back. */
  first: number;
  end: number;
  /** What the node itself says: `word` of a keyword or operator, `sort` of a literal, `key` of a property or method (name, string or number), `readonly`, `optional`, `rest`, … */
  choices: Record<string, boolean | number | string>;
  /** Names, literals, keys of members and template pieces in the key's order, and where they stand in the tree's text. */
  spellings: string[];
  spans: { first: number; end: number }[];
  children: Node[];
  /** Its bits in the key. */
  bits: { first: number; end: number };
}

/** The bytes of a text. Throws where UTF-8 cannot say it. */
export function bytesOf(text: string | Uint8Array): Uint8Array;
/** The index in a string of a byte of its UTF-8. */
export function indexAt(text: string, byte: number): number;
/** A token word: for a cutter of your own. */
export function token(kind: number, start: number, length: number, newline?: boolean): bigint;
export function toHex(key: Uint8Array, between?: string): string;
/** Throws a SyntaxError that says what is wrong. */
export function fromHex(text: string): Uint8Array;
