/** Jirrambeo in Node's own process. docs/FORMAT.md says what each part means. */

/** A unit, as JSON in UTF-8, as a string, or as the object that it is. */
export type Unit = Uint8Array | string | object;
/** The number of a nested function, or `root`. */
export type FunctionName = number | 'root';

export type ValueKind = 'Primitive' | 'Global' | 'Frozen' | 'Mutable' | 'Context' | 'MaybeFrozen';
export type ValueReason = 'KnownReturnSignature' | 'State' | 'ReducerState' | 'Context' | 'Effect' | 'HookCaptured' | 'HookReturn' | 'Global' |
  'JsxCaptured' | 'StoreLocal' | 'ReactiveFunctionArgument' | 'Other';
export type Category = 'Invariant' | 'Todo' | 'Immutability' | 'Globals' | 'Purity' | 'IncompatibleLibrary';

/** Numbers of identifiers stand in all fields but `report`, the place in `reports`, and the `function` of CreateFunction, that of a nested one. */
export type Effect =
  | {kind: 'Create', into: number, value: ValueKind, reason: ValueReason}
  | {kind: 'CreateFrom' | 'ImmutableCapture' | 'Assign' | 'Alias' | 'Capture' | 'MaybeAlias', from: number, into: number}
  | {kind: 'Freeze', value: number, reason: ValueReason}
  | {kind: 'Mutate', value: number, reason: 'AssignCurrentProperty' | null}
  | {kind: 'MutateConditionally' | 'MutateTransitive' | 'MutateTransitiveConditionally', value: number}
  | {kind: 'Render', place: number}
  | {kind: 'MutateFrozen' | 'MutateGlobal' | 'Impure', place: number, report: number}
  | {kind: 'CreateFunction', into: number, function: number, captures: Array<number>}
  | {kind: 'Apply', receiver: number, function: number, arguments: Array<number>, into: number};

export interface Block {
  id: number;
  /** Those that have effects, by their places in the function's list. */
  instructions: Array<{instruction: number, effects: Array<Effect>}>;
  /** Of the terminal. */
  end: Array<Effect>;
}
export interface InferredFunction {
  name: FunctionName;
  /** Those that are reached. */
  blocks: Array<Block>;
  /** What a call does. */
  summary: Array<Effect>;
}
/** From one order of evaluation to before another. */
export interface MutableRange {
  start: number;
  end: number;
}
/** In what the unit counts: bytes of UTF-8, or units of UTF-16. */
export interface Span {
  start: number;
  end: number;
}
export interface Report {
  category: Category;
  message: string;
  help: string | null;
  labels: Array<{span: Span, text: string | null}>;
}
export interface Inference {
  /** A nested one before the one that creates it; the root is the last. */
  functions: Array<InferredFunction>;
  ranges: Array<{identifier: number} & MutableRange>;
  reports: Array<Report>;
}

export type Site =
  | {kind: 'Parameter' | 'Context' | 'Default', identifier: number}
  | {kind: 'Created', into: number, value: ValueKind, reason: ValueReason}
  | {kind: 'CreatedFrom' | 'AssignFrozen' | 'AssignCopy', from: number, into: number}
  | {kind: 'Function', function: number};
export interface State {
  values: Array<{site: Site, kind: ValueKind, reasons: Array<ValueReason>}>;
  variables: Array<{identifier: number, sites: Array<Site>}>;
}
export interface CertifiedFunction extends InferredFunction {
  visits: Array<number>;
  blocks: Array<Block & {entry: State}>;
  first: Array<Effect>;
  temporaries: Array<{identifier: number, key: {kind: 'Named', into: number, name: string} | {kind: 'Rest', function: number}}>;
}
export interface Certificate extends Inference {
  functions: Array<CertifiedFunction>;
  /** As the program writes it, which `check` reads. */
  text: string;
}
export interface BriefFunction extends InferredFunction {
  /** With what each is entered with beyond what arrives over edges to later blocks. */
  blocks: Array<Block & {beyond: State}>;
  /** Of a function that has edges to earlier blocks. */
  temporaries: CertifiedFunction['temporaries'];
}
export interface Brief extends Inference {
  functions: Array<BriefFunction>;
  /** As the program writes it, which `verify` reads. */
  text: string;
}
export interface Lint extends Report {
  function: FunctionName;
  block: number;
  /** The place in the function's list, or the end of the block. */
  instruction: number | 'end';
}
export interface Step {
  identifier: number;
  reach: 'local' | 'transitive';
  direction: 'Backwards' | 'Forwards';
  kind: 'Definite' | 'Conditional';
}
export interface Explanation {
  /** 0 to 0 where nothing sets one. */
  range: MutableRange;
  cause: {kind: 'unset' | 'nocause'} | {kind: 'defined', instruction: number} | {kind: 'mutated', instruction: number, path: Array<Step>};
}
export type Plainness = {plain: true} | {plain: false, function: FunctionName, instruction: number, condition: number};
export interface Counts {
  blocks: number;
  instructions: number;
  effects: number;
  visits: number;
  ranges: number;
  reports: number;
}

/** Why there is no result. */
export class JirrambeoError extends Error {
  /** Of a run that ended with this status, but 0, and this text. */
  constructor(status: number, text: string);
  /** With which the program ends: docs/FORMAT.md, Statuses. */
  readonly status: number;
  /** What the program writes; empty where memory ran out. */
  readonly line: string;
  /** The word behind `refused`; `Memory` where it ran out. */
  readonly refusal: string;
  /** What stands behind that word, by names: {pointer, rule}, {function, instruction, identifier}, {line, follows} and so on. */
  readonly data: Readonly<Record<string, any>>;
}

/* Each throws a JirrambeoError where there is no result, and a TypeError where an argument is of another type. */

export function infer(unit: Unit): Inference;
export function certify(unit: Unit): Certificate;
/** Whether the certificate is one of the unit: what `certify` gave, its text, or what anybody says in its place. */
export function check(unit: Unit, certificate: Uint8Array | string | Certificate): {functions: number};
/** What `infer` gives, with what `verify` needs of loops. */
export function brief(unit: Unit): Brief;
/** Whether each line is the one that follows: of what `brief` gave, of its text, or of what anybody says in its place. */
export function verify(unit: Unit, text: Uint8Array | string | Brief): {functions: number};
export function lint(unit: Unit): Array<Lint>;
export function explain(unit: Unit, fn: FunctionName, identifier: number): Explanation;
export function explainFunction(unit: Unit, fn: FunctionName): Array<{identifier: number} & Explanation>;
export function plain(unit: Unit): Plainness;
export function made(seed: number | bigint, size: number): Counts;
/** What words ask for that single spaces part, as the program answers them. */
export function run(words: string, input?: Unit): {status: number, text: string};

/** Calls of the same words on threads of their own, so that the caller goes on; each input is copied. */
export interface Calls {
  put(input: Unit): void;
  /** Of each, in their order, once all have ended. It is asked for once, and nothing is put in after. */
  answers(): Array<{status: number, text: string}>;
}
export function begin(words: string): Calls;

/* The same on the thread pool, and so beside the thread that calls. The unit is copied. */

export function inferAsync(unit: Unit): Promise<Inference>;
export function certifyAsync(unit: Unit): Promise<Certificate>;
export function checkAsync(unit: Unit, certificate: Uint8Array | string | Certificate): Promise<{functions: number}>;
export function briefAsync(unit: Unit): Promise<Brief>;
export function verifyAsync(unit: Unit, text: Uint8Array | string | Brief): Promise<{functions: number}>;
export function lintAsync(unit: Unit): Promise<Array<Lint>>;
export function explainAsync(unit: Unit, fn: FunctionName, identifier: number): Promise<Explanation>;
export function explainFunctionAsync(unit: Unit, fn: FunctionName): Promise<Array<{identifier: number} & Explanation>>;
export function plainAsync(unit: Unit): Promise<Plainness>;
export function madeAsync(seed: number | bigint, size: number): Promise<Counts>;
export function runAsync(words: string, input?: Unit): Promise<{status: number, text: string}>;
