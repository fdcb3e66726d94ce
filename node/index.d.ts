/** A text: a string, or bytes in UTF-8. */
export type Text = string | Uint8Array;

export interface Position {
    /** From 1. */
    line: number;
    /** From 1, in characters. */
    column: number;
}

/** Another place that belongs to a fault. */
export interface Related {
    /** The path of the text; `<built in>` for what is built in. */
    path: string;
    line: number | null;
    column: number | null;
    /** What stands there. */
    words: string;
}

/** What is wrong, and where. What is built in has no place. */
export interface Fault {
    /** The path of the text; `<built in>` for what is built in. */
    path: string;
    line: number | null;
    column: number | null;
    /** The place after its last character. */
    end: Position | null;
    /** How many bytes of the text, in UTF-8, are before it. */
    offset: number | null;
    /** In bytes. */
    length: number | null;
    severity: "error";
    /** A name of docs/RULES.md; or `Syntax` where a text is not read, `Nesting` or `RecursionLimitError` past a limit, `Spent` where
     * numbers ran out. */
    rule: string;
    message: string;
    related: Related[];
    /** What may be meant, or what to do. */
    hint: string | null;
    /** Its data, as `type_name`. */
    fields: Record<string, string>;
}

/** What is found of a document. */
export interface Report {
    /** Whether it is accepted: there is no fault. */
    accepted: boolean;
    faults: Fault[];
}

export interface Options {
    /** How many brackets may be open at once; 0 for 398. */
    nesting?: number;
    /** How many bytes of stack each calling thread has left at least; for 0 the thread is asked. */
    stack?: number;
    /** How many faults a report has at most; 0 for all. */
    maxFaults?: number;
}

/** Texts are refused, where a schema or a text was asked for. */
export class RefusedError extends Error {
    readonly code: "ERR_REFUSED";
    readonly faults: Fault[];
}

/** The schema of some texts, kept for many documents. Each call throws an Error with a `code` where it has no answer. */
export class Schema {
    /** Throws RefusedError where the texts are refused. */
    constructor(texts: Text | { text: Text; path?: string } | (Text | { text: Text; path?: string })[], options?: Options);
    check(document: Text, options?: { path?: string }): Report;
    /** The same on a thread of Node's pool, one after another, in order. Until all are done the other calls throw ERR_BUSY. What
     * `check` throws, the promise is rejected with. */
    checkLater(document: Text, options?: { path?: string }): Promise<Report>;
    /** The canonical text of the schema, under so many spaces, or an indent of spaces and tabs, at most 98; on one line for null. */
    text(indent?: number | string | null): string;
    /** The canonical text of a document. Throws RefusedError where it is refused. */
    documentText(document: Text, indent?: number | string | null, options?: { path?: string }): string;
    /** Frees the schema, once the checks that wait are done. It is freed too when nothing refers to it. */
    close(): void;
}

/** A fault in a line. */
export function faultText(fault: Fault): string;
/** How the library was made: its version, the commit of its sources, and `proved` or `not proved`. */
export const build: string;
/** Whether the library was proved before it was built. */
export const proved: boolean;
/** The version of the library. */
export const version: string;
