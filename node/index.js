"use strict";
const addon = require("./graphql_checked.node");

const NOT_UTF8 = 3, MEMORY = 4, STACK = 5, INDENT = 8, CLOSED = 9, BUSY = 11;
const LONGEST_INDENT = 98; // as binding.c has room for
const CODES = { [NOT_UTF8]: "ERR_NOT_UTF8", [MEMORY]: "ERR_OUT_OF_MEMORY", [STACK]: "ERR_STACK", [INDENT]: "ERR_INDENT", [CLOSED]: "ERR_CLOSED", [BUSY]: "ERR_BUSY" };

/** Texts are refused, where a schema or a text was asked for. */
class RefusedError extends Error {
    constructor(faults) {
        super(faults.map(faultText).join("\n"));
        this.name = "RefusedError";
        this.code = "ERR_REFUSED";
        this.faults = faults;
    }
}

/** A fault in a line. */
function faultText(fault) {
    const place = fault.line === null ? "" : `${fault.path}:${fault.line}:${fault.column}: `;
    return `${place}${fault.rule}: ${fault.message}${fault.hint === null ? "" : ` (${fault.hint})`}`;
}

/** The bytes of a text. A string with half a pair of surrogates is no text: its bytes would be those of another. */
function bytesOf(text) {
    if (typeof text === "string") {
        if (/\p{Surrogate}/u.test(text)) throw failure(NOT_UTF8);
        return Buffer.from(text, "utf8");
    }
    if (Buffer.isBuffer(text)) return text;
    if (text instanceof Uint8Array) return Buffer.from(text.buffer, text.byteOffset, text.byteLength);
    throw new TypeError(`a text is to be a string, a Buffer or a Uint8Array, not ${text === null ? "null" : typeof text}`);
}

function limitOf(number, what) {
    if (!Number.isSafeInteger(number) || number < 0) throw new RangeError(`${what} is to be an integer from 0`);
    return number;
}

/** The indent of a line, and null for one line. */
function indentOf(indent) {
    if (indent === null) return null;
    if (typeof indent !== "number" && typeof indent !== "string") throw new TypeError(`an indent is to be a number, a string or null, not ${typeof indent}`);
    if ((typeof indent === "number" ? limitOf(indent, "an indent") : indent.length) > LONGEST_INDENT) throw new RangeError(`an indent is to have at most ${LONGEST_INDENT} characters`);
    return typeof indent === "number" ? " ".repeat(indent) : indent;
}

class Schema {
    #handle;
    #paths;
    #last = Promise.resolve();
    #waiting = 0;

    constructor(texts, { nesting = 0, stack = 0, maxFaults = 0 } = {}) {
        const all = (Array.isArray(texts) ? texts : [texts]).map((text) => (typeof text === "object" && text !== null && "text" in text ? text : { text }));
        this.#paths = all.map(({ path }, index) => path ?? (all.length === 1 ? "schema" : `schema ${index + 1}`));
        const limits = [limitOf(nesting, "a nesting"), limitOf(stack, "a stack"), limitOf(maxFaults, "a number of faults")];
        const names = all.map((_, index) => String(index));
        const { status, told, handle } = addon.open(names, all.map(({ text }) => bytesOf(text)), ...limits);
        this.#handle = handle;
        this.#accepted(status, told, "schema");
    }

    /** What is wrong with a document: nothing where it is accepted. */
    check(document, { path = "document" } = {}) {
        const { status, told } = addon.check(this.#open(), this.#name(), bytesOf(document));
        return this.#report(status, told, path);
    }

    /** The same on a thread of Node's pool; one after another, in order. */
    async checkLater(document, { path = "document" } = {}) {
        const bytes = Buffer.from(bytesOf(document));
        this.#open(true);
        this.#waiting++;
        const ask = () => addon.checkLater(this.#open(true), this.#name(), bytes);
        const asked = this.#last.then(ask).finally(() => this.#waiting--);
        this.#last = asked.catch(() => {});
        const { status, told } = await asked;
        return this.#report(status, told, path);
    }

    /** The canonical text of the schema. */
    text(indent = 2) {
        const { status, told } = addon.text(this.#open(), indentOf(indent));
        return this.#accepted(status, told, "schema");
    }

    /** The canonical text of a document. */
    documentText(document, indent = 2, { path = "document" } = {}) {
        const { status, told } = addon.documentText(this.#open(), this.#name(), bytesOf(document), indentOf(indent));
        return this.#accepted(status, told, path);
    }

    /** Frees the schema, once the checks that wait are done. */
    close() {
        const handle = this.#handle;
        this.#handle = undefined;
        if (handle === undefined) return;
        if (this.#waiting === 0) addon.close(handle);
        else this.#last.then(() => addon.close(handle));
    }

    #name() {
        return String(this.#paths.length);
    }

    #open(isLater = false) {
        if (this.#handle === undefined) throw failure(CLOSED);
        if (!isLater && this.#waiting > 0) throw failure(BUSY);
        return this.#handle;
    }

    #report(status, told, path) {
        if (status > 1) throw failure(status);
        const faults = told.split("\n").slice(0, -1).map((line) => this.#fault(JSON.parse(line), path));
        return { accepted: faults.length === 0, faults };
    }

    #accepted(status, told, path) {
        if (status === 1) throw new RefusedError(this.#report(status, told, path).faults);
        if (status > 1) throw failure(status);
        return told;
    }

    /** The fault, with the paths of its texts in the place of the numbers by which the library knows them. */
    #fault(fault, path) {
        const of = (name) => this.#paths[name] ?? (name === this.#name() ? path : name);
        return { ...fault, path: of(fault.path), related: fault.related.map((it) => ({ ...it, path: of(it.path) })) };
    }
}

/** Why there is no answer. */
function failure(status) {
    return Object.assign(new Error(`graphql-checked: ${addon.statusText(status)}`), { code: CODES[status] });
}

/** How the library was made. */
const build = addon.build();

module.exports = { Schema, RefusedError, faultText, build, proved: build.endsWith(", proved)"), version: build.split(" ")[0] };
