// Tests of the package over its built addon: node --expose-gc node/test.js
"use strict";
const assert = require("assert");
const { Schema, RefusedError, faultText, build, proved, version } = require(".");
const { Worker, isMainThread, parentPort } = require("worker_threads");

const SHOP = "type Query {\n  product: Product\n}\ntype Product { id: ID! price: Int }\n";
const codeOf = (call) => {
    try {
        call();
    } catch (error) {
        return error.code ?? error.name;
    }
    return "no error";
};

function reports() {
    const schema = new Schema([{ text: SHOP, path: "shop.graphql" }, "extend type Product { name(a: Int!): String }"]);
    assert.deepStrictEqual(schema.check("{ product { id } }"), { accepted: true, faults: [] });
    const [fault] = schema.check("{ product {\n  prize } }", { path: "query.graphql" }).faults;
    assert.deepStrictEqual(fault, {
        path: "query.graphql", line: 2, column: 3, end: { line: 2, column: 8 }, offset: 14, length: 5, severity: "error",
        rule: "UndefinedField", message: "`Product` has no field `prize`", related: [], hint: "did you mean `price`?", fields: { type_name: "Product", field_name: "prize" },
    });
    assert.strictEqual(faultText(fault), "query.graphql:2:3: UndefinedField: `Product` has no field `prize` (did you mean `price`?)");
    const [other] = schema.check(new Uint8Array(Buffer.from("{ product { name } }"))).faults;
    assert.deepStrictEqual(other.related, [{ path: "schema 2", line: 1, column: 28, words: "the definition" }]);
    assert.strictEqual(schema.text(null).split(" ")[1], "Query");
    assert.strictEqual(schema.documentText("{product{id}}"), "{\n  product {\n    id\n  }\n}\n");
    assert.throws(() => schema.documentText("{b}"), RefusedError);
    assert.throws(() => new Schema("type Query { a: Missing }"), (error) => error instanceof RefusedError && error.faults[0].rule === "UndefinedDefinition");
    assert.strictEqual(new Schema("type Query { a: Int }", { maxFaults: 2 }).check("{ b c d }").faults.length, 2);
    schema.close();
    schema.close();
    assert.strictEqual(codeOf(() => schema.check("{ a }")), "ERR_CLOSED");
}

function wrong() {
    const schema = new Schema(SHOP), addon = require("./graphql_checked.node");
    for (const text of [5, null, undefined, {}, [1]]) {
        assert.strictEqual(codeOf(() => schema.check(text)), "TypeError");
        assert.strictEqual(codeOf(() => new Schema(text)), "TypeError");
    }
    assert.strictEqual(codeOf(() => new Schema(Buffer.from([0xff]))), "ERR_NOT_UTF8");
    assert.strictEqual(codeOf(() => schema.check(Buffer.from([0xff]))), "ERR_NOT_UTF8");
    assert.strictEqual(codeOf(() => new Schema(SHOP, { nesting: 2 ** 40 })), "ERR_STACK");
    assert.strictEqual(codeOf(() => new Schema(SHOP, { nesting: -1 })), "RangeError");
    assert.strictEqual(codeOf(() => schema.check("{ a } # \ud800")), "ERR_NOT_UTF8");
    assert.strictEqual(codeOf(() => new Schema("# \udc00\ud800")), "ERR_NOT_UTF8");
    assert.deepStrictEqual(schema.check("{ product { id } } # \ud83d\ude00").faults, []);
    assert.strictEqual(codeOf(() => schema.text("-")), "ERR_INDENT");
    assert.strictEqual(schema.text(98).split("\n")[1], `${" ".repeat(98)}product: Product`);
    for (const indent of [99, " ".repeat(99)]) assert.strictEqual(codeOf(() => schema.text(indent)), "RangeError");
    for (const indent of [{}, true]) assert.strictEqual(codeOf(() => schema.text(indent)), "TypeError");
    // other externals, and objects, are no handles
    for (const value of [{}, 5, null, process.binding ? Object.create(null) : {}, Buffer.from("a")]) {
        assert.throws(() => addon.check(value, "1", Buffer.from("{ a }")), TypeError);
        assert.throws(() => addon.close(value), TypeError);
    }
    assert.throws(() => addon.check(), TypeError);
    assert.throws(() => addon.open(["0"], [], 0, 0, 0), TypeError);
}

async function later() {
    const schema = new Schema(SHOP);
    const documents = Array.from({ length: 50 }, (_, index) => (index % 2 ? "{ product { id } }" : `{ ${"x ".repeat(index + 1)} }`));
    const all = documents.map((document) => schema.checkLater(document));
    assert.strictEqual(codeOf(() => schema.check("{ a }")), "ERR_BUSY");
    const counts = (await Promise.all(all)).map(({ faults }) => faults.length);
    assert.deepStrictEqual(counts, documents.map((_, index) => (index % 2 ? 0 : index + 1)));
    await assert.rejects(schema.checkLater(Buffer.from([0xff])), { code: "ERR_NOT_UTF8" });
    await assert.rejects(schema.checkLater("\ud800"), { code: "ERR_NOT_UTF8" });
    await assert.rejects(schema.checkLater(5), TypeError);
    const last = schema.checkLater("{ a }");
    schema.close();
    await assert.rejects(last, { code: "ERR_CLOSED" });
    // a schema that is let go while a check is under way
    await new Schema(SHOP).checkLater("{ product { id } }");
}

// Schemas that nobody keeps are freed: the collector knows what they hold.
async function collected() {
    const fields = Array.from({ length: 2000 }, (_, index) => `field${index}: Int`).join(" ");
    for (let i = 0; i < 400; i++) {
        new Schema(`type Query { ${fields} }`);
        if (i % 20 === 0) await new Promise(setImmediate);
    }
    const megabytes = Math.round(process.memoryUsage().rss / 2 ** 20);
    assert.ok(megabytes < 400, `${megabytes} MB`);
    return megabytes;
}

async function main() {
    reports();
    wrong();
    await later();
    assert.ok(build.startsWith(`${version} (commit `) && proved === !build.endsWith(", not proved)"));
    const told = await new Promise((resolve, reject) => new Worker(__filename).on("message", resolve).on("error", reject));
    assert.strictEqual(told, 1);
    console.log(`as wanted, at most ${await collected()} MB`);
}

if (isMainThread) main();
else parentPort.postMessage(new Schema(SHOP).check("{ a }").faults.length);
