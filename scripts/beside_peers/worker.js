// Answers for graphql-js: node worker.js FOLDER, where FOLDER is that of the package graphql. A line on standard input is a list, each
// of whose items has a schema and documents; the answer is a list with what graphql-js has against each schema, and against each document
// over it, nothing where the schema is refused. With `count` the documents are checked so often, and what is refused is
// counted.
"use strict";
const path = process.argv[2];
const graphql = require(path);
const { validateSDL } = require(path + "/validation/validate.js");

const told = (error) => (error instanceof graphql.GraphQLError ? error.message : "crash: " + error);

function read(text) {
  try {
    const tree = graphql.parse(text);
    const broken = validateSDL(tree);
    if (broken.length) return { faults: broken.map(told) };
    const schema = graphql.buildASTSchema(tree, { assumeValidSDL: true });
    return { schema, faults: graphql.validateSchema(schema).map(told) };
  } catch (error) {
    return { faults: [told(error)] };
  }
}

function check(schema, text) {
  try {
    return graphql.validate(schema, graphql.parse(text), undefined, { maxErrors: 1000 }).map(told);
  } catch (error) {
    return [told(error)];
  }
}

function answer(asked) {
  const made = read(asked.schema);
  if (asked.count) {
    let refused = 0;
    for (let i = 0; i < asked.count; i++) for (const text of asked.documents) refused += check(made.schema, text).length ? 1 : 0;
    return { schema: made.faults, refused };
  }
  if (made.faults.length) return { schema: made.faults, documents: asked.documents.map(() => []) };
  return { schema: [], documents: asked.documents.map((text) => check(made.schema, text)) };
}

require("readline")
  .createInterface({ input: process.stdin })
  .on("line", (line) => process.stdout.write(JSON.stringify(JSON.parse(line).map(answer)) + "\n"));
