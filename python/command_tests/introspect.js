// Prints the result of the introspection query over the schema text of standard input, as graphql-js gives it.
const { readFileSync } = require("fs");
const { buildSchema, introspectionFromSchema } = require("graphql");
const all = { descriptions: true, specifiedByUrl: true, directiveIsRepeatable: true, schemaDescription: true, inputValueDeprecation: true };
const schema = buildSchema(readFileSync(0, "utf8"), { assumeValid: process.argv[2] === "unchecked" });
console.log(JSON.stringify({ data: introspectionFromSchema(schema, all) }));
