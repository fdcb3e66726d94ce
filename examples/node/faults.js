// Checks documents over a schema that is held, and prints each fault with its line, column, rule and hint: faults SCHEMA DOCUMENT...
const { readFileSync } = require("fs");
const { Schema, faultText } = require("graphql-checked");

const [schemaPath, ...paths] = process.argv.slice(2);
const schema = new Schema({ text: readFileSync(schemaPath), path: schemaPath });
for (const path of paths) {
    const { accepted, faults } = schema.check(readFileSync(path), { path });
    console.log(accepted ? `${path}: accepted` : faults.map(faultText).join("\n"));
}
schema.close();
