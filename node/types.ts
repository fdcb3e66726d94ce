// What index.d.ts declares, as callers use it: scripts/c_library has tsc look at it, and nothing runs it.
import { Fault, RefusedError, Report, Schema, build, faultText, proved, version } from "./index";

const schema = new Schema(["type Query { a: Int }", { text: new Uint8Array(), path: "other.graphql" }], { nesting: 100, stack: 0, maxFaults: 10 });
const report: Report = schema.check("{ a }", { path: "query.graphql" });
const later: Promise<Report> = schema.checkLater(new Uint8Array());
const texts: string[] = [schema.text(), schema.text(null), schema.text(4), schema.documentText("{ a }", "\t", { path: "query.graphql" })];
const told: (fault: Fault) => string = ({ path, line, column, end, rule, hint, related }) =>
    [path, line ?? 0, column ?? 0, end?.line, rule, hint ?? "none", ...related.map((place) => place.words)].join(" ");

function refused(error: unknown): string[] {
    return error instanceof RefusedError ? error.faults.map(faultText) : [];
}

// @ts-expect-error: a number is no text
schema.check(5);
// @ts-expect-error: a fault may have no place
report.faults.map(({ line }) => line + 1);
// @ts-expect-error: there is no such option
new Schema("type Query { a: Int }", { depth: 1 });

schema.close();
export default { later, texts, told, refused, isProved: proved === true, names: build + version };
