"""Why the checker and a peer disagree: each class has a name, and cites a row of docs/DIFFERENCES.md or the section of October 2021
from which the peer departs.

A class explains one thing that is told by the one that refuses: a fault of the checker, as `Rule: message`, where the peer accepts; a
message of the peer where it refuses. `when` is what must hold of the texts, as tokens with one space between. Its example is the
smallest text that shows it, and is tried on each run."""
import re
from typing import Callable, NamedTuple, Optional

from . import tests

# The rows of docs/DIFFERENCES.md that classes cite: their first cells.
CHARACTERS = "2.1: characters are U+9, U+A, U+D, U+20 to U+FFFF"
SURROGATES = "2.9.4: `\\u` with any four hexadecimal digits"
CUSTOM = "3.5: the service says what a custom scalar takes"
FINITE = "3.5.2: a Float is a finite 64-bit number"
ARGUMENT_NAMES = "3.6: two arguments of a definition may share a name (not in later editions)"
MORE_ARGUMENTS = '3.6: an argument that an interface does not have "must not be required, e.g. must not be of a non-nullable type"'
DEFAULTS = "3.6.1, 3.10: in later editions a default fits its type"
ON_DIRECTIVES = "3.13: a directive's definition has no directives"
DEPRECATED = "3.13.3, 4.2: fields and enum values may be `@deprecated`"
EXTENDED = "4.2: the types of introspection are as defined there"
ONE_FIELD = "5.2.3.1: the root of a subscription has one response name, of what can apply there"
CONDITIONS = "5.2.3.1 does not mention `@skip` and `@include`"
SAME_TYPE = "5.5.2.3: some type is possible for both"
OF_SCALARS = "5.7: directives are defined, in their locations, unique, and have the right arguments"
NULL_DEFAULT = "5.8.5: a default that is null is none"
INSIDE = "5.8.5: of each variable that is used"
DEFER = "October 2021 has no `@defer`"

JS, GO, CORE = "graphql-js", "gqlparser", "graphql-core"
SMALL = "type Query { a : Int }"
VALUES = "UnsupportedValueType|UndefinedEnumValue|UndefinedInputValue|RequiredField|IntCoercionError"


class Class(NamedTuple):
    """A class: its name, the peer, whether the peer `accepts` or `refuses`, at `schema` or `document`, what is told, as a regular
    expression, the row of DIFFERENCES (the first cell) or `slip, ` and the section, and texts that show it."""

    name: str
    peer: str
    side: str
    at: str
    told: str
    cites: str
    schema: str
    document: str = "{ a }"
    when: Optional[Callable] = None

    def explains(self, found, told, schema, document):
        """Whether this is why something is told."""
        return ((self.peer, self.side, self.at) == (found.peer, found.side, found.at)
                and re.search(self.told, told) is not None and (self.when is None or bool(self.when(told, schema, document))))

    def is_row(self):
        """Whether it cites a row of DIFFERENCES."""
        return not self.cites.startswith("slip, ")


CLASSES = []


def add(peer, side, at, name, told, cites, schema, document="{ a }", when=None):
    """Adds a class."""
    CLASSES.append(Class(name, peer, side, at, told, cites, schema, document, when))


# ---- graphql-js: schemas

add(JS, "accepts", "schema", "values of arguments of directives in a schema go unjudged", f"^({VALUES}): ", "slip, 5.6.1",
    'directive @d(x: Int) on OBJECT type Query @d(x: "a") { a: Int }')
add(JS, "accepts", "schema", "null for a required argument of a directive in a schema", "^RequiredArgument: ", "slip, 5.4.2.1",
    "directive @d(x: Int!) on OBJECT type Query @d(x: null) { a: Int }", "{ a }", tests.is_given_null)
add(JS, "accepts", "schema", "a pair of surrogates", "^Syntax: no token", SURROGATES, '"\\uD83D\\uDE00" type Query { a: Int }', "{ a }", tests.has_surrogates)
add(JS, "accepts", "schema", "the escape `\\u{..}` of later editions", "^Syntax: no token", "slip, 2.9.4", '"\\u{1F600}" type Query { a: Int }', "{ a }", tests.has_braced_escape)
add(JS, "accepts", "schema", "one type is the root of two operations", "^DuplicateRootOperationType: ", "slip, 3.3.1", "schema { query: Q mutation: Q } type Q { a: Int }")
add(JS, "accepts", "schema", "a directive's definition leads back to itself", "^RecursiveDirectiveDefinition: ", "slip, 3.13",
    "directive @d(x: Int @d) on ARGUMENT_DEFINITION type Query { a: Int }")
add(JS, "accepts", "schema", "a schema is extended that is not defined", "^(OrphanSchemaExtension|QueryRootOperationType|DuplicateRootOperation): ", "slip, 3.3.2",
    "extend schema { query: Q } type Q { a: Int }", "{ a }", lambda told, schema, _: "extend schema" in schema)
add(JS, "accepts", "schema", "a built-in scalar is defined again", "^BuiltInScalarTypeRedefinition: ", "slip, 3.5", "scalar Int type Query { a: Int }")
add(JS, "accepts", "schema", "a type of introspection is defined again", "^(TypeDefinitionCollision|ReservedName): .*`__", "slip, 3.3", "type __Type { a: Int } type Query { a: Int }")
add(JS, "accepts", "schema", "an operation or fragment in a schema", "^ExecutableDefinition: ", "slip, 3", "type Query { a: Int } query { a }")
add(JS, "accepts", "schema", "in an extension of an input object, fields count as arguments", "^UnsupportedLocation: .* INPUT_FIELD_DEFINITION", "slip, 5.7.2",
    "directive @d on ARGUMENT_DEFINITION input I { a: Int } extend input I { b: Int @d } type Query { a: Int }", "{ a }", lambda told, schema, _: "extend input" in schema)
add(JS, "refuses", "schema", "in an extension of an input object, fields count as arguments", "may not be used on ARGUMENT_DEFINITION", "slip, 5.7.2",
    "directive @d on INPUT_FIELD_DEFINITION input I { a: Int } extend input I { b: Int @d } type Query { a: Int }", "{ a }", lambda told, schema, _: "extend input" in schema)
add(JS, "refuses", "schema", "directives on a directive's definition", '^Syntax Error: (Unexpected Name "DIRECTIVE_DEFINITION"|Expected "on", found "@")', ON_DIRECTIVES,
    "directive @d @e on FIELD directive @e on DIRECTIVE_DEFINITION type Query { a: Int }")
add(JS, "refuses", "schema", "a type of introspection is extended", '^Cannot extend type "__', EXTENDED, "extend type __Schema { foo: Int } type Query { a: Int }")
add(JS, "refuses", "schema", "a built-in scalar is extended", '^Cannot extend type "(Int|Float|String|Boolean|ID)"', "slip, 3.5.6",
    "directive @d on SCALAR extend scalar Int @d type Query { a: Int }")
add(JS, "refuses", "schema", "directives of a built-in scalar", "@", OF_SCALARS, "extend scalar Int @d type Query { a: Int }", "{ a }", tests.is_of_built_in_scalar)
add(JS, "refuses", "schema", "a required argument or input field is deprecated", "^Required (argument|input field) .* cannot be deprecated", DEPRECATED,
    "type Query { a(x: Int! @deprecated): Int }")
add(JS, "refuses", "schema", "a default has a field twice", "^There can be only one input field named ", DEFAULTS, "input I { a: Int } type Query { a(x: I = {a: 1, a: 1}): Int }",
    "{ a }", tests.has_default_object)

# ---- graphql-js: documents

add(JS, "accepts", "document", "a pair of surrogates", "^Syntax: no token", SURROGATES, "type Query { a(x: String): Int }", '{ a(x: "\\uD83D\\uDE00") }', tests.has_surrogates)
add(JS, "accepts", "document", "the escape `\\u{..}` of later editions", "^Syntax: no token", "slip, 2.9.4", "type Query { a(x: String): Int }", '{ a(x: "\\u{1F600}") }',
    tests.has_braced_escape)
add(JS, "accepts", "document", "a root of a subscription has more fields, under one name or where they cannot apply", "^SubscriptionUsesMultipleFields: ", ONE_FIELD,
    "type Query { a: Int } type Subscription { s: Int }", "subscription { s s }")
add(JS, "accepts", "document", "`@skip` or `@include` at the root of a subscription", "^SubscriptionUsesConditionalSelection: ", CONDITIONS,
    "type Query { a: Int } type Subscription { s: Int }", "subscription { s @skip(if: false) }")
add(JS, "accepts", "document", "an operation whose root the schema does not have", "^UndefinedRootOperation: ", "slip, 3.3.1", SMALL, "mutation { a }")
add(JS, "accepts", "document", "items of a list for a custom scalar", "^UnsupportedValueType: ", CUSTOM, "scalar J type Query { a(x: J!): Int }", "{ a(x: [null]) }", tests.is_custom)
add(JS, "accepts", "document", "rules on `@defer`", "^(Defer|DuplicateDefer)", DEFER, "directive @defer(label: String) on INLINE_FRAGMENT type Query { a: Int } type Mutation { a: Int }",
    "mutation { ... @defer { a } }")
add(JS, "refuses", "document", "the default of a variable is null", "^Variable .* used in position expecting type", NULL_DEFAULT, "type Query { a(x: Int!): Int }",
    "query($v: Int = null) { a(x: $v) }", tests.has_null_default)
add(JS, "refuses", "document", "a variable inside a list or object", "^Variable .* used in position expecting type", INSIDE, "type Query { a(x: [Int!]): Int }",
    "query($v: Int) { a(x: [$v]) }", tests.is_inside)
add(JS, "refuses", "document", "what is not given has a default that does not fit its type", "(is required, but it was not provided|of required type .* was not provided)", DEFAULTS,
    'type Query { a(x: Int! = "b"): Int }', "{ a }", tests.has_default)

# ---- gqlparser: schemas

add(GO, "accepts", "schema", "arguments of directives in a schema go unjudged", f"^({VALUES}|UndefinedArgument|UniqueArgument|RequiredArgument): ", "slip, 5.4.1",
    "directive @d on OBJECT type Query @d(x: 1) { a: Int }")
add(GO, "accepts", "schema", "an object in a schema has a field twice", "^UniqueInputValue: ", "slip, 5.6.3",
    "directive @d(x: I) on OBJECT input I { a: Int } type Query @d(x: {a: 1, a: 1}) { a: Int }", "{ a }", tests.is_twice_in_object)
add(GO, "accepts", "schema", "two definitions of arguments share a name", "^UniqueInputValue: ", ARGUMENT_NAMES, "type Query { a(x: Int, x: Int): Int }", "{ a }",
    tests.is_twice_defined)
add(GO, "accepts", "schema", "a directive twice in a place of a schema", "^UniqueDirective: ", "slip, 5.7.3", "directive @d on OBJECT type Query @d @d { a: Int }")
add(GO, "accepts", "schema", "directives of enum values and of the schema go unjudged", "^(UndefinedDirective|UnsupportedLocation): ", "slip, 5.7.1",
    "enum E { A @zz } type Query { a: E }", "{ a }", tests.is_on_enum_value_or_schema)
add(GO, "accepts", "schema", "no query root, a root that is no object, or one type or operation twice",
    "^(QueryRootOperationType|RootOperationObjectType|DuplicateRootOperation|DuplicateRootOperationType): ", "slip, 3.3.1", "type Q { a: Int }", "")
add(GO, "accepts", "schema", "a directive's definition leads back to itself through others", "^RecursiveDirectiveDefinition: ", "slip, 3.13",
    "directive @d(x: I) on INPUT_OBJECT input I @d { a: Int } type Query { a: Int }")
add(GO, "accepts", "schema", "an input object that needs itself", "^RecursiveInputObjectDefinition: ", "slip, 3.10", "input I { a: I! } type Query { a: Int }")
add(GO, "accepts", "schema", "a type is extended that is not defined", "^OrphanTypeExtension: ", "slip, 3.6.3", "extend type T { a: Int } type Query { a: Int }")
add(GO, "accepts", "schema", "a schema is extended that is not defined", "^OrphanSchemaExtension: ", "slip, 3.3.2", "extend schema { query: Q } type Q { a: Int }")
add(GO, "accepts", "schema", "interfaces, members and enum values may repeat", "^(DuplicateImplementsInterface|EnumValueName|UnionMemberName)", "slip, 3.9",
    "enum E { A A } type Query { a: E }")
add(GO, "accepts", "schema", "a union without members", "^EmptyMemberSet: ", "slip, 3.8", "union U type Query { a: U }")
add(GO, "accepts", "schema", "enum values of reserved names", "^ReservedName: an enum value ", "slip, 2.1.9", "enum E { __A } type Query { a: E }")
add(GO, "accepts", "schema", "an argument is not-null that is nullable in the implementer", "^InvalidImplementationFieldArgumentType: ", "slip, 3.6",
    "type Query implements I { a(x: Int): Int } interface I { a(x: Int!): Int }")
add(GO, "accepts", "schema", "an interface implements itself", "^RecursiveInterfaceDefinition: ", "slip, 3.7", "interface I implements I { a: Int } type Query { a: Int }")
add(GO, "accepts", "schema", "a built-in directive is defined twice", "^DirectiveDefinitionCollision: `(skip|include|deprecated|specifiedBy)`", "slip, 3.13",
    "directive @skip on FIELD directive @skip on FIELD type Query { a: Int }")
for at, schema, document in (("schema", "directive @d on OBJECT type Query @d() { a: Int }", "{ a }"), ("document", SMALL, "{ a() }")):
    add(GO, "accepts", at, "nothing between parentheses", "^Syntax: ", "slip, 2.6", schema, document, lambda told, schema, document: "( )" in tests.both(schema, document))
for at, schema, document in (("schema", "directive @d(x: Int = 1 a: Int) on FIELD type Query { a(x: Int = 01a: Int): Int }", "{ a }"), ("document", "type Query { a(x: Int y: Int): Int }", "{ a(x: 1y: 1) }")):
    add(GO, "accepts", at, "a name right after a number", "^Syntax: ", "slip, 2.9.1", schema.replace("01a", "1a"), document, tests.has_run_on_number)
for at, schema, document in (("schema", '"\\uD83D\\uDE00" type Query { a: Int }', "{ a }"), ("document", "type Query { a(x: String): Int }", '{ a(x: "\\uD83D") }')):
    add(GO, "accepts", at, "a surrogate", "^Syntax: no token", SURROGATES, schema, document, tests.has_surrogates)
add(GO, "accepts", "schema", "an empty description before an extension", "^Syntax: ", "slip, 3.4.3", '"" extend type Query { b: Int } type Query { a: Int }', "{ a }",
    lambda told, schema, _: re.search(r'"" extend', schema))
add(GO, "accepts", "schema", "variables in the extension of an input object", "^Syntax: ", "slip, 2.12",
    "directive @d(x: Int) on INPUT_OBJECT input I { a: Int } extend input I @d(x: $v) type Query { a: Int }", "{ a }",
    lambda told, schema, _: re.search(r"extend input .*\$ \w", schema))
add(GO, "accepts", "document", "variables in directives of variables", "^Syntax: ", "slip, 2.12", "directive @d(x: Int) on VARIABLE_DEFINITION type Query { a(x: Int): Int }",
    "query ($v: Int, $w: Int @d(x: $v)) { a(x: $w) }", tests.has_variable_on_variable)
add(GO, "refuses", "schema", "directives on a directive's definition", 'Unexpected Name "DIRECTIVE_DEFINITION"|Expected "on", found @', ON_DIRECTIVES,
    "directive @d @e on FIELD directive @e on DIRECTIVE_DEFINITION type Query { a: Int }")
add(GO, "refuses", "schema", "directives of a built-in scalar", "[Dd]irective", OF_SCALARS, "extend scalar Int @d type Query { a: Int }", "{ a }", tests.is_of_built_in_scalar)
add(GO, "refuses", "schema", "an extension of an interface that implements", 'Unexpected Name "implements"', "slip, 3.7.1",
    "interface I { a: Int } interface J { a: Int } extend interface I implements J type Query { a: Int }", "{ a }", lambda told, schema, _: re.search(r"extend interface \w+ implements", schema))
for at, schema, document in (("schema", '"\x07" type Query { a: Int }', "{ a }"), ("document", "type Query { a(x: String): Int }", '{ a(x: "\x07") }')):
    add(GO, "refuses", at, "a control character in a string", "<Invalid>|[Ii]nvalid character", CHARACTERS, schema, document, tests.has_control)

# ---- gqlparser: documents

add(GO, "accepts", "document", "one field under two names at the root of a subscription", "^SubscriptionUsesMultipleFields: ", "slip, 5.2.3.1",
    "type Query { a: Int } type Subscription { s: Int }", "subscription { s t: s }", lambda told, _, document: re.search(r"\w+ : \w+", document))
add(GO, "accepts", "document", "a root of a subscription has more fields of one name", "^SubscriptionUsesMultipleFields: ", ONE_FIELD,
    "type Query { a: Int } type Subscription { s: Int }", "subscription { s s }")
add(GO, "accepts", "document", "`@skip` or `@include` at the root of a subscription", "^SubscriptionUsesConditionalSelection: ", CONDITIONS,
    "type Query { a: Int } type Subscription { s: Int }", "subscription { s @skip(if: false) }")
add(GO, "accepts", "document", "an Int of more than 32 bits", "^IntCoercionError: ", "slip, 3.5.1", "type Query { a(x: Int): Int }", "{ a(x: 2147483648) }")
add(GO, "accepts", "document", "an empty object for what is no input object", "^UnsupportedValueType: .* found an input object", "slip, 5.6.1", "type Query { a(x: Int): Int }",
    "{ a(x: {}) }", lambda told, _, document: "{ }" in document)
add(GO, "accepts", "document", "a built-in scalar that the schema does not have", "^UndefinedDefinition: cannot find type `(Int|Float|ID)`", "slip, 3.5",
    "scalar J type Query { a(x: J): String }", "query ($v: ID) { a(x: {b: $v}) }")
add(GO, "accepts", "document", "items of a list for a custom scalar", "^UnsupportedValueType: ", CUSTOM, "scalar J type Query { a(x: J): Int }", "query($v: Int) { a(x: [$v]) }",
    tests.is_custom)
add(GO, "accepts", "document", "rules on `@defer`", "^(Defer|DuplicateDefer)", DEFER, "directive @defer(label: String) on INLINE_FRAGMENT type Query { a: Int } type Mutation { a: Int }",
    "mutation { ... @defer { a } }")
add(GO, "refuses", "document", "a repeatable directive twice", "can only be used once at this location", "slip, 3.13", "directive @d repeatable on FIELD type Query { a: Int }",
    "{ a @d @d }", tests.is_repeatable)
add(GO, "refuses", "document", "an integer of more than 64 bits for a Float or ID", "cannot represent|Expected value of type", "slip, 3.5.5", "type Query { a(x: ID): Int }",
    "{ a(x: 9223372036854775808) }", tests.has_wide_int)
add(GO, "refuses", "document", "a number that no 64-bit Float holds", "cannot represent|Expected value of type", FINITE, "type Query { a(x: Float): Int }", "{ a(x: 1e400) }",
    tests.has_infinite_float)
add(GO, "refuses", "document", "an interface that nothing implements", 'objects of type "(\\w+)" can never be of type "\\1"', SAME_TYPE,
    "type Query { i: I } interface I { a: Int }", "{ i { ... on I { a } } }")
add(GO, "refuses", "document", "the default of a variable is null", "^Variable .* used in position expecting type", NULL_DEFAULT, "type Query { a(x: Int!): Int }",
    "query($v: Int = null) { a(x: $v) }", tests.has_null_default)
add(GO, "refuses", "document", "a variable inside a list or object", "^Variable .* used in position expecting type", INSIDE, "type Query { a(x: [Int!]): Int }",
    "query($v: Int) { a(x: [$v]) }", tests.is_inside)
add(GO, "refuses", "document", "a nullable variable where a default is", "^Variable .* used in position expecting type", "slip, 5.8.5", "type Query { a(x: Int! = 1): Int }",
    "query($v: Int) { a(x: $v) }", tests.is_only_nullable)

# ---- graphql-core, of an edition before June 2018: schemas. Of most rules it judges nothing.

OF_DIRECTIVES = f"{VALUES}|UndefinedDirective|UniqueDirective|UnsupportedLocation|UndefinedArgument|UniqueArgument|RequiredArgument"
OLD = "schema { query: Query } type Query { a: Int }"
add(CORE, "accepts", "schema", "directives in a schema go unjudged", f"^({OF_DIRECTIVES}): ", "slip, 5.7.1", "schema { query: Query } type Query @zz { a: Int }")
add(CORE, "accepts", "schema", "an object in a schema has a field twice", "^UniqueInputValue: ", "slip, 5.6.3",
    "schema { query: Query } directive @d(x: I) on OBJECT input I { a: Int } type Query @d(x: {a: 1, a: 1}) { a: Int }", "{ a }", tests.is_twice_in_object)
add(CORE, "accepts", "schema", "two definitions of arguments share a name", "^UniqueInputValue: ", ARGUMENT_NAMES, "schema { query: Query } type Query { a(x: Int, x: Int): Int }",
    "{ a }", tests.is_twice_defined)
add(CORE, "accepts", "schema", "names that repeat", "^(TypeDefinition|DirectiveDefinition|ObjectFieldName|InterfaceFieldName|EnumValueName|UnionMemberName|InputFieldName)Collision: |^DuplicateImplements",
    "slip, 3.3", "schema { query: Query } type Query { a: Int a: Int }")
add(CORE, "accepts", "schema", "a built-in scalar is defined again", "^BuiltInScalarTypeRedefinition: ", "slip, 3.5", OLD + " scalar Int")
add(CORE, "accepts", "schema", "one type is the root of two operations", "^DuplicateRootOperationType: ", "slip, 3.3.1", "schema { query: Query mutation: Query } type Query { a: Int }")
add(CORE, "accepts", "schema", "reserved names", "^ReservedName: ", "slip, 2.1.9", "schema { query: Query } type Query { __a: Int a: Int }")
add(CORE, "accepts", "schema", "an input object that needs itself", "^RecursiveInputObjectDefinition: ", "slip, 3.10", OLD + " input I { a: I! }")
add(CORE, "accepts", "schema", "a directive's definition leads back to itself", "^RecursiveDirectiveDefinition: ", "slip, 3.13", OLD + " directive @d(x: Int @d) on ARGUMENT_DEFINITION")
add(CORE, "accepts", "schema", "an operation or fragment in a schema", "^ExecutableDefinition: ", "slip, 3", OLD + " query { a }")
add(CORE, "accepts", "schema", "extensions are left out", "^(Orphan|TypeExtensionKind|ObjectFieldName|DuplicateImplements)", "slip, 3.6.3", OLD + " extend type T { a: Int }", "{ a }",
    lambda told, schema, _: "extend type" in schema)
add(CORE, "accepts", "schema", "variables in a schema", "^Syntax: ", "slip, 2.12", "schema { query: Query } type Query @d(x: $v) { a: Int }", "{ a }",
    lambda told, schema, _: re.search(r"\$ \w", schema))
add(CORE, "accepts", "schema", "any name is a location of directives", "^Syntax: ", "slip, 3.13", OLD + " directive @d on FIELD | ANYWHERE", "{ a }", tests.has_unknown_location)
add(CORE, "accepts", "schema", "an enum value `true`, `false` or `null`", "^Syntax: ", "slip, 3.9", OLD + " enum E { false }", "{ a }",
    lambda told, schema, _: re.search(r"\benum \w+ [^{]*\{[^}]*\b(true|false|null)\b", schema))
add(CORE, "accepts", "schema", "interfaces are listed without `&`", "^Syntax: ", "slip, 3.6",
    "schema { query: Query } interface I { a: Int } interface J { a: Int } type Query implements I J { a: Int }", "{ a }",
    lambda told, schema, _: re.search(r"implements \w+ \w+", schema))
for at, schema, document in (("schema", "schema { query: Query } type Query { a(x: Int = 1a: Int): Int }", "{ a }"),
                             ("document", "schema { query: Query } type Query { a(x: Int y: Int): Int }", "{ a(x: 1y: 1) }")):
    add(CORE, "accepts", at, "a name right after a number", "^Syntax: ", "slip, 2.9.1", schema, document, tests.has_run_on_number)
add(CORE, "refuses", "schema", "no descriptions and no block strings", "Syntax Error.*((found|Unexpected) String|Unterminated string)", "slip, 3.2", '"d" ' + OLD)
add(CORE, "refuses", "schema", "no `null`", 'Syntax Error.*Unexpected Name "null"', "slip, 2.9.5", "schema { query: Query } type Query { a(x: Int = null): Int }")
add(CORE, "refuses", "schema", "no leading `|`", "Syntax Error.*Expected Name, found \\|", "slip, 3.8", OLD + " union U = | Query", "{ a }", lambda told, schema, _: re.search(r"(=|\bon) \|", schema))
add(CORE, "refuses", "schema", "no `&`", 'Syntax Error.*Unexpected character "&"', "slip, 3.6", "schema { query: Query } interface I { a: Int } type Query implements & I { a: Int }")
add(CORE, "refuses", "schema", "no extensions but of objects", 'Syntax Error.*Expected "type", found', "slip, 3.4.3", OLD + " enum E { A } extend enum E { B }", "{ a }",
    lambda told, schema, _: re.search(r"extend (?!type)", schema))
add(CORE, "refuses", "schema", "no definition without members", "Syntax Error.*Expected [{=], found", "slip, 3.6", OLD + " enum E extend enum E { A }", "{ a }",
    lambda told, schema, _: re.search(r"\bextend \w+|(type|interface|enum|input|union) \w+ (?![{=i])", schema))
add(CORE, "refuses", "schema", "no `repeatable`", 'Syntax Error.*found Name "repeatable"', "slip, 3.13", OLD + " directive @d repeatable on FIELD")
add(CORE, "refuses", "schema", "no interfaces that implement", 'Syntax Error.*found Name "implements"', "slip, 3.7", "schema { query: Query } interface I implements J { a: Int } interface J { a: Int } type Query { a: Int }")
add(CORE, "refuses", "schema", "directives on a directive's definition", 'Syntax Error.*Expected "on", found @', ON_DIRECTIVES, OLD + " directive @d @e on FIELD directive @e on DIRECTIVE_DEFINITION")
add(CORE, "refuses", "schema", "no schema without its definition", "^Must provide a schema definition", "slip, 3.3.1", SMALL, "{ a }", lambda told, schema, _: not re.search(r"(?<!extend )\bschema\b", schema))
add(CORE, "refuses", "schema", "an extra argument that has a default", "is of required type .* but is not also provided by the interface", MORE_ARGUMENTS,
    "schema { query: Query } type Query implements I { a(x: Int! = 1): Int } interface I { a: Int }")
for at, schema, document in (("schema", OLD + ' directive @d(x: String = "\x07") on FIELD', "{ a }"), ("document", "schema { query: Query } type Query { a(x: String): Int }", '{ a(x: "\x07") }')):
    add(CORE, "refuses", at, "a control character in a string", "Syntax Error.*Invalid character", CHARACTERS, schema, document, tests.has_control)

# ---- graphql-core: documents

add(CORE, "accepts", "document", "the root of a subscription goes unjudged", "^SubscriptionUses(MultipleFields|Introspection): ", "slip, 5.2.3.1",
    "schema { query: Query subscription: S } type Query { a: Int } type S { s: Int }", "subscription { s t: s }")
add(CORE, "accepts", "document", "`@skip` or `@include` at the root of a subscription", "^SubscriptionUsesConditionalSelection: ", CONDITIONS,
    "schema { query: Query subscription: S } type Query { a: Int } type S { s: Int }", "subscription { s @skip(if: false) }")
add(CORE, "accepts", "document", "a definition of a schema in a document", "^TypeSystemDefinition: ", "slip, 5.1.1", OLD, "{ a } scalar J")
add(CORE, "accepts", "document", "a directive twice", "^UniqueDirective: ", "slip, 5.7.3", OLD, "{ a @skip(if: true) @skip(if: true) }")
add(CORE, "accepts", "document", "an operation whose root the schema does not have", "^UndefinedRootOperation: ", "slip, 3.3.1", OLD, "mutation { a }")
add(CORE, "accepts", "document", "items of a list for a custom scalar", "^UnsupportedValueType: ", CUSTOM, "schema { query: Query } scalar J type Query { a(x: J): Int b(x: Int): Int }",
    "query($v: Int) { a(x: [$v]) }", tests.is_custom)
add(CORE, "refuses", "document", "no `null`", 'Syntax Error.*Unexpected Name "null"', "slip, 2.9.5", "schema { query: Query } type Query { a(x: Int): Int }", "{ a(x: null) }")
add(CORE, "refuses", "document", "no block strings", "Syntax Error.*(Unterminated string|String)", "slip, 2.9.4", "schema { query: Query } type Query { a(x: String): Int }",
    '{ a(x: """a""") }', lambda told, _, document: '"""' in document)
add(CORE, "refuses", "document", "no directives on variables", "Syntax Error.*Expected \\$, found @", "slip, 2.10", "schema { query: Query } type Query { a(x: Int): Int } directive @d on VARIABLE_DEFINITION",
    "query ($v: Int @d) { a(x: $v) }")
add(CORE, "refuses", "document", "no default of a variable that is not null", "is required and will not use the default value", "slip, 2.10", "schema { query: Query } type Query { a(x: Int!): Int }",
    "query($v: Int! = 1) { a(x: $v) }")
add(CORE, "refuses", "document", "what has a default must be given", "is required but not provided", "slip, 5.4.2.1", "schema { query: Query } type Query { a(x: Int! = 1): Int }", "{ a }", tests.has_default)
add(CORE, "refuses", "document", "an input field that has a default must be given", "(?s)has invalid (default )?value.*found null", "slip, 5.6.4",
    "schema { query: Query } input I { b: Int! = 1 } type Query { a(x: I): Int }", "{ a(x: {}) }", lambda told, schema, _: re.search(r": [\w\[\] !]+! = ", schema))
add(CORE, "refuses", "document", "an inline fragment without a type in a list or what is not null", "has no attribute 'name'|objects of type \\S+ can never be of type ", "slip, 2.8.2",
    "schema { query: Query } type Query { a: Query! }", "{ a { ... { ... on Query { a { __typename } } } } }", lambda told, _, document: re.search(r"\.\.\. [{@]", document))
add(CORE, "refuses", "document", "an interface that nothing implements", "^AssertionError: Could not find possible implementing types", SAME_TYPE,
    "schema { query: Query } type Query { i: I! } interface I { a: Int }", "{ i { ... { a } } }")
add(CORE, "refuses", "document", "a variable inside a list or object", "^Variable .* used in position expecting type", INSIDE, "schema { query: Query } type Query { a(x: [Int!]): Int }",
    "query($v: Int) { a(x: [$v]) }", tests.is_inside)
add(CORE, "refuses", "document", "a nullable variable where a default is", "^Variable .* used in position expecting type", "slip, 5.8.5", "schema { query: Query } type Query { a(x: Int! = 1): Int }",
    "query($v: Int) { a(x: $v) }", tests.is_only_nullable)
add(CORE, "refuses", "document", "a built-in scalar that only directives refer to", '^Unknown type "(Int|Float|ID)"', "slip, 3.5",
    "schema { query: Query } directive @d(x: ID) on FIELD type Query { a: Int }", "query($v: ID) { a @d(x: $v) }")

# ---- later finds

add(GO, "accepts", "schema", "a schema's definition without roots", "^Syntax: ", "slip, 3.3", "schema type Query { a: Int }", "{ a }",
    lambda told, schema, _: re.search(r"(?<!extend )\bschema (?![{@:(!])", schema))
add(GO, "accepts", "document", "all lists and all objects are one argument", "^ConflictingFieldArgument: ", "slip, 5.3.2", "type Query { a(x: [Int]): Int }", "{ a(x: [1]) a(x: []) }",
    lambda told, _, document: re.search(r": [\[{]", document))
add(CORE, "refuses", "schema", "a default of an input object of its own type", "^RecursionError: ", "slip, 3.10", "input I { a: I = [] } type Query { a: Int } schema { query: Query }")
add(GO, "accepts", "document", "an undefined variable in a directive of a fragment's definition", "^UndefinedVariable: ", "slip, 5.8.3", "directive @d(x: [Int]) on FRAGMENT_DEFINITION type Query { a: Int }",
    "fragment F on Query @d(x: [$v]) { a } { ...F }", lambda told, _, document: re.search(r"fragment \w+ on \w+ ?@", document))
add(CORE, "refuses", "schema", "what follows an interface's name is another", "Syntax Error.*Expected (Name, found (=|\\[)|:, found Name)", "slip, 3.6",
    "schema { query: Query } interface I { a: Int } type M implements I input J { b: [Int] = [] } extend type M { a: Int } type Query { a: Int }", "{ a }",
    lambda told, schema, _: re.search(r"implements [\w &]*\b(input|interface|type|enum|union|scalar|directive)\b", schema))
add(CORE, "accepts", "schema", "of two arguments of one name the last counts", "^InvalidImplementationFieldArgumentType: ", ARGUMENT_NAMES,
    "schema { query: Query } interface I { a(x: Boolean, x: Int): Int } type Query implements I { a(x: Int): Int }", "{ a }", tests.is_twice_defined)
add(CORE, "accepts", "document", "an object inside another goes unjudged", "^UniqueInputValue: ", "slip, 5.6.3", "schema { query: Query } input I { a: [I] } type Query { a(x: I): Int }",
    "{ a(x: {a: [{a: [] a: {}}]}) }", tests.is_twice_within_object)
