"""Preludes: schemas of the kinds that the documentation of Federation, AppSync and Relay shows."""

import pytest
from conftest import SHOP, Repository

from graphql_checked import Schema
from graphql_checked.command.preludes import names, text

# after Apollo's documentation of entities and of subgraphs
SUBGRAPH = """
extend schema @link(url: "https://specs.apollo.dev/federation/v2.3", import: ["@key", "@shareable", "@external", "@requires", "@override", "@tag"])
type Product @key(fields: "id") @key(fields: "sku package") {
  id: ID!
  sku: String
  package: String
  dimension: Dimension
  createdBy: User @requires(fields: "id")
  price: Int @override(from: "inventory") @tag(name: "internal")
}
type Dimension @shareable { size: String }
extend type Query { product(id: ID!): Product }
extend type User @key(fields: "email") { email: ID! @external }
interface Media @key(fields: "id") { id: ID! }
"""
ENTITIES = 'query E($r: [_Any!]!) { _service { sdl } _entities(representations: $r) { ... on Product { sku } ... on User { email } } }'


def test_a_subgraph(repository: Repository) -> None:
    repository.write({"s.graphql": SUBGRAPH, "e.graphql": ENTITIES})
    assert repository.run("check", "--schema", "s.graphql").status == 1
    assert repository.run("check", "--schema", "s.graphql", "--prelude", "federation", "e.graphql").told == "1 document accepted\n"
    repository.write({"e.graphql": "query E($r: [_Any!]!) { _entities(representations: $r) { ... on Dimension { size } } }"})
    # 5.5.2.3: the type of a fragment has to be among the union's
    assert repository.short("--schema", "s.graphql", "--prelude", "federation", "e.graphql") == ["e.graphql:1:58: error[InvalidFragmentSpread]"]


def test_a_wrong_use_of_a_directive_of_federation(repository: Repository) -> None:
    repository.write({"s.graphql": 'type Query { a: Int @key(fields: "id") b: Int @shareable(x: 1) }'})
    found = repository.short("--schema", "s.graphql", "--prelude", "federation")
    assert found == ["s.graphql:1:21: error[UnsupportedLocation]", "s.graphql:1:58: error[UndefinedArgument]"]


def test_other_names_of_directives(repository: Repository) -> None:
    """As the specification of `link` has them: with a prefix where nothing is imported, or under the name of `as`."""
    link = 'extend schema @link(url: "https://specs.apollo.dev/federation/v2.3", import: [{ name: "@key", as: "@primaryKey" }])'
    schema = f'{link} type Query {{ a: A }} type A @primaryKey(fields: "b") {{ b: ID! @federation__shareable @federation__tag(name: "x") }}'
    repository.write({"s.graphql": schema, "e.graphql": "query E($r: [_Any!]!) { _entities(representations: $r) { ... on A { b } } }"})
    assert repository.run("check", "--schema", "s.graphql", "--prelude", "federation", "e.graphql").told == "1 document accepted\n"


def test_a_subgraph_that_defines_some_of_it(repository: Repository) -> None:
    own = "scalar _Any directive @key(fields: String!) repeatable on OBJECT type Query { a: A } type A @key(fields: \"b\") { b: ID }"
    repository.write({"s.graphql": own})
    assert repository.run("check", "--schema", "s.graphql", "--prelude", "federation").told == "schema accepted\n"


def test_a_configuration_that_names_a_prelude(repository: Repository) -> None:
    config = "schema: s.graphql\ndocuments: a.ts\nextensions:\n  graphql-check:\n    prelude: relay\n"
    document = "gql`query Q @raw_response_type { a { ...F @alias(as: \"f\") } } fragment F on A @refetchable(queryName: \"R\") { b @required(action: LOG) }`"
    repository.write({".graphqlrc.yml": config, "s.graphql": "type Query { a: A } type A { b: Int }", "a.ts": document})
    assert repository.run().told == "1 document accepted\n"


def test_appsync(repository: Repository) -> None:
    schema = """
type Mutation { put(at: AWSDateTime!): Post @aws_cognito_user_pools(cognito_groups: ["Admin"]) }
type Query { posts: [Post] @aws_api_key }
type Subscription { added: Post @aws_subscribe(mutations: ["put"]) }
type Post @aws_iam @aws_api_key { at: AWSDateTime url: AWSURL data: AWSJSON }
"""
    repository.write({"s.graphql": schema})
    assert repository.run("check", "--schema", "s.graphql", "--prelude", "appsync").told == "schema accepted\n"
    assert repository.run("check", "--schema", "s.graphql", "--prelude", "nosuch").status == 2


@pytest.mark.parametrize("name", names())
def test_each_prelude_is_a_schema_text(name: str) -> None:
    with Schema([SHOP, text(name)]) as schema:
        assert schema.check("{ __typename }")
    assert {"appsync", "federation", "relay"} <= set(names())
