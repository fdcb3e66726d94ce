"""Reports for the shop's staff."""

from gql import gql

NAMES = gql("""query Names($id: ID!) { customer(id: $id) { ...CustomerName } }""")

STOCK = gql("""query Stock { product(id: \"7\") { ...StockLine } }""")

LINE = gql("""fragment StockLine on Product { id name tags related { id } }""")

WATCH = gql("""subscription StaffWatch($id: ID!) { orderChanged(id: $id) { ...OrderHead customerLines: lines { ...Line } } }""")

KINDS = gql("""query Kinds($id: ID!) { node(id: $id) { __typename id } }""")

PAIRS = gql("""query Pairs { search(text: "tea") { ... on Customer { ...CustomerName } ... on Product { ...StockLine } } }""")
