"""Reports for the shop's staff."""

from gql import gql

OPEN_ORDERS = gql("""
query OpenOrders($customer: ID!) {
  customer(id: $customer) {
    orders(status: OPEN, first: 100) {
      ...OrderHead
    }
  }
}
""")

EUR_PRICES = gql(
    "query EurPrices($id: ID!) {"  # of one product
    " product(id: $id) { name price(currency: EUR) } }"
)

USD_PRICES = gql(
    "query UsdPrices($id: ID!) {"  # of one product
    " product(id: $id) { name price(currency: USD) } }"
)
