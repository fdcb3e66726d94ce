import { gql } from "./client";
import { PRODUCT_CARD } from "./product/ProductCard";

export const CART = gql`
  query Cart($first: ID!, $second: ID!) {
    first: product(id: $first) {
      ...ProductCard
    }
    second: product(id: $second) {
      ...ProductCard
    }
  }
  ${PRODUCT_CARD}
`;

export const ADD = gql`
  mutation AddToCart($customer: ID!, $product: ID!, $quantity: Int = 1) {
    placeOrder(order: { customer: $customer, lines: [{ product: $product, quantity: $quantity }] }) {
      ...OrderHead
    }
  }
`;

export const NOTE = gql`
  mutation OrderWithNote($customer: ID!, $lines: [LineInput!]!) {
    placeOrder(order: { customer: $customer, lines: $lines, note: "\`fragile\`, \\"this side up\\"" }) {
      id
    }
  }
`;
