import { graphql } from "./client";

export const ORDERS = graphql(/* GraphQL */ `
  query Orders($customer: ID!) {
    customer(id: $customer) {
      orders {
        ...OrderHead
      }
    }
  }
`);

export const MARK_OPEN = graphql(`
  mutation MarkOpen($order: ID!) {
    setStatus(order: $order, status: OPEN) {
      ...OrderHead
    }
  }
`);

export const MARK_PAID = graphql(`
  mutation MarkPaid($order: ID!) {
    setStatus(order: $order, status: PAID) {
      ...OrderHead
    }
  }
`);

export const MARK_SHIPPED = graphql(`
  mutation MarkShipped($order: ID!) {
    setStatus(order: $order, status: SHIPPED) {
      ...OrderHead
    }
  }
`);
