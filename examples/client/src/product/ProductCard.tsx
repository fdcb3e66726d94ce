import { gql, useFragment } from "../client";

export const PRODUCT_CARD = gql`
  fragment ProductCard on Product {
    id
    name
    ...Money
  }
`;

export function ProductCard(props: { product: unknown }) {
  const product = useFragment(PRODUCT_CARD, props.product);
  return <p>That's {product.name}: {product.price / 100} €</p>;
}
