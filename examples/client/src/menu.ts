const query = (text: string) => text;

export const TEA = query(/* GraphQL */ `query TeaMenu { search(text: "tea", first: 3) { ... on Product { ...ProductCard } } }`);

export const COFFEE = query(/* GraphQL */ `query CoffeeMenu { search(text: "coffee", first: 4) { ... on Product { ...ProductCard } } }`);

export const COCOA = query(/* GraphQL */ `query CocoaMenu { search(text: "cocoa", first: 5) { ... on Product { ...ProductCard } } }`);

export const CUPS = query(/* GraphQL */ `query CupsMenu { search(text: "cups", first: 6) { ... on Product { ...ProductCard } } }`);

export const POTS = query(/* GraphQL */ `query PotsMenu { search(text: "pots", first: 7) { ... on Product { ...ProductCard } } }`);

export const SPOONS = query(/* GraphQL */ `query SpoonsMenu { search(text: "spoons", first: 8) { ... on Product { ...ProductCard } } }`);
