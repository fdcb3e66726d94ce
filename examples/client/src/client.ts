// gql, graphql and useFragment of the client; it has no document.

export const gql = String.raw, graphql = (text: string) => text, useFragment = (_: string, it: any) => it;
