import { gql } from "../client";

export const OLD = gql`query Old { gone }`;
