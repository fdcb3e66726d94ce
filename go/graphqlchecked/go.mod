module graphqlchecked

go 1.19
