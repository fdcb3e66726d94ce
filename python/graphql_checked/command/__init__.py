"""The command `graphql-check`: a repository's schemas and documents, checked over the library.

`main` reads the words; `config` the repository's configuration; `sources` the files, with `embedded` for texts in programs;
`schemas` opens a schema, from SDL or by `introspection`; `units` puts together what is checked as one document, and `checking`
checks it, side by side. `check`, `manifest` and `server` are what the user calls. Nothing here is proved: it cuts texts out of
files, asks the library, and tells its faults at the files' own places.
"""
