"""A mock server: a schema and some data in, a GraphQL endpoint and a page to try it out.

Run it by ``python3 -m sunwaket.mock schema.graphql [data.json]``; ``--help`` tells the rest.
"""
