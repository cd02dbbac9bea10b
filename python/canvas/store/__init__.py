"""The store of documents in PostgreSQL: an agent for each host, which serves its canvasd, and commands for whoever
cares for the documents.

`main` has the words, `agent` and `holding` what a host does with its documents, `requests` what a canvasd asks,
`segments` what a journal is in rows, `statements` all that the database is asked, and `commands` the other commands.
"""
