"""The calls by which the project's adapters meet the system, as tests/adapters has them recorded: record_calls.c writes them down,
`recording` reads them, `stage` has the programs and their neighbours, and each other module tries the adapters of one kind."""
