"""What `scripts/generate` is made of: the tables kinds.toml and refusals.toml (`kind_table`, `refusal_table`), the
lists that it writes from them (`kind_lists`, `grc_lists`, `refusal_lists`), and the lists of the crates, which it
compares with them (`crate_kinds`, `crate_pages`, `crate_refusals`)."""
