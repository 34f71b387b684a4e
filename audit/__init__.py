"""A second computation of the ledger: see README.md."""
