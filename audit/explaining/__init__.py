"""Every number of a statement with its derivation, down to the kept rows."""
