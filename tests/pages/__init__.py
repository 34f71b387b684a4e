"""Statements as data and as pages (audit/statements)."""
