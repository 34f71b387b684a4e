"""Statements of a day as data and as pages, each held against the program before it is written."""
