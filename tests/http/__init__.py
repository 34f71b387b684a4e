"""Requests over HTTP: what is answered, and what hostile clients get."""
