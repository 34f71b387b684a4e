"""Rows in a file under kills, full disks and full outputs: `python3 -m tests.durable`."""
