"""What an operator wants beside billctl: looks at a ledger's file, a safe way in, and the night.

It never writes a ledger's file but through billctl. Python 3.11, standard library alone.
"""

VERSION = "1"
