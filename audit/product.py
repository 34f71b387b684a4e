"""What the program takes of all that the model knows: the file to change when the program takes
more."""

WORDS_TO_COME: frozenset[str] = frozenset()  # words of request lines that it doesn't know yet
COMMANDS_TO_COME: frozenset[str] = frozenset()
ROW_FORMAT = 2  # of the rows that it keeps; the model reads both formats
POST_LIMIT = 200_000  # posts of an account
