"""The explanations of statements: their checker, their texts, wrong ones, and the program."""
