"""`explain`: where each number of a cycle comes from, by the independent model's own command."""

from companion.model import ask_model


def explain(program: str, words: list[str]) -> int:
    """Has the model explain with these words; what it prints is its own, and so is its status."""
    return ask_model("explaining", ["explain", *words, "--program", program])
