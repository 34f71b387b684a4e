"""The words that look: at a ledger's file, and at a night's home."""

import argparse

from companion import check, explain, late, looks, tomorrow, undo, version
from companion.examine import examine
from companion.home import chain
from companion.program import find_program
from companion.run import Meant
from companion.words import Words, count, day


def add_file(words: Words) -> None:
    """What a ledger's file says."""
    words.add("check", "is the file sound, and if not, why",
              "Has billctl load a copy of FILE and its log, and prints rows, accounts and today.\n"
              "Where billctl couldn't open FILE, or a row is damaged, the cause is named, and the\n"
              "status is that of billctl (5, 8); 1 where FILE isn't there.",
              lambda asked: check.check(find_program(asked.program), asked.file, asked.wait),
              program=True)
    words.add("today", "the ledger's today", "Prints the day that the ledger was rolled to last.",
              lambda asked: looks.today(asked.file, asked.wait))
    word = words.add("accounts", "the accounts",
                     "Prints a line for each account, in the order in which they were opened:\n"
                     "name, opening day, closing day of the month, posts, closed cycles, bills;\n"
                     "with --owed also what is owed, the credit balance, and what is in dispute.",
                     lambda asked: looks.accounts(
                         asked.file, asked.wait,
                         find_program(asked.program) if asked.owed else None), program=True)
    word.add_argument("--owed", action="store_true", help="with balances")
    words.add("due", "closed cycles without a bill",
              "Prints a line for each closed cycle that has no bill yet, the most urgent first:\n"
              "account, cycle, closing, last day on which its bill asks for a payment\n"
              "(12 CFR 1026.5(b)(2)(ii)).", lambda asked: looks.due(asked.file, asked.wait))
    words.add("bills", "the bill lines of all that are due",
              "Prints the bill line of each closed cycle that has no bill yet, for `run`.\n"
              "The keys are bill- and the cycle.",
              lambda asked: looks.bills(asked.file, asked.wait))
    rows = words.add("rows", "the rows as request lines",
                     "Prints the kept rows as request lines, all or those after the first N.",
                     lambda asked: looks.rows(asked.file, asked.since, asked.wait))
    rows.add_argument("--since", type=count, default=0, metavar="N",
                      help="leave out the first N rows")
    posts = words.add("posts", "the posts of an account, as they stand",
                      "Prints a line for each post: account, number, key, word, day of\n"
                      "acceptance, own day, and cents as corrections have them now, 0 where it\n"
                      "is void.",
                      lambda asked: looks.posts(asked.file, asked.account, asked.wait))
    posts.add_argument("account", metavar="ACCOUNT", nargs="?", help="else all accounts")
    add_explain(words)


def add_explain(words: Words) -> None:
    """Where the numbers of a cycle come from."""
    word = words.add("explain", "where each number of a cycle comes from",
                     "Has the independent model (audit/ of the repository) show how each number\n"
                     "of a closed cycle follows from the kept rows, once the program says so.\n"
                     "--program stands in front of FILE. docs/EXPLAIN.md says how to check it.",
                     lambda asked: explain.explain(find_program(asked.program),
                                                   [asked.file, *asked.words]),
                     wait=None, program=True)
    word.add_argument("words", metavar="ACCOUNT", nargs=argparse.REMAINDER,
                      help="ACCOUNT CYCLE [--issued] [--form text|json|html] [--number WORD], "
                           "ACCOUNT CYCLE --changes, or ACCOUNT --balance [DAY]")


def add_home(words: Words) -> None:
    """What a night's home says."""
    words.add("late", "who is late, and by how much",
              "Prints a record for each account with a due statement that isn't paid: account,\n"
              "owed, statement, due date, asked, credited since its closing, missing, days, late\n"
              "fee, and whether the penalty rate is allowed (60 days).",
              lambda asked: late.late(find_program(asked.program), asked.home, asked.wait),
              place="home", program=True)
    word = words.add("tomorrow", "what the next night would do",
                     "Goes through the night of the day after today, or of DAY, on a copy of\n"
                     "HOME, and prints its report, with fees and interest; with --inbox also the\n"
                     "replies to what waits there. HOME stays as it is.", carry_tomorrow,
                     place="home", program=True)
    word.add_argument("--inbox", action="store_true", help="with what waits in the inbox")
    word.add_argument("--day", type=day, default=None, metavar="DAY")
    word = words.add("undo", "the amends that void what a file entered",
                     "Prints the amend lines that void the charges, credits and payments which a\n"
                     "file in HOME/done entered, for `run`; standard error names what can't be\n"
                     "undone, with status 1.",
                     lambda asked: undo.undo(asked.home, asked.path, asked.wait), place="home")
    word.add_argument("path", metavar="done/DAY/NAME")
    words.add("chain", "do the reports prove one another",
              "Prints a line for each report: its name, its seal, and `ok` if the ledger's first\n"
              "rows are those of the seal and the report before it has the seal that it names.\n"
              "Status 1: one isn't.",
              lambda asked: chain(asked.home, asked.wait), place="home")
    word = words.add("examine", "what an examiner would ask about",
                     "Prints a record for each thing that the ledger takes and an examiner asks\n"
                     "about: section of 12 CFR 1026, account, day, what it is, what puts it\n"
                     "right; docs/RULES.md has each rule. Status 1: there are some.",
                     lambda asked: examine(find_program(asked.program), asked.home, asked.wait),
                     place="home", program=True)
    word = words.add("version", "which program and companion these are",
                     "Prints billctl's place and SHA-256, the commit and the kit that it was\n"
                     "built with where they are known, the companion's version, and the format\n"
                     "of rows.",
                     lambda asked: version.version(asked.program), wait=None, place=None,
                     program=True)


def carry_tomorrow(asked: argparse.Namespace) -> int:
    return tomorrow.tomorrow(find_program(asked.program), asked.home, asked.day, asked.inbox,
                             Meant(far=True), asked.wait)


def add(words: Words) -> None:
    add_file(words)
    add_home(words)
