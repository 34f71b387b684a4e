"""A year of a million accounts: shard after shard over files, with imports and nights.

    python3 -m bench year [--shards N] [--accounts N] [--months N] [--seed N] [--sample N]
                          [--results FILE] [--folder DIR]
    python3 -m bench year --table FILE [FILE ..]

It takes hours and is run once, by hand. 50 shards of 20,000 accounts are made one after the other,
each a ledger of its own. For each shard it notes rows, seconds, memory, bytes and statements as a
line of JSON in the results file. A run that was stopped continues after the last whole shard when
it is called again. At the end it prints a table in Markdown, and looks at three things:

1. The trial balance. The change of all entries up to the last closing, as `trial` prints it, has to
   be the sum of the new balances, as the statements of the last night had them when a server of
   that night printed them. Both are compared for each shard and for all together.
2. The audit. The independent model (audit/) recomputes one shard in a hundred, the first one
   always: a sample of its accounts, since a whole shard would take it hours. It compares the
   program's answers, and the statements of all nights as they were printed then.
3. The rows. A stock SQLite counts as many as there were accepted lines.

Status 1 says that the sums or the audit of a shard disagree; its files then stay.

Several calls can run at once, each with a seed, a results file and a folder of its own. `--table`
then prints one table of their files; seconds by the clock are those of shards side by side.

**The load.** All accounts of a shard close on the same day of the month, those of the next shard
on another one. Every day has a night: its roll, and the records of the day before, some of them
dated back by days. An account has two to four charges a month, now and then a cash advance or a
merchant's credit, and mostly a payment: of all that its statement asks for, of the minimum, of a
part, or none. Some payments are late, some come back. Some charges are disputed, and the disputes
acknowledged and resolved. A quarter of the accounts follows an index. The night after a closing
issues the bill of every account, and asks for the statements and the open tasks. What the companion
does beside billctl isn't part of it: backups, seals, books by account, and files.

**Few runs.** Each run of the program carries out all rows of its file again. Two runs a night would
load a shard 732 times in this leap year, and loading all shards would take a day or longer. So the
nights of a month go through one `apply`, each with its roll and its records as lines, as the
companion's night sends them if many records wait. Then one `serve` answers for the statements. The
rows are those that a run for each night would leave. So a shard's year has 24 starts, and one for
`trial`. They still take half of the processor's time. A shard takes some three minutes on a
processor of 2.5 GHz, so all 50 would take some two and a half hours one after the other; by four
calls at once they took 41 minutes.

**What is measured.** `starts` are the seconds from the beginning of a run until it has loaded the
rows and answers; `imports` those of openings and records; `nights` those of rolls, bills,
statements, tasks, the trial balance and the ends of runs. The processor's seconds are the program's
alone; in the column `most` they are those of the shard that took longest by the clock. The seconds
by the clock are also those of the client, which is Python, and of the disk; what draws the load
isn't counted. Memory is the most that a process of the program had.
"""
