"""Short histories, and one changed line of what is printed of each that breaks a law."""

from typing import NamedTuple

SHORT = """\
feerow 2011-01-02 2500 3500
roll 2025-01-06
open anna o 2025-01-06 5 1500 2500 1900 2999 5000 0
charge anna c1 2025-01-06 purchase 60000
charge anna c2 2025-01-06 cash 40000
roll 2025-02-06
bill anna b1 1
roll 2025-03-06
bill anna b2 2
roll 2025-03-20
payment anna p1 2025-03-20 600 online 20000
roll 2025-04-06
bill anna b3 3
roll 2025-05-20
payment anna p2 2025-05-20 1021 mail 5000
roll 2025-06-06
"""

# balances of each kind; the period of the deferred plan ends with the closing of August
KINDS = """\
roll 2025-01-06
open anna o 2025-01-06 5 1500 2500 1900 2999 5000 0
plan anna pl 2025-01-06 promo 500 2025-08-05 1500
plan anna df 2025-01-06 deferred 1200 2025-08-05 1800
charge anna c1 2025-01-06 purchase 60000
charge anna c2 2025-01-06 cash 40000
charge anna c3 2025-01-06 transfer 30000
charge anna c4 2025-01-06 plan:2 20000
charge anna c5 2025-01-06 plan:3 10000
roll 2025-02-06
bill anna b1 1
roll 2025-03-10
credit anna m1 2025-03-10 purchase 4000
roll 2025-09-06
"""

DISPUTED = """\
roll 2025-03-10
open bert o 2025-03-02 1 1500 2500 1900 2999 2500 100
charge bert c1 2025-03-10 purchase 1000
charge bert c2 2025-03-10 purchase 29000
roll 2025-03-20
dispute bert d1 2025-03-20 3 29000
roll 2025-04-02
bill bert b1 1
roll 2025-05-02
"""

# an account that follows the index, and one whose rate was lowered once
INDEX = """\
index 2024-01-01 1000
index 2025-02-20 1100
roll 2025-01-06
openvar cora o 2025-01-06 5 1200 1400 1300 2999 5000 0
openvar dora o 2025-01-06 5 1200 1400 1300 2999 5000 0
roll 2025-01-20
charge cora c1 2025-01-10 purchase 60000
charge dora c1 2025-01-10 cash 60000
lower dora l1 2025-01-20 cash 2000
roll 2025-04-06
"""

# a notice for March 2025, a plan, and rates that nothing raises
NOTICE = """\
roll 2024-01-10
open emma o 2024-01-06 5 1500 2500 1900 2999 5000 0
roll 2025-01-10
notice emma n1 2025-01-10 purchase 2400 2025-03-10
plan emma pl 2025-01-10 promo 500 2025-08-05 1500
roll 2025-02-10
charge emma c1 2025-02-10 purchase 60000
charge emma c2 2025-02-10 cash 40000
charge emma c3 2025-02-10 plan:3 20000
roll 2025-04-06
"""

# the first due date is missed, and the penalty rate is announced on the 61st day after it
LATE = """\
roll 2025-01-06
open fred o 2025-01-06 5 1500 2500 1900 2999 2500 1000
charge fred c1 2025-01-06 cash 40000
roll 2025-02-06
bill fred b1 1
roll 2025-02-10
payment fred p1 2025-02-10 600 online 4000
roll 2025-03-06
bill fred b2 2
roll 2025-05-01
penalty fred q1
roll 2025-07-06
"""

# purchases bear no interest in the first cycle, and nothing is due in it
FIRST = """\
roll 2025-01-06
open hugo o 2025-01-06 5 1500 2500 1900 2999 5000 0
charge hugo c1 2025-01-06 purchase 60000
charge hugo c2 2025-01-06 cash 40000
roll 2025-01-20
payment hugo p1 2025-01-20 600 online 20000
roll 2025-02-06
"""

# what the day of a statement's issue decides: whether purchases bear interest in the next cycle
GRACE = """\
roll 2025-01-06
open gina o 2025-01-06 5 1500 2500 1900 2999 5000 0
charge gina c1 2025-01-06 purchase 60000
roll 2025-02-07
bill gina b1 1
roll 2025-03-06
"""

HISTORIES = {"short": SHORT, "kinds": KINDS, "disputed": DISPUTED, "index": INDEX,
             "notice": NOTICE, "late": LATE, "first": FIRST, "grace": GRACE}


class Fault(NamedTuple):
    """The check that has to find it, and no other but those that it breaks too; and the changed
    line of a file."""

    check: str
    history: str
    file: str
    line: str
    changed: str
    also: tuple[str, ...] = ()


FAULTS = (
    # the second late fee is on the day after a due date that was met
    Fault("late-fees", "short", "anna.csv", "2025-05-02,purchase:2,fee,0,3500",
          "2025-04-02,purchase:2,fee,0,3500"),
    # the first fee is of the repeat amount
    Fault("tiers", "short", "anna.csv", "2025-03-02,purchase:2,fee,0,2500",
          "2025-03-02,purchase:2,fee,0,3500"),
    # what a payment paid above the minimum on cash goes to purchases, at a lower rate; and so, in
    # the one history, the interest of purchases is of more than their balance
    Fault("excess", "short", "anna.csv", "2025-03-20,cash:3,payment,6,-10000",
          "2025-03-20,purchase:2,payment,6,-10000", ("own-days",)),
    Fault("excess", "first", "hugo.csv", "2025-01-20,cash:3,payment,4,-20000",
          "2025-01-20,purchase:2,payment,4,-20000"),
    # a payment of 17:01 is credited two days later
    Fault("credited", "short", "anna.csv", "2025-05-21,cash:3,payment,8,-5000",
          "2025-05-22,cash:3,payment,8,-5000"),
    # a cent of a payment is lost, and a cent of a merchant's credit entered too much
    Fault("whole", "short", "anna.csv", "2025-05-21,cash:3,payment,8,-5000",
          "2025-05-21,cash:3,payment,8,-4999"),
    Fault("whole", "kinds", "anna.csv", "2025-03-10,purchase:2,credit,10,-4000",
          "2025-03-10,purchase:2,credit,10,-4001"),
    # a charge is of a later day than interest says: it is of days before
    Fault("own-days", "kinds", "anna.csv", "2025-01-06,purchase:2,charge,4,60000",
          "2025-02-20,purchase:2,charge,4,60000"),
    Fault("own-days", "kinds", "anna.csv", "2025-01-06,cash:3,charge,5,40000",
          "2025-01-07,cash:3,charge,5,40000"),
    Fault("own-days", "kinds", "anna.csv", "2025-01-06,transfer:4,charge,6,30000",
          "2025-01-07,transfer:4,charge,6,30000"),
    Fault("own-days", "kinds", "anna.csv", "2025-01-06,promo:5,charge,7,20000",
          "2025-01-08,promo:5,charge,7,20000"),
    Fault("own-days", "kinds", "anna.csv", "2025-01-06,deferred:6,charge,8,10000",
          "2025-08-20,deferred:6,charge,8,10000"),
    # a cent of interest that no statement has; a statement whose rate doesn't give its interest
    Fault("own-days", "kinds", "anna.csv", "2025-02-05,cash:3,interest,0,849",
          "2025-02-05,cash:3,interest,0,850"),
    Fault("own-days", "kinds", "anna.txt",
          "RATE cash:3        25.00%  0.000684931         400.00           8.49",
          "RATE cash:3        24.90%  0.000684931         400.00           8.49"),
    # the minimum payment is that of the whole balance, with what is in dispute
    Fault("asked", "disputed", "bert.txt", "MINIMUM PAYMENT                       10.00",
          "MINIMUM PAYMENT                       25.00"),
    # a rate above margin and index, one below; and one that rises while the index doesn't
    Fault("index", "index", "cora.txt",
          "RATE purchase:2    22.00%  0.000602739           0.00           0.00",
          "RATE purchase:2    22.01%  0.000602739           0.00           0.00"),
    Fault("index", "index", "cora.txt",
          "RATE purchase:2    22.00%  0.000602739           0.00           0.00",
          "RATE purchase:2    21.99%  0.000602739           0.00           0.00"),
    Fault("index", "index", "dora.txt",
          "RATE cash:3        20.00%  0.000547945         618.88          10.51",
          "RATE cash:3        22.00%  0.000547945         618.88          10.51"),
    # a rate without notice, a notice's before its effective day and above what it says, a plan's
    # rate after its end in its period, and a penalty rate above that of the terms
    Fault("raises", "notice", "emma.txt",
          "RATE cash:3        25.00%  0.000684931         342.86           6.58",
          "RATE cash:3        29.99%  0.000684931         342.86           6.58"),
    Fault("raises", "notice", "emma.txt",
          "RATE purchase:5    15.00%  0.000410958           0.00           0.00",
          "RATE purchase:5    24.00%  0.000410958           0.00           0.00"),
    Fault("raises", "notice", "emma.txt",
          "RATE purchase:5    24.00%  0.000657534           0.00           0.00",
          "RATE purchase:5    24.01%  0.000657534           0.00           0.00"),
    Fault("raises", "notice", "emma.txt",
          "RATE promo:6        5.00%  0.000136986         171.43           0.66",
          "RATE promo:6       15.00%  0.000136986         171.43           0.66"),
    Fault("raises", "late", "fred.txt",
          "RATE cash:3        29.99%  0.000821643         399.84           9.36",
          "RATE cash:3        30.00%  0.000821643         399.84           9.36"),
    # the minimum payment was met after all; its statement was issued so late that nothing was due
    Fault("sixty-days", "late", "fred.txt", "MINIMUM PAYMENT                       49.33",
          "MINIMUM PAYMENT                       40.00"),
    Fault("sixty-days", "late", "lines", "roll 2025-02-06", "roll 2025-02-09"),
    # a statement was issued so late that nothing was due
    Fault("grace", "grace", "lines", "roll 2025-02-07", "roll 2025-02-09"),
)
