"""What replies say in words: each refusal with its reason, and which are harmless repeats."""

REASONS = {
    1: "there is no account of this name",
    2: "the account is there already, and this key isn't in it",
    3: "the key is in the account with other content: post {}",
    6: "its day is after today",
    7: "its day is before the account was opened",
    8: "the number names no plan",
    9: "the charge's day lies outside its plan",
    10: "a plan has to end on a closing: {} is the first one from its end on",
    11: "a plan lasts six months at least",
    12: "the account has 64 segments, so no plan or notice is taken",
    13: "number {} is no post of the kind that is wanted; or, of a bill, "
        "it is the bill that issued this cycle",
    14: "the payment was returned before, by post {}",
    15: "a notice takes effect 45 days after its day at the earliest: {}",
    16: "no notice takes effect in the account's first year: {} at the earliest",
    17: "a notice of this category takes effect later, on {}; give a day from then on",
    18: "the account isn't sixty days late at the end of today",
    19: "the last day for a dispute of this charge was {}",
    20: "the charge was disputed before, by post {}",
    21: "the dispute is resolved",
    22: "the cycle's closing, {}, isn't before today",
    23: "the credit balance is {} cents, and no more can be refunded",
    24: "by its day no rate was increased",
    25: "the account is full",
    26: "the ledger is full",
    27: "today is {} already, and never goes back",
    28: "a roll goes 366 days at most where an account exists",
    29: "holidays, fee rows and index rows are taken for days after today alone, and today is {}",
    30: "no index row is there for its day",
}

# What is outside its range, by the word of the request.
CENTS = "the cents aren't 1 to 1,000,000,000"
RANGES = {
    "charge": CENTS,
    "credit": CENTS,
    "payment": f"{CENTS}, or the minute is above 1,439",
    "refund": CENTS,
    "dispute": CENTS,
    "amend": "the cents are above 1,000,000,000",
    "resolve": "the cents are above 1,000,000,000, or above what the dispute claims",
    "plan": "a rate is above 9,999 basis points",
    "notice": "the rate is above 9,999 basis points",
    "lower": "the rate is above 9,999 basis points",
    "index": "the rate is above 9,999 basis points",
    "bill": "the cycle is 0, or closes after 2099-12-31",
    "feerow": "a fee is above 100,000 cents, or the first one above the repeated one",
}

TERMS = {
    "1": "the closing day of the month isn't 1 to 28",
    "2": "the purchase rate is above 9,999 basis points",
    "3": "the cash rate is above 9,999 basis points",
    "4": "the transfer rate is above 9,999 basis points",
    "5": "the penalty rate is above 9,999 basis points",
    "6": "the floor is above 1,000,000 cents",
    "7": "the part is above 10,000 basis points",
}

# Where the opening rates follow the index, these terms are margins on it.
MARGINS = {
    "2": "the purchase margin is above 9,999 basis points",
    "3": "the cash margin is above 9,999 basis points",
    "4": "the transfer margin is above 9,999 basis points",
}

BAD_TERMS = 4
AMOUNT_RANGE = 5
ROLL_BACK = 27
PAST_ROW = 29


def number_of(reply: str) -> int:
    """The number of a refusal, 0 where a reply is none."""
    parts = reply.split(" ")
    return int(parts[1]) if parts[0] == "no" and len(parts) > 1 and parts[1].isdigit() else 0


def reason_of(reply: str, word: str) -> str:
    """A refusal in words, of a request with this word."""
    parts = reply.split(" ")
    value = parts[3] if len(parts) > 3 else ""
    number = number_of(reply)
    if number == BAD_TERMS and word == "openvar" and value in MARGINS:
        return MARGINS[value]
    if number == BAD_TERMS:
        return TERMS.get(value, "a term is outside its range")
    if number == AMOUNT_RANGE:
        return RANGES.get(word, "an amount is outside its range")
    return REASONS.get(number, "see the table of refusals in FORMATS").format(value)
