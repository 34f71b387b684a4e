"""The small ledger of these tests: a day, an account, and a charge."""

LINES = ["roll 2024-03-01", "open a o 2024-03-01 5 1999 2499 2199 2999 2500 100",
         "charge a c1 2024-03-01 purchase 1250"]
REPLIES = "ok\nok 1\nok 2\n"
SHOWN = "show a 2024-03-01 owed 1250 credit 0 held 0\n"

# The same as rows, and as rows of format 1, which is read and no longer written.
ROLL, OPEN, CHARGE = map(bytes.fromhex, (
    "020112c8",
    "02040161016f12c801050207cf0209c3020897020bb70209c40164",
    "02050161026331" "12c8" "00" "0204e2",
))
OLD_ROLL, OLD_OPEN, OLD_CHARGE = map(bytes.fromhex, (
    "010100004d47",
    "01040161016f00004d47" "0000000000000005" "00000000000007cf" "00000000000009c3"
    "0000000000000897" "0000000000000bb7" "00000000000009c4" "0000000000000064",
    "01050161026331" "00004d47" "00" "00000000000004e2",
))

# What only reads a ledger.
TELLING = ("statement a 1", "restate a 1", "export a", "work")
