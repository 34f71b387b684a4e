"""What may go wrong without a word: each is told by the sentence that names it."""

import os
import sqlite3

from .common import HEADER, Case, ledger
from .home import OPENING, Home

CHARGE = "anna,{key},charge,{day},purchase,{cents},,\n"


def charge(key: str, day: str, cents: int) -> str:
    return HEADER + CHARGE.format(key=key, day=day, cents=cents)


class Sealed(Home):
    """The rows are those that the last report sealed, or the night doesn't begin."""

    def setUp(self) -> None:
        super().setUp()
        self.begin(OPENING)
        self.put("cards.csv", charge("c1", "2024-02-05", 50_000))
        self.assertEqual(self.night("2024-02-06")[0], 0)

    def change(self, text: str, *values: object) -> None:
        base = sqlite3.connect(self.file)
        base.execute(text, values)
        base.commit()
        base.close()

    def refused(self, message: str) -> None:
        """The night does nothing, and says why."""
        before = self.listing()
        done = self.night("2024-02-07")
        self.expect(done, 10, message)
        self.assertNotIn("move", done[2])
        self.assertEqual({name: data for name, data in self.listing().items()},
                         before)

    def test_changed_row(self) -> None:
        """The cents of a charge are changed: the row is sound, so `check` sees nothing."""
        body = self.rows()[5][1]
        self.change("UPDATE kept SET body = ? WHERE seq = 6", body[:-2] + b"\x01\x02")
        self.assertEqual(ledger("check", self.file)[0], 0)
        self.refused("the first 8 rows aren't those that reports/2024-02-06.txt sealed: a row was "
                     "changed, lost or put in. Nothing was done. Keep the file as it is")

    def test_lost_row(self) -> None:
        self.change("DELETE FROM kept WHERE seq = 8")
        self.assertEqual(ledger("check", self.file)[0], 0)
        self.refused("the ledger has 7 rows, and reports/2024-02-06.txt sealed 8: an older file "
                     "was restored, or rows were lost. Nothing was done")

    def test_row_put_in(self) -> None:
        """An honest row amid the others, which the rest follows."""
        rows = self.rows()
        extra = rows[5][1].replace(b"c1", b"c0")
        self.change("DELETE FROM kept WHERE seq > 6")
        for seq, body in ((7, extra), *((seq + 1, body) for seq, body in rows[6:])):
            self.change("INSERT INTO kept VALUES (?, ?)", seq, body)
        self.refused("the first 8 rows aren't those that")

    def test_rows_that_came(self) -> None:
        """Rows that came in by day are behind the sealed ones, and no fault."""
        self.assertEqual(ledger("run", self.file, given="show anna\ncharge anna d1 2024-02-06 "
                                "purchase 700\n")[0], 0)
        self.assertEqual(self.night("2024-02-07")[0], 0)
        seal = self.text("reports", "2024-02-06.txt").split("seal: ")[1].split("\n")[0]
        self.assertIn(f"seal before: {seal} (reports/2024-02-06.txt)\n",
                      self.text("reports", "2024-02-07.txt"))

    def test_chain(self) -> None:
        """The reports prove one another; one that is changed or lost is named."""
        for day in ("2024-02-07", "2024-02-08"):
            self.assertEqual(self.night(day)[0], 0)
        status, out, err = ledger("chain", self.home)
        self.assertEqual((status, out.count(" ok\n")), (0, 3), err)
        report = self.text("reports", "2024-02-07.txt")
        os.remove(os.path.join(self.home, "reports", "2024-02-07.txt"))
        status, out, _ = ledger("chain", self.home)
        self.assertEqual(status, 1)
        self.assertIn("and the report before has 8 ", out)
        seal = report.split("\nseal: ")[1].split("\n")[0]
        self.put("reports/2024-02-07.txt", report.replace(seal, f"9 {'0' * 64}"))
        status, out, _ = ledger("chain", self.home)
        self.assertIn("the rows aren't those that it sealed", out)
        self.assertEqual(status, 1)


class Restored(Home):
    """After a restore the undone nights are gone through again, and nothing is billed twice."""

    def setUp(self) -> None:
        super().setUp()
        self.begin(OPENING)
        for day, key in ((4, "c1"), (5, "c2"), (6, "c3")):
            self.put("cards.csv", charge(key, f"2024-02-0{day}", 10_000))
            self.assertEqual(self.night(f"2024-02-0{day + 1}" if day > 4 else "2024-02-05")[0], 0)
        self.backup = os.path.join(self.home, "backups", "rows-2024-02-05-5.db")
        self.before = self.listing()

    def test_again(self) -> None:
        """Two nights are undone: their files go back in their order, each for its night."""
        done = ledger("restore", self.backup, self.file)
        for text in ("done/2024-02-06/cards.csv was entered after the backup",
                     "done/2024-02-07/cards.csv was entered after the backup",
                     "statements/2024-02-06: 2 statements printed from rows that are gone",
                     "reports/2024-02-07.txt sealed rows that are gone",
                     "--again puts these files back"):
            self.expect(done, 0, text)
        self.assertNotIn("done/2024-02-05", done[2])
        self.expect(self.night("2024-02-06"), 10, "the ledger has 5 rows, and "
                    "reports/2024-02-07.txt sealed 11: an older file was restored")
        done = ledger("restore", self.backup, self.file, "--again")
        self.expect(done, 0, f"    ledger night {self.home} --day 2024-02-06\n"
                             f"    ledger night {self.home} --day 2024-02-07\n")
        self.assertEqual(self.names("inbox"), ["00-again-2024-02-06-cards.csv",
                                               "00-again-2024-02-07-cards.csv"])
        self.assertEqual(self.night("2024-02-06")[0], 0)
        self.assertEqual(self.names("inbox"), ["00-again-2024-02-07-cards.csv"])
        self.assertEqual(self.night("2024-02-07")[0], 0)
        self.assertEqual(ledger("chain", self.home)[0], 0)
        after = self.listing()
        for name, data in self.before.items():
            if name.startswith("statements/") or name.endswith(".seal"):
                self.assertEqual(after[name], data, name)
        self.assertEqual(sum("undone" in name for name in after), 12)

    def test_waiting(self) -> None:
        """What waits in the inbox is for the night behind the undone ones, also where a backup is
        restored twice; a bank's own sheet is read by its description each time."""
        self.put("columns/bank.toml", '[columns]\naccount = "a"\nkey = "k"\nday = "d"\n'
                 'cents = "c"\n[always]\nplace = "purchase"\nkind = "charge"\n')
        for day in ("2024-02-06", "2024-02-07"):
            self.put("bank.csv", f"a,k,d,c\nben,b{day[-1]},{day},1.00\n")
            self.assertEqual(self.night(day if day[-1] == "7" else "2024-02-07")[0], 0)
        self.put("new.csv", charge("c4", "2024-02-08", 10_000))
        self.put(".being-written.csv", HEADER)
        for again in ("1 file of the inbox held for the night of 2024-02-08\n", ""):
            done = ledger("restore", self.backup, self.file, "--again")
            self.expect(done, 0, again)
            self.assertIn("00-again-2024-02-08-new.csv", self.names("inbox"))
            for night in ("2024-02-06", "2024-02-07"):
                self.assertEqual(self.night(night)[0], 0)
        self.assertEqual(self.names("inbox"), [".being-written.csv",
                                               "00-again-2024-02-08-new.csv"])
        self.assertEqual(self.night("2024-02-08")[0], 0)
        self.assertEqual(self.names("inbox"), [".being-written.csv"])
        self.assertEqual(self.names("refused"), [])
        posts = [line.split()[:3] for line in ledger("posts", self.file)[1].splitlines()
                 if " charge " in line]
        self.assertEqual([post[2] for post in posts], ["c1", "c2", "c3", "c4", "b6", "b7"])
        self.assertEqual(ledger("chain", self.home)[0], 0)

    def test_same_day(self) -> None:
        """A sheet that a second call of one night entered is behind the backup of the first."""
        self.put("columns/bank.toml", '[columns]\naccount = "a"\nkey = "k"\nday = "d"\n'
                 'cents = "c"\n[always]\nplace = "purchase"\nkind = "charge"\n')
        first = max(name for name in self.names("backups") if name.endswith(".db"))
        self.put("bank.csv", "a,k,d,c\nben,b1,2024-02-07,1.00\n")
        self.assertEqual(self.night("2024-02-07")[0], 0)
        done = ledger("restore", os.path.join(self.home, "backups", first), self.file, "--again")
        self.expect(done, 0, "done/2024-02-07/bank.csv was entered after the backup")
        self.assertNotIn("done/2024-02-07/cards.csv", done[2])
        self.assertEqual(self.night("2024-02-07")[0], 0)
        self.assertIn("charge ben b1 ", ledger("rows", self.file)[1])

    def test_reissue(self) -> None:
        """A bill whose statement was printed with other numbers waits until it is meant."""
        ledger("restore", self.backup, self.file, "--again")
        path = "inbox/00-again-2024-02-06-cards.csv"
        self.put(path, charge("c2", "2024-02-05", 20_000))
        done = self.night("2024-02-06")
        self.expect(done, 1, "statement 1 of anna has other numbers now than the one that was "
                             "printed: statements/2024-02-06/anna-1.txt")
        self.expect(done, 1, "reissue: 1 bill held back, since statements with other numbers were "
                             "printed; --reissue issues them")
        self.assertEqual(ledger("due", self.file)[1], "anna 1 2024-02-05 2024-02-09\n")
        self.assertEqual(self.night("2024-02-06", "--reissue")[0], 0)
        self.assertEqual(ledger("due", self.file)[1], "")
        self.assertIn("300.00", self.text("statements", "2024-02-06", "anna-1.reissued.txt"))
        self.assertIn("200.00", self.text("statements", "2024-02-06", "anna-1.txt"))


class Dated(Home):
    """Records of a billed cycle and notices dated back are taken only if they are meant."""

    LATE = "2024-02-03 lies in cycle 1, billed on 2024-02-06"

    def setUp(self) -> None:
        super().setUp()
        self.begin(OPENING)
        self.put("cards.csv", charge("c1", "2024-02-03", 50_000))
        self.assertEqual(self.night("2024-02-06")[0], 0)

    def test_run(self) -> None:
        late = charge("c2", "2024-02-03", 700) + CHARGE.format(key="c3", day="2024-02-06", cents=1)
        before = self.rows()
        done = ledger("run", self.file, given=late)
        self.expect(done, 10, f"run: nothing was sent: record 2: {self.LATE}. Such a record is on "
                              "no statement as a transaction")
        self.assertEqual(self.rows(), before)
        line = "payment anna p1 2024-02-05 600 mail 100\n"
        self.expect(ledger("run", self.file, given=line), 10, "line 1: 2024-02-05 lies in cycle 1")
        self.assertEqual(ledger("run", self.file, "--late", given=late)[:2], (0, "ok 4\nok 5\n"))
        self.assertEqual(ledger("run", self.file, given=late)[:2], (0, "ok 4\nok 5\n"),
                         "a repeat changes nothing, so it is none")

    def test_night(self) -> None:
        self.put("late.csv", charge("c2", "2024-02-03", 700))
        done = self.night("2024-02-07")
        self.expect(done, 1, f"inbox late.csv: nothing was sent: record 2: {self.LATE}")
        self.assertIn(self.LATE, self.text("refused", "2024-02-07", "late.csv.why"))
        self.put("./settings.toml", 'late = "take"\n')
        self.put("late.csv", charge("c2", "2024-02-03", 700))
        self.expect(self.night("2024-02-08"), 0, "inbox late.csv: 1 record, 1 new row, 0 refused")
        self.put("./settings.toml", 'late = "maybe"\n')
        self.expect(self.night("2024-02-09"), 10, "late is 'maybe', wanted refuse or take")

    def test_convert(self) -> None:
        columns = self.write("columns.toml", '[columns]\naccount = "a"\nkey = "k"\nday = "d"\n'
                             'cents = "c"\n[always]\nplace = "purchase"\nkind = "charge"\n')
        sheet = "a,k,d,c\nanna,c9,2024-02-03,7.00\n"
        done = ledger("convert", columns, "--ledger", self.file, given=sheet)
        self.expect(done, 10, f"nothing was written: record 2: {self.LATE}")
        self.assertEqual(done[1], "")
        done = ledger("convert", columns, "--ledger", self.file, "--late", given=sheet)
        self.assertEqual(done[:2], (0, charge("c9", "2024-02-03", 700)))

    def test_notice(self) -> None:
        """A notice of today or yesterday is taken; an older one only if it is meant."""
        ledger("run", self.file, "--far", given="roll 2025-02-06\n")
        old = "notice anna n1 2025-02-04 purchase 2499 2025-04-01\n"
        why = "line 1: its notice is of 2025-02-04, and today is 2025-02-06. A notice that is " \
            "dated back raises rates of days past (12 CFR 1026.9(c)(2), .55(a))"
        self.expect(ledger("run", self.file, given=old), 10, why)
        self.put("desk.txt", old)
        self.expect(self.night("2025-02-06"), 1, f"inbox desk.txt: nothing was sent: {why}")
        self.assertEqual(ledger("run", self.file, given=old.replace("02-04", "02-05"))[0], 0)
        self.assertEqual(ledger("run", self.file, "--dated-back",
                                given=old.replace("n1", "n2").replace("purchase", "cash"))[0], 0)
        self.expect(ledger("run", self.file, given="roll 2025-02-08\n" + old.replace(
            "n1", "n3").replace("02-04", "02-06")), 10, "line 2: its notice is of 2025-02-06")


class Told(Home):
    def test_overdue(self) -> None:
        """A deadline that is past stands first in the report, with its section, and status 1."""
        self.begin(OPENING + "charge anna c1 2024-02-05 purchase 5000\n"
                             "dispute anna d1 2024-02-05 2 5000\n")
        self.assertEqual(self.night("2024-03-06", "--far")[0], 0)
        done = self.night("2024-03-07")
        self.assertEqual(done[0], 1)
        report = self.text("reports", "2024-03-07.txt").splitlines()
        self.assertEqual(report[:3], [
            "overdue: 1", "  anna ACK of post 3: by 2024-03-06, 1 day ago "
            "(12 CFR 1026.13(c)(1))", "night of 2024-03-07"])

    def test_lock(self) -> None:
        """The lock is empty after a refusal by a guard, and after billctl couldn't go on."""
        self.begin(OPENING)
        self.expect(self.night("2024-03-06"), 10, "30 days")
        self.assertEqual(self.text("night.lock"), "")
        lame = self.write("lame", "#!/bin/sh\nexit 5\n")
        os.chmod(lame, 0o755)
        self.assertEqual(self.night("2024-02-06", "--program", lame)[0], 5)
        self.assertEqual(self.text("night.lock"), "")
        self.assertNotIn("didn't end", self.night("2024-02-06")[2])


class Sheets(Case):
    COLUMNS = 'date = "DD.MM.YYYY"\nnewest_days = 3\noldest_days = 40\ntotal = "Total"\n' \
        '[columns]\naccount = "a"\nkey = "k"\nday = "d"\ncents = "c"\n[always]\n' \
        'place = "purchase"\nkind = "charge"\n'
    SHEET = "a,k,d,c\nanna,1,03.02.2026,7.00\nanna,2,05.02.2026,1.50\nTotal,,,8.50\n"

    def convert(self, sheet: str, day: str = "2026-02-06") -> tuple[int, str, str]:
        return ledger("convert", self.write("columns.toml", self.COLUMNS), "--day", day,
                      given=sheet)

    def test_sound(self) -> None:
        self.expect(self.convert(self.SHEET), 0, "convert: 2 records: 2 charges 8.50\n")

    def test_swapped(self) -> None:
        """Days and months are swapped: one day is ahead, or too old."""
        done = self.convert(self.SHEET.replace("03.02", "02.03"))
        self.expect(done, 1, "2 | d | 02.03.2026 | after 2026-02-06; are days and months swapped?")
        done = self.convert(self.SHEET.replace("03.02", "01.01").replace("2026,7", "2025,7"))
        self.expect(done, 1, "2 | d | 01.01.2025 | 401 days before 2026-02-06, and oldest_days is")
        self.assertEqual(done[1], "")
        done = self.convert(self.SHEET.replace("03.02", "01.03").replace("05.02", "02.03"),
                            "2026-04-02")
        self.expect(done, 10, "the newest day of the sheet is 2026-03-02, 31 days before "
                              "2026-04-02, and newest_days is 3: it is a sheet of another time")
        done = self.convert(self.SHEET.replace("03.02", "03.01").replace("05.02", "03.02"),
                            "2026-03-03")
        self.expect(done, 10, "the newest day of the sheet is 2026-02-03, 28 days before "
                              "2026-03-03, and newest_days is 3: are its days and months swapped?")

    def test_month_before(self) -> None:
        self.expect(self.convert(self.SHEET, "2026-03-06"), 10,
                    "the newest day of the sheet is 2026-02-05, 29 days before 2026-03-06, and "
                    "newest_days is 3: it is a sheet of another time")

    def test_total(self) -> None:
        self.expect(self.convert(self.SHEET.replace("1.50", "1.60")), 10,
                    "the records sum up to 8.60, and the line 'Total' has 8.50 in the column 'c'")
        self.expect(self.convert(self.SHEET.replace("Total,,,8.50\n", "")), 10,
                    "no line begins with 'Total', so the end of the sheet may be missing")
