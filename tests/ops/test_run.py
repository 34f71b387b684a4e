"""Each guard of `run` with its message, what it tells of refusals, and its statuses."""

import os
import resource
import signal
import subprocess

from tests.support.program import PROGRAM, Session

from .common import HEADER, LINES, Case, ledger

WORDS = ("check today accounts due bills rows run convert statements seal backup restore "
         "night").split()

# What `run` tells of the refused lines of `test_lines`.
TOLD_OF_LINES = (
    "line 2: charge ben c1 2024-02-06 purchase 500: "
    "no 1 UnknownAccount: there is no account of this name\n"
    "line 3: charge anna c3 2024-2-6 purchase 5: "
    "bad 3 4: field 4 (day) is '2024-2-6', wanted a day YYYY-MM-DD from 2011-01-01 to 2099-12-31\n"
    "line 4: open ben o 2024-02-06 31 1999 2499 2199 2999 2500 100: "
    "no 4 BadTerms 1: the closing day of the month isn't 1 to 28\n"
    "line 5: bill anna b1 2: "
    "no 22 NotClosed 2024-03-05: the cycle's closing, 2024-03-05, isn't before today\n"
    "line 6: plan: "
    "bad 6 2: field 2 (account) is missing\n"
    "line 7: charge anna c1 2024-01-10 purchase 100001: "
    "no 3 KeyReused 2: the key is in the account with other content: post 2\n"
    "line 9: show: "
    "bad 9 2: field 2 (account) is missing\n"
    "line 10: : "
    "bad 10 1: the line is empty\n"
    "10 lines: 10 answered, 8 refused, 1 new row\n"
    "status 1: something was refused; those lines had no effect, and the others stand\n"
)


class Guards(Case):
    def refuse(self, given: str | bytes, message: str, *more: str) -> None:
        """Nothing is sent: status 10, no reply, and the rows are as they were."""
        before = self.rows() if os.path.exists(self.file) else None
        done = ledger("run", self.file, *more, given=given)
        self.expect(done, 10, "run: nothing was sent: " + message)
        self.assertEqual(done[1], "")
        self.assertEqual(self.rows() if os.path.exists(self.file) else None, before)

    def test_not_there(self) -> None:
        self.refuse(LINES, f"{self.file} isn't there; --new begins a new, empty ledger under this "
                           "name")

    def test_there_already(self) -> None:
        self.begin()
        self.refuse("show anna\n", f"{self.file} is there already; leave --new out", "--new")

    def test_log_alone(self) -> None:
        self.write("rows.db-wal", b"")
        self.refuse(LINES, f"{self.file}-wal is there without its file; a log and a file of "
                           "another time mustn't meet: bring its file back beside it, or begin "
                           "the ledger under another name", "--new", "--far")

    def test_empty(self) -> None:
        self.begin()
        self.refuse("", "the input is empty")

    def test_cut(self) -> None:
        self.begin()
        self.refuse("show anna\ncharge anna c9 2024-02-06 purchase 987",
                    "the last line doesn't end with a line feed, so it may be cut: 'charge anna c9 "
                    "2024-02-06 purchase 987'")
        self.refuse(HEADER + "anna,c9,charge,2024-02-06,purchase,987",
                    "the last line doesn't end with a line feed, so it may be cut: "
                    "'anna,c9,charge,2024-02-06,purchase,987'")
        self.refuse(HEADER + 'anna,c9,charge,2024-02-06,purchase,98765,,\n"anna,c10\n',
                    "a quote isn't closed, so the end of the input may be missing")

    def test_header(self) -> None:
        self.begin()
        record = "anna,c9,charge,2024-02-06,purchase,987,,\n"
        wanted = "the header is account,key,kind,day,place,cents,minute,channel"
        for header, column in (
            ("account,key,day,kind,place,cents,minute,channel\n",
             "column 3 of the header is 'day', wanted 'kind'; "),
            ("Account,key,kind,day,place,cents,minute,channel\n",
             "column 1 of the header is 'Account', wanted 'account'; "),
            ("account,key,kind,day,place,cents,minute\n",
             "column 8 of the header is missing, wanted 'channel'; "),
            ("account;key;kind;day;place;cents;minute;channel\n",
             "column 1 of the header is 'account;key;kind;day;place;cents;minute;channel', wanted "
             "'account'; "),
            ("", "column 1 of the header is 'anna', wanted 'account'; "),
        ):
            self.refuse(header + record, column + wanted)
        self.refuse("account,key,kind,day,place,cents,minute,channel,text\n" + record,
                    "the header has 9 columns, wanted 8: account,key")

    def test_text(self) -> None:
        self.begin()
        self.refuse("show anna\n".encode("utf-16"),
                    "the input isn't plain text (it may be UTF-16); save it as UTF-8")
        self.refuse(b"\xef\xbb\xbfshow anna\n",
                    "a byte order mark stands before the first line; save it without")
        self.refuse("Dear all,\nshow anna\n",
                    "column 1 of the header is 'Dear all', wanted 'account'")
        self.refuse("hello world\n",
                    "the first line begins with no word of a request, and is no header of CSV: "
                    "'hello world'")

    def test_far(self) -> None:
        self.begin()
        told = "and no roll can be taken back; more than 7 days want --far"
        self.refuse("roll 2025-02-06\n",
                    f"line 1 rolls from 2024-02-06 to 2025-02-06, 366 days, {told}")
        self.refuse("show anna\nroll 2024-02-10\nroll 2024-02-14\n",
                    f"line 3 rolls from 2024-02-06 to 2024-02-14, 8 days, {told}")
        self.assertEqual(ledger("run", self.file, given="roll 2024-02-13\n")[:2], (0, "ok\n"))
        self.assertEqual(ledger("run", self.file, "--far", given="roll 2024-03-13\n")[:2],
                         (0, "ok\n"))

    def test_far_without_accounts(self) -> None:
        """Before the first account a roll goes as far as it likes."""
        self.refuse(LINES, "line 5 rolls from 2024-01-10 to 2024-02-06, 27 days", "--new")
        done = ledger("run", self.file, "--new", given="roll 2024-01-10\nroll 2024-02-20\n")
        self.assertEqual(done[:2], (0, "ok\nok\n"))

    def test_file(self) -> None:
        """Each cause of `check` comes before anything is sent."""
        done = ledger("run", self.room, "--wait", "0", given="show anna\n")
        self.expect(done, 5, f"run: {self.room} is a folder")
        self.expect(ledger("run", "-", given="show anna\n"), 5, "- keeps rows in memory")
        self.begin()
        with Session([self.file, "apply"]) as session:
            session.ask("show anna")
            done = ledger("run", self.file, "--wait", "0", given="show anna\n")
            self.expect(done, 5, f"run: {self.file} is in use by {session.process}")
            session.end()


class Told(Case):
    def test_lines(self) -> None:
        self.begin()
        given = (
            "charge anna c2 2024-02-06 purchase 500\n"
            "charge ben c1 2024-02-06 purchase 500\n"
            "charge anna c3 2024-2-6 purchase 5\n"
            "open ben o 2024-02-06 31 1999 2499 2199 2999 2500 100\n"
            "bill anna b1 2\n"
            "plan\n"
            "charge anna c1 2024-01-10 purchase 100001\n"
            "show anna\n"
            "show\n"
            "\n")
        status, out, err = ledger("run", self.file, given=given)
        self.assertEqual(out,
                         "ok 3\nno 1 UnknownAccount\nbad 3 4\nno 4 BadTerms 1\nno 22 NotClosed "
                         "2024-03-05\nbad 6 2\nno 3 KeyReused 2\n"
                         "show anna 2024-02-06 owed 100500 credit 0 held 0\nbad 9 2\nbad 10 1\n")
        self.assertEqual(status, 1)
        self.assertEqual(err, TOLD_OF_LINES)

    def test_margins(self) -> None:
        self.begin()
        given = (
            "openvar ben o 2024-02-06 5 1449 10000 1649 2999 2500 100\n"
            "open ben o 2024-02-06 5 1999 10000 2199 2999 2500 100\n"
            "openvar ben o 2024-02-06 5 1449 1949 1649 10000 2500 100\n"
            "openvar ben o 2024-02-06 5 1449 1949 1649 2999 2500 100\n"
            "index 2024-02-07 10000\n")
        status, out, err = ledger("run", self.file, given=given)
        self.assertEqual((status, out),
                         (1, "no 4 BadTerms 3\nno 4 BadTerms 3\nno 4 BadTerms 5\nno 30 NoIndex\nno "
                             "5 AmountRange\n"))
        for line, reason in enumerate(("the cash margin is above 9,999 basis points",
                                       "the cash rate is above 9,999 basis points",
                                       "the penalty rate is above 9,999 basis points",
                                       "no index row is there for its day",
                                       "the rate is above 9,999 basis points"), 1):
            self.assertRegex(err, f"line {line}: .*: {reason}\n")

    def test_records(self) -> None:
        self.begin()
        given = HEADER + (
            "anna,c2,charge,2024-02-06,purchase,500,,\n"
            "\n"
            '"anna","p1",payment,2024-02-06,,9.87,600,online\n'
            "anna,p2,payment,2024-02-06,cash,987,600,online\n"
            "anna,p3,payment,2024-02-06,,987,600,online,x\n"
            "anna,p4,refund,2024-02-06,,987,,\n"
            "anna,p5,payment,2024-02-06,,987,1440,online\n")
        status, out, err = ledger("run", self.file, given=given.replace("\n", "\r\n"))
        self.assertEqual(out, "ok 3\nbad 3 6\nbad 4 5\nbad 5 9\nbad 6 3\nno 5 AmountRange\n")
        self.assertEqual(status, 1)
        for line in ("record 3: anna,p1,payment,2024-02-06,,9.87,600,online: bad 3 6: column 6 "
                     "(cents) is '9.87', wanted a number: 1 to 12 digits, no sign, no point, no "
                     "leading zero\n",
                     "record 4: anna,p2,payment,2024-02-06,cash,987,600,online: bad 4 5: column 5 "
                     "(place) is 'cash', and has to be empty for a payment\n",
                     "record 5: anna,p3,payment,2024-02-06,,987,600,online,x: bad 5 9: column 9 is "
                     "surplus\n",
                     "record 6: anna,p4,refund,2024-02-06,,987,,: bad 6 3: column 3 (kind) is "
                     "'refund', wanted charge, credit or payment\n",
                     "record 7: anna,p5,payment,2024-02-06,,987,1440,online: no 5 AmountRange: the "
                     "cents aren't 1 to 1,000,000,000, or the minute is above 1,439\n",
                     "6 records: 6 answered, 5 refused, 1 new row\n"):
            self.assertIn(line, err)

    def test_repeats(self) -> None:
        """The same lines again change nothing, and end with 0; so does a roll to today. A roll to a
        day before it doesn't."""
        self.begin()
        before = self.rows()
        status, out, err = ledger("run", self.file, "--far", given=LINES)
        self.assertEqual((status, self.rows()), (0, before), err)
        self.assertEqual(out,
                         "no 29 PastRow 2024-02-06\nno 27 RollBack 2024-02-06\nok 1\nok 2\nno 27 "
                         "RollBack 2024-02-06\n")
        self.assertIn("line 1: feerow 2011-01-02 3000 4100: carried out before\n", err)
        self.assertEqual(ledger("run", self.file, given="roll 2024-02-06\n")[0], 0)
        self.expect(ledger("run", self.file, given="roll 2024-01-10\n"), 1,
                    "line 1: roll 2024-01-10: no 27 RollBack 2024-02-06: today is 2024-02-06 "
                    "already, and never goes back")
        self.expect(ledger("run", self.file, given="feerow 2011-01-02 3000 4200\n"), 1,
                    "no 29 PastRow 2024-02-06: holidays, fee rows and index rows are taken for "
                    "days after today alone")

    def test_long_line(self) -> None:
        self.begin()
        self.expect(ledger("run", self.file, given="show " + "a" * 600 + "\nshow anna\n"), 1,
                    "bad 1 0: the line has more than 512 bytes")

    def test_full_disk(self) -> None:
        """A row can't be kept: the line without a reply is named, with what the status asks."""
        self.begin()
        given = "".join(f"charge anna d{n} 2024-02-06 purchase {n}\n" for n in range(1, 4000))
        before = resource.getrlimit(resource.RLIMIT_FSIZE)
        resource.setrlimit(resource.RLIMIT_FSIZE, (200_000, before[1]))
        try:
            status, out, err = ledger("run", self.file, given=given)
        finally:
            resource.setrlimit(resource.RLIMIT_FSIZE, before)
        kept = out.count("ok ")
        self.assertEqual(status, 5, err)
        self.assertIn(f"line {kept + 1}: charge anna d{kept + 1} 2024-02-06 purchase {kept + 1}: "
                      "the first one without a reply\n", err)
        self.assertIn("billctl ended with 5: the rows couldn't be loaded, or some couldn't be kept",
                      err)
        self.assertEqual(len(self.rows()), 5 + kept)
        self.assertEqual(ledger("run", self.file, given=given)[0], 0)
        self.assertEqual(len(self.rows()), 5 + 3999)

    def test_words(self) -> None:
        """Words that are none are status 2; every word has its help with the statuses."""
        self.assertEqual(ledger()[0], 2)
        self.assertEqual(ledger("walk")[0], 2)
        self.expect(ledger("statements", self.file, "2024-13-01", self.room), 2,
                    "'2024-13-01' is no day YYYY-MM-DD")
        self.expect(ledger("seal", self.file, "--since", "3", "abc"), 2,
                    "'abc' is no hash of 64 hexadecimal digits")
        for word in WORDS:
            status, out, _ = ledger(word, "--help")
            self.assertEqual(status, 0)
            self.assertIn("exit statuses:", out)
            self.assertIn("10  refused before anything was sent or changed", out)

    def test_signal(self) -> None:
        self.begin()
        killed = self.write("killed", f"#!/bin/sh\n{PROGRAM} \"$@\" & kill -9 $$\n")
        os.chmod(killed, 0o755)
        done = ledger("run", self.file, "--program", killed, given="show anna\n")
        self.assertIn("it was ended by SIGKILL; every line with a reply stands", done[2])
        self.assertEqual(done[0], 12)


class Command(Case):
    def test_itself(self) -> None:
        """The command as a shell calls it, also by a link, and with a reader that goes away."""
        self.begin()
        link = self.at("ledger")
        os.symlink(os.path.join(os.path.dirname(__file__), "..", "..", "ops", "ledger"), link)
        done = subprocess.run([link, "today", self.file], capture_output=True, text=True)
        self.assertEqual((done.returncode, done.stdout), (0, "2024-02-06\n"))
        reader, writer = os.pipe()
        os.close(reader)
        left = subprocess.run([link, "rows", self.file], stdout=writer, stderr=subprocess.PIPE,
                              preexec_fn=lambda: signal.signal(signal.SIGPIPE, signal.SIG_IGN))
        os.close(writer)
        self.assertEqual((left.returncode, left.stderr), (141, b""))
