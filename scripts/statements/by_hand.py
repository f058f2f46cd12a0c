"""Statements that are reckoned by hand: a journal with each kind of entry, in two periods."""
import contextlib
import hashlib
import io
import tempfile
from pathlib import Path

from cases.case import Differs, expect
from statements.mirrored import configuration
from statements.reckoned import account_of, configuration_of, main, moment_in, text_of, write_statement

ZERO = "00" * 32
MET = "66687aadf862bd776c8fc18b8e9f8e20089714856ee233b3902a591d0d5f2925"
OTHER = "ab" * 32

CONFIGURATION = configuration(("alice", "bob"), 2, run="hub")

# Alice pays in 20.00, under a key with a NUL and a quote. She sends 5.00, of which 4.95 go to bob, and 3.00, which come
# back, and bob sends 1.00, which comes to nothing. Bob is paid twice: refused, and then accepted; and a third time.
FIRST = f"""ilp-journal 1
1795723200000 7 credited alice 22006b 2000 2 2000
1795723200123 1 hold alice bob 500 5 495 1795723230123 {MET}
1795723200200 1 hold alice bob 300 3 297 1795723230123 {OTHER}
1795723200300 2 fulfilled 1 {ZERO}
1795723200400 2 released 2 Peer 543034
1795723200500 1 hold bob alice 100 0 100 1795723230500 {MET}
1795723200600 0 released 5 Late
1795723200700 3 asked bob 400
1795723200800 3 undone 7
1795723200900 3 asked bob 400
1795723201000 3 confirmed 9
1795723201000 3 asked bob 5
end 12
"""

# What the log has behind that: alice pays in nothing, under a key with a comma and a space; bob's packet of 0.95 is
# fulfilled, and one of 0.01 is held. The last line is torn, and a NUL stands before another one.
LOG_LINES = f"""1795723201001 7 credited alice 612c2062 5 3 0
1795723201002 1 hold bob alice 95 0 95 1795723230500 {MET}
1795723201003 2 fulfilled 13 {ZERO}
1795723201004 1 hold bob alice 1 0 1 1795723230500 {OTHER}
"""
LOG_HEAD = f"ilp-log 1 12 {hashlib.sha256(FIRST.encode()).hexdigest()}\nrun hub; peer alice USD 2; peer bob USD 2\n"
LOG = f"{LOG_HEAD}{LOG_LINES}1795723201004 2 asked bob"
# What it has without that hold, as at a period's end.
ENDED_LOG = LOG_HEAD + "".join(LOG_LINES.splitlines(keepends=True)[:3])

SECOND = """ilp-journal 2 3
1795723300000 0 opened alice 1595
1795723300000 0 opened bob -5
1795723300000 0 known alice 22006b 2000 2 2000
1795723300000 0 pending bob 5 6875622d3131
1795723300001 3 confirmed 3
1795723300002 3 asked alice 1595
1795723300003 3 undone 5
end 7
"""

HEADER = "run,period,peer,asset,time,entry,what,with,amount,in,out,balance,ends,cause,condition,key\n"


def rows(period: int, peer: str, listed: str) -> str:
    """A statement of these rows, each without its account."""
    lines = "".join(f"hub,{period},{peer},USD/2,{row}\n" for row in listed.splitlines())
    return (HEADER + lines).replace("\n", "\r\n")


ALICE = rows(0, "alice", f''',0,opening,,,,,0.00,,,,
2026-11-26T20:00:00.000Z,0,credited,,20.00,20.00,,20.00,,,,"""\\x00k"
2026-11-26T20:00:00.123Z,1,sent,bob,5.00,,5.00,15.00,,,{MET},
2026-11-26T20:00:00.200Z,2,sent,bob,3.00,,3.00,12.00,,,{OTHER},
2026-11-26T20:00:00.300Z,3,paid,bob,5.00,,,12.00,1,,{MET},
2026-11-26T20:00:00.400Z,4,returned,bob,3.00,3.00,,15.00,2,Peer 543034,{OTHER},
2026-11-26T20:00:00.600Z,6,refused,bob,1.00,,,15.00,5,Late,{MET},
2026-11-26T20:00:01.001Z,12,credited,,0.00,,,15.00,,,,"a, b"
2026-11-26T20:00:01.003Z,14,received,bob,0.95,0.95,,15.95,13,,{MET},
,16,closing,,,,,15.95,,,,
''')

BOB_FIRST = f"""2026-11-26T20:00:00.400Z,4,refused,alice,2.97,,,4.95,2,Peer 543034,{OTHER},
2026-11-26T20:00:00.500Z,5,sent,alice,1.00,,1.00,3.95,,,{MET},
2026-11-26T20:00:00.600Z,6,returned,alice,1.00,1.00,,4.95,5,Late,{MET},
"""

BOB_LISTED = f""",0,opening,,,,,0.00,,,,
2026-11-26T20:00:00.300Z,3,received,alice,4.95,4.95,,4.95,1,,{MET},
{BOB_FIRST}2026-11-26T20:00:00.700Z,7,asked,,4.00,,4.00,0.95,,,,hub-7
2026-11-26T20:00:00.800Z,8,undone,,4.00,4.00,,4.95,7,,,hub-7
2026-11-26T20:00:00.900Z,9,asked,,4.00,,4.00,0.95,,,,hub-9
2026-11-26T20:00:01.000Z,10,confirmed,,4.00,,,0.95,9,,,hub-9
2026-11-26T20:00:01.000Z,11,asked,,0.05,,0.05,0.90,,,,hub-11
2026-11-26T20:00:01.002Z,13,sent,alice,0.95,,0.95,-0.05,,,{MET},
2026-11-26T20:00:01.003Z,14,paid,alice,0.95,,,-0.05,13,,{MET},
2026-11-26T20:00:01.004Z,15,sent,alice,0.01,,0.01,-0.06,,,{OTHER},
"""
BOB = rows(0, "bob", f"{BOB_LISTED},16,closing,,,,,-0.06,,,,\n")

# From 20:00:00.400 on, and before 20:00:00.700.
BOB_BETWEEN = rows(0, "bob", f"""2026-11-26T20:00:00.400Z,4,opening,,,,,4.95,,,,
{BOB_FIRST}2026-11-26T20:00:00.700Z,7,closing,,,,,4.95,,,,
""")

ALICE_THEN = rows(3, "alice", """,0,opening,,,,,0.00,,,,
2026-11-26T20:01:40.000Z,0,opened,,15.95,15.95,,15.95,,,,
2026-11-26T20:01:40.002Z,5,asked,,15.95,,15.95,0.00,,,,hub.3-5
2026-11-26T20:01:40.003Z,6,undone,,15.95,15.95,,15.95,5,,,hub.3-5
,7,closing,,,,,15.95,,,,
""")

BOB_THEN = rows(3, "bob", """,0,opening,,,,,0.00,,,,
2026-11-26T20:01:40.000Z,1,opened,,-0.05,,0.05,-0.05,,,,
2026-11-26T20:01:40.001Z,4,confirmed,,0.05,,,-0.05,3,,,hub-11
,7,closing,,,,,-0.05,,,,
""")

# Corrections both ways, also of nothing, under a key and for reasons that a spreadsheet would take for formulas, of a
# run and peers whose names it would. Keys are known of an earlier period's correction, and of a credit.
CORRECTED_CONFIGURATION = configuration(("-a", "-b"), 2, run="-hub")
CORRECTED = f"""ilp-journal 2 1
1795723300000 0 opened -a -100
1795723300000 0 known -a 6b31 5 0 500 falls 6261636b
1795723300000 0 known -b 6b31 5 0 500
1795723300001 1 corrected -a 2d63 15009 3 1500 falls 3d63686172676564206261636b2c2022
1795723300002 1 corrected -b 6332 20 2 20 rises c3a4
1795723300003 1 corrected -a 6333 9 3 0 rises 2b
1795723300004 1 hold -b -a 7 0 7 1795723330000 {MET}
end 7
"""

OF_CORRECTED = HEADER.replace("\n", "\r\n") + '''\\x2dhub,1,\\x2da,USD/2,,0,opening,,,,,0.00,,,,
\\x2dhub,1,\\x2da,USD/2,2026-11-26T20:01:40.000Z,0,opened,,-1.00,,1.00,-1.00,,,,
\\x2dhub,1,\\x2da,USD/2,2026-11-26T20:01:40.001Z,3,corrected,,-15.00,,15.00,-16.00,,"\\x3dcharged back, """,,\\x2dc
\\x2dhub,1,\\x2da,USD/2,2026-11-26T20:01:40.003Z,5,corrected,,0.00,,,-16.00,,\\x2b,,c3
\\x2dhub,1,\\x2da,USD/2,,7,closing,,,,,-16.00,,,,
'''.replace("\n", "\r\n")

OF_RAISED = HEADER.replace("\n", "\r\n") + f"""\\x2dhub,1,\\x2db,USD/2,,0,opening,,,,,0.00,,,,
\\x2dhub,1,\\x2db,USD/2,2026-11-26T20:01:40.002Z,4,corrected,,0.20,0.20,,0.20,,\\xc3\\xa4,,c2
\\x2dhub,1,\\x2db,USD/2,2026-11-26T20:01:40.004Z,6,sent,\\x2da,0.07,,0.07,0.13,,,{MET},
\\x2dhub,1,\\x2db,USD/2,,7,closing,,,,,0.13,,,,
""".replace("\n", "\r\n")

OLD_LOG = LOG.replace("ilp-log 1 12 ", "ilp-log 1 12 0")

# Keys, and what is written for them.
KEYS = {b"hub-7": "hub-7", b"=1+1": "\\x3d1+1", b"+1=@-": "\\x2b1=@-", b"-1": "\\x2d1", b"@a": "\\x40a", b"a=": "a=",
        b"a\\b": "a\\x5cb", b"\\": "\\x5c", b"\t=": "\\x09=", b" ~": " ~", b"\x7f\xff\r\n": "\\x7f\\xff\\x0d\\x0a"}


def statement(config: str, journal: str | None, log: str | None, peer: str, *moments: int) -> str:
    """A statement in CSV."""
    read = configuration_of(config)
    texts = (text.encode() if text is not None else None for text in (journal, log))
    file = io.StringIO(newline="")
    write_statement(read, account_of(read, *texts, peer), list(moments), file)
    return file.getvalue()


def try_rows() -> None:
    """Each row is the one that was reckoned by hand."""
    expect("alice", statement(CONFIGURATION, FIRST, LOG, "alice"), ALICE)
    expect("bob", statement(CONFIGURATION, FIRST, LOG, "bob"), BOB)
    expect("bob before a NUL", statement(CONFIGURATION, FIRST, LOG.replace("2 asked bob", "2 as\0ked bob 1\n"), "bob"),
           BOB)
    expect("alice in the next period", statement(CONFIGURATION, SECOND, None, "alice"), ALICE_THEN)
    expect("bob in the next period", statement(CONFIGURATION, SECOND, None, "bob"), BOB_THEN)
    for peer, listed in (("-a", OF_CORRECTED), ("-b", OF_RAISED)):
        expect(f"corrections of {peer}", statement(CORRECTED_CONFIGURATION, CORRECTED, None, peer), listed)
    for key, written in KEYS.items():
        expect(f"the key {key!r}", text_of(key), written)


def empty(begin: str, end: str) -> str:
    """Bob's statement without rows of entries."""
    return rows(0, "bob", f"{begin}\n{end}\n")


def try_moments() -> None:
    """What is listed lies between two moments: at the first one too, and not at the second."""
    cut = 1795723200400, 1795723200700
    expect("bob between", statement(CONFIGURATION, FIRST, LOG, "bob", *cut), BOB_BETWEEN)
    expect("bob from the first one on", statement(CONFIGURATION, FIRST, LOG, "bob", 0),
           BOB.replace(",,0,opening", ",1970-01-01T00:00:00.000Z,0,opening"))
    expect("bob before all", statement(CONFIGURATION, FIRST, LOG, "bob", 0, 1795723200000),
           empty("1970-01-01T00:00:00.000Z,0,opening,,,,,0.00,,,,", "2026-11-26T20:00:00.000Z,0,closing,,,,,0.00,,,,"))
    expect("bob behind all", statement(CONFIGURATION, FIRST, LOG, "bob", 1895723200000),
           empty("2030-01-27T05:46:40.000Z,16,opening,,,,,-0.06,,,,", ",16,closing,,,,,-0.06,,,,"))
    expect("bob from the second one to the first", statement(CONFIGURATION, FIRST, LOG, "bob", *reversed(cut)),
           empty("2026-11-26T20:00:00.700Z,7,opening,,,,,4.95,,,,", "2026-11-26T20:00:00.700Z,7,closing,,,,,4.95,,,,"))
    for text, moment in {"1970-01-01": 0, "2026-11-26": 1795651200000, "2026-11-26T20:00:00Z": 1795723200000,
                         "2026-11-26T20:00:00.5Z": 1795723200500, "2026-11-26T20:00:00.040Z": 1795723200040}.items():
        expect(f"the moment {text}", moment_in(text), moment)


def try_texts() -> None:
    """What is no text there, a log of an older text, and what can't be read."""
    nothing = rows(0, "alice", ",0,opening,,,,,0,,,,\n,0,closing,,,,,0,,,,\n").replace("USD/2", "USD/0")
    expect("no text", statement(configuration(("alice",), 0, "hub"), None, None, "alice"), nothing)
    expect("a log of an older text", statement(CONFIGURATION, FIRST, OLD_LOG, "bob", 1795723201001).count("\n"), 3)
    for peer, journal in (("carol", FIRST), ("bob", FIRST.replace("end 12", "end 13")),
                          ("bob", FIRST.replace(ZERO, OTHER)), ("-a", CORRECTED.replace("falls 3d", "fails 3d")),
                          ("-a", CORRECTED.replace("-a 6333", "-a 6b31")), ("-a", CORRECTED.replace(" 2b\n", "\n"))):
        try:
            statement(CORRECTED_CONFIGURATION if peer == "-a" else CONFIGURATION, journal, None, peer)
        except Differs:
            continue
        raise Differs(f"a statement of {peer} was made that there can't be")


def run_on(journal: Path, *words: str) -> tuple[int, str, int]:
    """The exit status of scripts/statement.py, what it prints, and how many lines of errors."""
    output, errors = io.StringIO(newline=""), io.StringIO()
    with contextlib.redirect_stdout(output), contextlib.redirect_stderr(errors):
        status = main([str(journal.with_name("hub.toml")), str(journal), *words])
    return status, output.getvalue(), errors.getvalue().count("\n")


def try_files() -> None:
    """A journal in use, with its log beside it, and behind a start of the next period; and what is refused."""
    bob_between = "bob", "2026-11-26T20:00:00.4Z", "2026-11-26T20:00:00.700Z"
    with tempfile.TemporaryDirectory() as folder:
        journal = Path(folder, "hub.journal")
        journal.with_name("hub.toml").write_text(CONFIGURATION)
        expect("no journal", run_on(journal, "bob"), (1, "", 1))
        journal.write_text(FIRST)
        Path(folder, "hub.journal.log").write_text(LOG)
        expect("a journal and its log", run_on(journal, "bob"), (0, BOB, 0))
        expect("a part of both", run_on(journal, *bob_between), (0, BOB_BETWEEN, 0))
        Path(folder, "hub.journal.log").rename(Path(folder, "hub.journal.ended"))
        Path(folder, "hub.journal.next").write_text(SECOND)
        expect("a journal behind a period's end", run_on(journal, "bob"), (0, BOB_THEN, 0))
        expect("a peer that is not there", run_on(journal, "carol"), (1, "", 1))
        for words in ((), ("bob", "yesterday"), ("bob", "2026-02-30"), ("bob", "2026-11-26T20:00:00"), ("bob", "0"),
                      ("bob", "2026-11-26T20:00:00.1234Z"), ("bob", "2026-11-26", "2026-11-27", "2026-11-28")):
            expect(f"the arguments {words}", run_on(journal, *words), (2, "", 1))
