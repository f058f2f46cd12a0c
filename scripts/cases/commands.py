"""The commands apart from `serve`: what they print, what they say to a person, and how they end."""
import subprocess
from pathlib import Path

from cases.case import case, expect, expect_that
from cases.laboratory import Laboratory, close
from cases.program import Setup

TOP = Path(__file__).resolve().parent.parent.parent
USAGE = ("usage: connector packet HEX, check CONFIG, replay CONFIG, serve CONFIG [JOURNAL], "
         "new-period CONFIG JOURNAL [NEW-CONFIG], follows JOURNAL [CONFIG ..], "
         "follows CONFIG JOURNAL.P NEW-CONFIG JOURNAL, "
         "backup JOURNAL FOLDER, statement CONFIG JOURNAL PEER [FROM [TO]] [--csv] [--packet HEX] [--key KEY]\n")

# What is told of `careless`, and of its file where others may read it.
CARELESS = ["at the top: `worker` is no field of the top, and is ignored: `workers` may be meant",
            '[[peer]] 1 "alice": `token` is shorter than 16 octets, and may be guessed',
            "[[route]] 2: `workers` is a field of the top: it belongs before the first table"]
READABLE = "the file has tokens, and others may read it: chmod o-r"

# A Reject of the code F02 by test.hub with the message `no route`, and one with a message that is no text.
REJECT = "0e16463032" + "08" + b"test.hub".hex() + "08" + b"no route".hex() + "00"
UNTOLD = "0e0f463032" + "08" + b"test.hub".hex() + "01" + "0a" + "00"


def run(laboratory: Laboratory, *words: str, script: str = "") -> tuple[int, str, str]:
    """The status of a command, and what it prints on standard output and on standard error."""
    done = subprocess.run([str(laboratory.binary), *words], input=script, capture_output=True, text=True,
                          timeout=10.0)
    return done.returncode, done.stdout, done.stderr


@case
def help_and_version(laboratory: Laboratory) -> None:
    """Help has a line for each command, and is the same however it is asked for; the manual's page is made
    from it, and the version is that of the file VERSION."""
    status, text, errors = run(laboratory, "help")
    expect("the status of help", (status, errors), (0, ""))
    for command in ("serve", "check", "replay", "new-period", "follows", "backup", "statement", "packet", "help",
                    "--version"):
        lines = [line for line in text.splitlines() if line.startswith(f"connector {command} ")]
        expect(f"how many lines {command} has", len(lines), 1)
    for words in (["-h"], ["--help"], ["help", "serve"], ["serve", "--help"], ["check", "-h"], ["packet", "-h"],
                  ["replay", "--help"], ["serve", "-", "--help"], ["new-period", "-h"], ["new-period", "-", "--help"],
                  ["follows", "--help"], ["statement", "-h"], ["backup", "-h"], ["backup", "x", "--help"]):
        expect(f"help by {words}", run(laboratory, *words), (0, text, ""))
    version = (TOP / "VERSION").read_text().strip()
    status, line, errors = run(laboratory, "--version")
    expect("the status of the version", (status, errors), (0, ""))
    expect_that(f"the version is {line!r}", line.startswith(f"connector {version}, of rattle-kit-"))
    made = subprocess.run([TOP / "scripts/man_page.py", laboratory.binary], capture_output=True, text=True)
    expect("docs/connector.1", (TOP / "docs/connector.1").read_text(), made.stdout)


@case
def misused_command(laboratory: Laboratory) -> None:
    """Words that are no command get the usage alone, on standard error, and the status 2."""
    for words in ([], ["serve"], ["packet"], ["Serve", "-"], ["help", "serve", "check"], ["--version", "x"],
                  ["packet", "0c", "0c"], ["replay", "-", "x"], ["serve", "-", "a", "b"], ["nothing", "--help"],
                  ["new-period"], ["new-period", "-"], ["new-period", "-", "a", "-", "b"], ["follows"], ["statement"], ["statement", "-", "a"], ["statement", "-", "a", "--csv"],
                  ["statement", "-", "a", "b", "c", "d", "e"], ["statement", "-", "a", "b", "--key"],
                  ["statement", "-", "a", "b", "--packet"]):
        expect(f"what {words} print", run(laboratory, *words), (2, "", USAGE))


@case
def words_of_a_reject(laboratory: Laboratory) -> None:
    """What code and message of a Reject say as text is told beside its line."""
    told = "reject code 463032 by 746573742e687562 message 6e6f20726f757465 data -\n"
    expect("a Reject", run(laboratory, "packet", REJECT), (0, told, 'code "F02", message "no route"\n'))
    told = "reject code 463032 by 746573742e687562 message 0a data -\n"
    expect("one that is no text", run(laboratory, "packet", UNTOLD), (0, told, 'code "F02", message no text\n'))
    fulfill = "0d21" + "00" * 33
    expect("a Fulfill", run(laboratory, "packet", fulfill), (0, f"fulfill preimage {'00' * 32} data -\n", ""))
    expect("none", run(laboratory, "packet", "0g"), (1, "refused 9 BadHex\n", ""))


@case
def bad_lines_of_a_script(laboratory: Laboratory) -> None:
    """Why lines of a script are bad is told behind what the script prints."""
    script = "report\nrepor\n# no line\nhold 1 carol 0c\nhold 1 alice 0g\n"
    status, text, errors = run(laboratory, "replay", "-", script=script)
    expect("the status", status, 0)
    expect("the last lines", text.splitlines()[-3:], ["bad line"] * 3)
    expect("what is told", [line.split(": ")[0] for line in errors.splitlines()], ["line 2", "line 4", "line 5"])
    expect_that(f"PEER is told: {errors!r}", "PEER is to be the name of a peer" in errors)


# ---- warnings

def careless() -> Setup:
    """A configuration that is valid, with three things that are probably not meant."""
    return Setup(token="a-token", top={"worker": 2}, further=["workers = 2"])


@case
def sync_in_a_configuration(laboratory: Laboratory) -> None:
    """`sync` is one of two texts. Anything else is refused, with a line that has its place and what it is to be."""
    file = laboratory.folder() / "connector.toml"
    line = "at the top: sync is to be the text group or off\n"
    rows = [(sync, (0, "ok 2 peers 1 assets 2 routes\n", "")) for sync in ("group", "off")]
    rows += [(sync, (1, "refused 23 BadValue sync\n", line)) for sync in ("of", "", "Off", "off ", "fdatasync", 0, 1)]
    for sync, told in rows:
        file.write_text(Setup(top={"sync": sync}).text())
        file.chmod(0o600)
        expect(f"what is told of {sync!r}", run(laboratory, "check", str(file)), told)


@case
def warnings_of_a_check(laboratory: Laboratory) -> None:
    """What is probably not meant is told behind the answer, which stays as it was, with a journal too; of a
    configuration that is refused only that is told, and of the built-in one nothing."""
    file = laboratory.folder() / "connector.toml"
    answer = "ok 2 peers 1 assets 2 routes"
    for setup, mode, told in ((Setup(), 0o600, []), (careless(), 0o640, CARELESS),
                              (careless(), 0o644, [READABLE, *CARELESS])):
        file.write_text(setup.text())
        file.chmod(mode)
        status, text, errors = run(laboratory, "check", str(file))
        expect("status and answer", (status, text), (0, f"{answer}\n"))
        expect("what is told", errors.splitlines(), told)
        status, text, errors = run(laboratory, "check", str(file), str(file.parent / "journal"))
        expect("status and answer with a journal", (status, text), (0, f"{answer} 0 entries\n"))
        expect("what is told with a journal", errors.splitlines(), told)
    file.write_text(Setup(top={"worker": 2, "workers": 0}).text())
    status, text, errors = run(laboratory, "check", str(file))
    expect("status and answer of a refused one", (status, text), (1, "refused 23 BadValue workers\n"))
    expect("how many lines are told of it", len(errors.splitlines()), 1)
    expect("the built-in one", run(laboratory, "check", "-"), (0, f"{answer}\n", ""))


@case
def warnings_of_a_start(laboratory: Laboratory) -> None:
    """`serve` tells the same, with time and level, and serves."""
    program = laboratory.start(careless())
    program.await_listening()
    expect("what is told", program.warnings(), CARELESS)
    close(program)
