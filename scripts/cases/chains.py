"""Chains of periods: whether each begins with what the one before brought forward, judged by one command over what lies
beside a journal, whatever configurations the periods began and went on with."""
import re
from dataclasses import replace
from hashlib import sha256
from pathlib import Path

from cases.case import case, expect, expect_that
from cases.in_flight import carol_of, packet_of
from cases.journals import Kept, expect_lines
from cases.laboratory import END, Laboratory, credit, expect_served, post_close, send_packet
from cases.messages import created, post, response, soon
from cases.periods import Closing, closed_book, in_another_order
from cases.reloading import TAKEN, expect_taken, reload
from cases.running_periods import await_kept
from cases.stand_ins import FULFILLS
from connections import TEXT, quantity
from scenes import FULFILL

UNREAD = "refused 73 JournalUnread\n"


def told_of(*periods: int) -> str:
    """The lines of periods that follow the ones before."""
    return "".join(f"period {period} follows period {period - 1}\n" for period in periods)


def expect_chain(kept: Kept, *periods: int, configurations: tuple[Path, ...] = ()) -> None:
    """These periods follow, by the path of the journal and by that of its folder, and no file is changed."""
    closing, before = Closing(kept, kept.setup), kept.contents()
    for path in (kept.path, kept.folder):
        expect(f"what follows says of {path}", closing.run("follows", path, *configurations), (0, told_of(*periods), ""))
    expect("the files", kept.contents(), before)


def expect_broken(kept: Kept, *periods: int, told: str, line: str) -> None:
    """These periods follow, and then it is refused, with this line on standard error."""
    status, text, errors = Closing(kept, kept.setup).run("follows", kept.path)
    expect("what follows says", (status, text), (1, told_of(*periods) + told))
    expect_lines("standard error", errors, (line,))


def remembered_of(peers: list[str], configuration: bytes) -> str:
    """What is kept of a configuration between periods, with these lines of its peers."""
    return f"ilp-remembered 1\nrun r1\n{''.join(peers)}end\nconfig {sha256(configuration).hexdigest()}\n"


def end(kept: Kept, amount: int) -> None:
    """A connector by the setup serves a packet, and is closed."""
    program = kept.serve()
    expect_served(program, amount=amount)
    post_close(program)
    expect("the exit status", program.end(END), 0)


def three_periods(laboratory: Laboratory) -> Kept:
    """A journal of the period 2, in each of whose periods something was booked."""
    kept = closed_book(laboratory)
    closing = Closing(kept, kept.setup)
    closing.expect_closed("peer alice balance -30", "peer bob balance 1030")
    end(kept, 5)
    closing.expect_closed("peer alice balance -35", "peer bob balance 1035", period=2)
    end(kept, 7)
    return kept


@case
def chain_of_reordered_peers(laboratory: Laboratory) -> None:
    """A reload puts the peers in another order, and the next start is by the old configuration, also where it was killed
    meanwhile: all periods follow. What is kept of the two configurations has names, assets, the run, and which files they
    were."""
    kept = Kept(laboratory)
    for is_killed in (False, True):
        program = kept.serve()
        began_by = program.configuration.read_bytes()
        expect_served(program, amount=5)
        expect("a credit", credit(program, 9, key=f"of {is_killed}"), created(quantity(9, 2)))
        program.configuration.write_text(in_another_order(kept.setup))
        expect("what is answered to a reload", reload(program), response(200, TAKEN.encode(), TEXT))
        await_kept(program, int(is_killed))
        expect_served(program, amount=7)
        if is_killed:
            program.kill()
        else:
            post_close(program)
            expect("the exit status", program.end(END), 0)
    peers = ["peer alice USD 2\n", "peer bob USD 2\n"]
    in_order = remembered_of(peers, began_by)
    turned = remembered_of(peers[::-1], program.configuration.read_bytes())
    for period in ("0", "1"):
        expect(f"what is kept behind the period {period}", kept.beside(f"{period}.remembered").read_text(), in_order + turned)
    expect_chain(kept, 1, 2)
    end(kept, 3)
    expect_chain(kept, 1, 2)


@case
def chain_of_a_removed_peer(laboratory: Laboratory) -> None:
    """A reload leaves out a settled peer of whom a key is kept, and the next start is by the old configuration, which has
    her: the period that began without her key follows."""
    kept = Kept(laboratory)
    without = replace(kept.setup, further=[])
    carol = carol_of(kept.setup, laboratory.stand_in(FULFILLS).port)
    program = kept.serve()
    expect("carol's settlement", credit(program, 5, name="carol"), created(quantity(5, 2)))
    expect("carol's packet", post(program.setup.peers_port, packet_of(carol, soon(5))), response(200, FULFILL))
    expect_taken(program, without)
    await_kept(program, 0)
    post_close(program)
    expect("the exit status", program.end(END), 0)
    old = Closing(kept, kept.setup)
    words = ("follows", old.before, kept.beside("0"), old.before, kept.path)
    expect("what is said by the old configuration", old.run(*words)[:2], (1, "refused 80 NotFollowing 1\n"))
    expect_chain(kept, 1)
    end(kept, 5)
    expect_chain(kept, 1)


@case
def chain_with_another_entry(laboratory: Laboratory) -> None:
    """An entry that was changed in one of the texts breaks the chain there, and the two are told."""
    kept = three_periods(laboratory)
    expect_chain(kept, 1, 2)
    first, text, own = (str(path) for path in (kept.beside("0"), kept.beside("1"), kept.path))
    whole = kept.beside("1").read_text()
    differs = 'error "{}" has another entry {} than what "{}" brings forward'
    rows = ((whole.replace("opened alice -30", "opened alice -29"), (), 0, text, first),
            (whole.replace("opened alice -30", "opened bob 1030"), (), 0, text, first),
            (re.sub(r"(\d+ 0 known .+\n)", r"\1\1", whole), (), 3, text, first),
            (re.sub(r"hold alice bob 5 0 5", "hold alice bob 6 0 6", whole), (1,), 0, own, text))
    for changed, follow, entry, behind, before in rows:
        expect_that("nothing is changed", changed != whole)
        kept.beside("1").write_text(changed)
        expect_broken(kept, *follow, told=f"refused 80 NotFollowing {entry}\n",
                      line=re.escape(differs.format(behind, entry, before).removeprefix("error ")))
    kept.beside("1").write_text(whole)
    expect_chain(kept, 1, 2)


@case
def chain_that_lacks_a_text(laboratory: Laboratory) -> None:
    """A text that lacks between two is told, and one that lacks before them says nothing."""
    kept = three_periods(laboratory)
    whole = kept.beside("1").read_bytes()
    kept.beside("1").unlink()
    expect_broken(kept, told=UNREAD, line=rf'error can\'t read "{re.escape(str(kept.beside("1")))}": .+')
    kept.beside("1").write_bytes(whole)
    for name in ("0", "0.remembered"):
        kept.beside(name).unlink()
    expect_chain(kept, 2)
    kept.beside("1").unlink()
    expect_broken(kept, told=UNREAD, line=rf'error can\'t read "{re.escape(str(kept.beside("1")))}": .+')
    alone = Kept(laboratory)
    end(alone, 1)
    expect("what follows says of a first period", Closing(alone, alone.setup).run("follows", alone.path),
           (0, "period 0 follows none\n", ""))
    status, text, _ = Closing(alone, alone.setup).run("follows", alone.folder)
    expect("what it says of a folder without periods", (status, text), (1, UNREAD))


@case
def chain_of_an_older_program(laboratory: Laboratory) -> None:
    """Periods beside which nothing whole is kept are judged by configurations that are given, in any order, and else a
    line says to give them."""
    kept = closed_book(laboratory)
    closing = Closing(kept, kept.setup)
    closing.next.write_text(in_another_order(kept.setup))
    closing.expect_closed("peer bob balance 1030", "peer alice balance -30")
    between = kept.beside("0.remembered")
    whole = between.read_text()
    line = rf'"{re.escape(str(kept.beside("0")))}": no whole .+ lies beside it, .+: give the configurations .+'
    for kept_text in (None, whole[:-5], whole[:len(whole) // 2], "", "another text\n"):
        between.unlink()
        if kept_text is not None:
            between.write_text(kept_text)
        expect_broken(kept, told=UNREAD, line=line)
        for given in ((closing.before, closing.next), (closing.next,), (closing.before,)):
            expect_chain(kept, 1, configurations=given)
        between.write_text(whole)
    other = Closing(kept, replace(kept.setup, asset_of_bob="EUR/2", further=['[[asset]]', 'code = "EUR"', "scale = 2"]))
    between.unlink()
    status, text, errors = other.run("follows", kept.path, other.before, other.next)
    expect("what is said where some configuration fits", (status, text, errors), (0, told_of(1), ""))
    between.write_text(whole.replace("peer bob USD 2\npeer alice", "peer bob EUR 2\npeer alice"))
    status, text, errors = closing.run("follows", kept.path)
    expect("what is said of another asset", (status, text), (1, "refused 79 OtherAsset 1030\n"))
    expect_that(f"it does not say why: {errors!r}", "bob has another asset" in errors)


@case
def chain_of_a_packet_behind(laboratory: Laboratory) -> None:
    """The last period may have entries of a peer that was added since it began."""
    kept = closed_book(laboratory)
    Closing(kept, kept.setup).expect_closed("peer alice balance -30", "peer bob balance 1030")
    carol_of(kept.setup, laboratory.stand_in(FULFILLS).port)
    program = kept.serve()
    expect("a packet to carol", send_packet(program, soon(3, destination=b"test.carol")), response(200, FULFILL))
    post_close(program)
    expect("the exit status", program.end(END), 0)
    expect_chain(kept, 1)
