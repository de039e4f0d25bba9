"""Seals of a book, certificates under them and their check by the words, beside what `hashlib` makes of the records."""
from __future__ import annotations

import contextlib
import datetime
import random
import sqlite3
import subprocess
from collections.abc import Callable

import pytest

import reference_seal
from front_desk.desk import Desk
from gudokeyi.domain.seals import CheckAdvice, OtherKind

TODAY = datetime.date.today().isoformat()
NONE = "0" * 64


def sealed_now(desk: Desk) -> tuple[list[str], int, str]:
    """The program's records of a book, the steps of its journal, and the line of its seal by the reference."""
    told = subprocess.run(
        [desk.program, "records"], input=desk.text("book/commands.csv"), capture_output=True, text=True, check=True
    )
    records, steps = told.stdout.splitlines(), len(desk.commands())
    return records, steps, reference_seal.seal(records, steps)


def test_seal(flock_desk: Desk) -> None:
    """That of the book as it is: nothing of the file is changed by it."""
    before = flock_desk.files()
    assert flock_desk.good("seal").out == sealed_now(flock_desk)[2]
    assert flock_desk.good("seal", "--published").out == "" and flock_desk.files() == before
    flock_desk.wrong("there is no book in the folder nowhere", "seal", "--book", "nowhere")


def test_published(flock_desk: Desk) -> None:
    """A published seal stays while the book goes on; published again it is the same line."""
    seal, steps, animals = flock_desk.good("seal").out.strip().split(",")
    line = f"{TODAY},1,{steps},{animals},{seal}\n"
    assert [flock_desk.good("seal", "--publish").out for _ in range(2)] == [line, line]
    flock_desk.good("exit", "a0", "--day", "2012-01-01")
    assert flock_desk.good("seal", "--published").out == line
    again = flock_desk.good("seal", "--publish").out
    assert again.startswith(f"{TODAY},1,{int(steps) + 1},{animals},") and seal not in again
    assert flock_desk.good("seal", "--published").out == line + again
    assert "2 changes" in flock_desk.good("verify").out


def test_sealed(flock_desk: Desk) -> None:
    """Under the seal that was published last, else under that of now; as the reference has it."""
    number = flock_desk.numbers()["a0"]
    records, steps, _ = sealed_now(flock_desk)
    wanted = reference_seal.sealed(records, steps, number, "0,0.00")
    assert flock_desk.good("sealed", "a0").out == wanted
    flock_desk.good("seal", "--publish")
    flock_desk.good("birth", "new", "--sex", "f", "--day", "2014-01-01", "--owner", "farm 1")
    assert flock_desk.good("sealed", "a0").out == wanted
    done = flock_desk.good("sealed", "a0", "--now", "--out", "now.txt")
    assert done.last.endswith("which isn't published") and flock_desk.text("now.txt") != wanted
    flock_desk.wrong(f"new isn't in the book whose seal was published on {TODAY}", "sealed", "new")
    assert flock_desk.good("sealed", "new", "--now").out.startswith("herdbook-certificate-1,")
    flock_desk.wrong("is there already", "sealed", "a0", "--out", "now.txt")


def test_check(flock_desk: Desk) -> None:
    """Without a book: the program's answer, and in a sentence what it refuses."""
    records, steps, line = sealed_now(flock_desk)
    seal, number = line.split(",")[0], flock_desk.numbers()["a0"]
    text = flock_desk.good("sealed", "a0").out
    flock_desk.write("c.txt", text)
    done = flock_desk.good("check", "c.txt", "--seal", seal)
    own = [record for record in records if record.startswith(number)]
    assert done.out == f"accepted,{number},0,0.00,{steps},{len(records)}\n{own[0]}\n"
    assert "not checked: who the society is" in done.err
    for changed, told, why in [
        (
            text.replace("certificate-1", "certificate-2"),
            "refused,Header,1",
            "the first line of the file isn't that of a certificate",
        ),
        (
            text.replace(",0,0.00\n", ",1/2,50.00\n"),
            "refused,Coefficient,1",
            "the coefficient isn't the one of its rows",
        ),
        (text.replace(number, "secret"), "refused,Header,1", "the first line of the file isn't"),
        (text + "<b>secret</b>\n", "refused,Digests,", "isn't a digest that its rows need"),
    ]:
        flock_desk.write("d.txt", changed)
        refused = flock_desk.run("check", "d.txt", "--seal", seal)
        assert refused.status == 3 and refused.out.startswith(told) and why in refused.err, refused
        assert "secret" not in refused.out + refused.err
    assert flock_desk.run("check", "c.txt", "--seal", NONE).out == "refused,Seal,1\n"
    flock_desk.wrong("none.txt can't be read", "check", "none.txt", "--seal", seal)


def test_seals_written(flock_desk: Desk) -> None:
    """A seal is taken as somebody has it from paper, and as it was published; else it is told what is wrong with it."""
    line = flock_desk.good("seal", "--publish").out.strip()
    seal = line.split(",")[-1]
    flock_desk.good("sealed", "a0", "--out", "c.txt")
    wanted = flock_desk.good("check", "c.txt", "--seal", seal).out
    parted = f"\t{seal[:30]}\N{SOFT HYPHEN}\n{seal[30:]}\N{NO-BREAK SPACE}"
    for written in seal.upper(), f"  {seal} ", parted, line, line.replace(",", ";").upper():
        assert flock_desk.good("check", "c.txt", "--seal", written).out == wanted, written
    for written, told in [
        (seal[1:], "this isn't a whole seal: a seal has 64 digits from 0 to 9 and a to f, and here 63 are given"),
        (f"{seal[:8]} … {seal[-8:]}", "and here 17 are given. Take all of it from where the society published it"),
        ("O" + seal[1:], "this isn't a seal: 'o' is none of its digits"),
        ("--help", "and here 6 are given"),
        (" ", "the seal is missing: write the one that the society published"),
    ]:
        flock_desk.wrong(told, "check", "c.txt", f"--seal={written}")


# what is told of a file that isn't as it was made: how it was made, and what the program and the front desk say
OTHERS: list[tuple[Callable[[bytes], bytes], str, CheckAdvice, dict[str, object]]] = [
    (lambda _: b"", "Header,1", CheckAdvice.EMPTY, {}),
    (lambda _: b"%PDF-1.7\n...", "Header,1", CheckAdvice.OTHER_KIND, {"kind": OtherKind.PDF.said()}),
    (lambda _: b"\xff\xd8\xff\xe0...", "Header,1", CheckAdvice.OTHER_KIND, {"kind": OtherKind.PICTURE.said()}),
    (lambda _: b"\n<!DOCTYPE html>", "Header,1", CheckAdvice.OTHER_KIND, {"kind": OtherKind.PAGE.said()}),
    (lambda _: b"PK\3\4...", "Header,1", CheckAdvice.OTHER_KIND, {"kind": OtherKind.ARCHIVE.said()}),
    (lambda _: random.Random(1).randbytes(5_000_000), "Header,1", CheckAdvice.OTHER_FILE, {}),
    (lambda text: text.replace(b"-1,", b"-2,", 1), "Header,1", CheckAdvice.OTHER_VERSION, {}),
    (lambda text: text.replace(b"\n", b"\r\n"), "Row,2", CheckAdvice.EDITED, {}),
    (lambda text: b"\xef\xbb\xbf" + text, "Header,1", CheckAdvice.EDITED, {}),
    (lambda text: text.decode().encode("utf-16"), "Header,1", CheckAdvice.EDITED, {}),
    (lambda text: b"Hello,\n\n" + text, "Header,1", CheckAdvice.EDITED, {}),
    (lambda text: text + b"\n", "Digests,", CheckAdvice.EDITED, {}),
    (lambda text: text[:-1], "Digests,", CheckAdvice.EDITED, {}),
    (lambda text: text[:-40], "Digests,", CheckAdvice.CHANGED, {}),
    (lambda text: text.replace(b",2000-", b",1999-", 1), "Seal,1", CheckAdvice.CHANGED, {}),
    (lambda text: text.replace(b",0,0.00\n", b",1/2,50.00\n"), "Coefficient,1", CheckAdvice.CHANGED, {}),
]


def test_files_refused(flock_desk: Desk) -> None:
    """Whatever stands in a file, what is wrong with it is told, and what to do."""
    seal = flock_desk.good("seal").out.split(",")[0]
    text = flock_desk.good("sealed", "a0").out.encode()
    for changed, fault, advice, values in OTHERS:
        (flock_desk.room / "d.txt").write_bytes(changed(text))
        refused = flock_desk.run("check", "d.txt", "--seal", seal)
        assert refused.status == 3 and refused.out.startswith(f"refused,{fault}"), (fault, refused)
        first, second = refused.err.splitlines()
        assert first.startswith("gudokeyi: the certificate is refused: ")
        assert second == f"gudokeyi: {advice.said(**values)}"
    (flock_desk.room / "d.txt").write_bytes(text)
    refused = flock_desk.run("check", "d.txt", "--seal", NONE)
    assert refused.out == "refused,Seal,1\n" and "the file names another seal than the one you gave" in refused.err


def test_verify_published(flock_desk: Desk) -> None:
    """Each line is recomputed, the first that differs is told, and what was written anew."""
    first = flock_desk.good("seal", "--publish").out
    flock_desk.good("exit", "a0", "--day", "2012-01-01")
    second = flock_desk.good("seal", "--publish").out
    flock_desk.write("seals.txt", first + second)
    done = flock_desk.good("verify", "--published", "seals.txt")
    assert done.last == "seals.txt: 2 published seals, each that of the journal" and not done.err
    seal = first.strip().split(",")[-1]
    for text, told in [
        (first + second.replace(second[-9:-1], "00000000"), "line 2 differs: the journal's seal"),
        (first.replace(",16,16,", ",16,17,"), "line 1 differs: the journal's seal"),
        (first.replace(TODAY, "2001-02-03"), f"line 1 differs: the book keeps {TODAY}"),
        (f"\n{TODAY},9,16,16,{seal}\n", "line 2 differs: the book has no edition 9"),
        (f"{TODAY},1,99,16,{seal}\n", "line 1 differs: edition 1 has 17 commands alone"),
        (first + "2001-02-31" + second[10:], "line 2 isn't written as DAY,EDITION,STEPS,ANIMALS,SEAL"),
        ("day,edition\n", "line 1 isn't written as"),
    ]:
        flock_desk.write("wrong.txt", text)
        done = flock_desk.run("verify", "--published", "wrong.txt")
        assert done.status == 1 and told in done.err, (text, done)
    # also where JSON is asked for
    flock_desk.write("wrong.txt", first + second.replace(second[-9:-1], "00000000"))
    done = flock_desk.run("verify", "--json", "--published", "wrong.txt")
    assert done.status == 1 and "line 2 differs: the journal's seal" in done.out
    flock_desk.good("undo")
    done = flock_desk.good("verify", "--published", "seals.txt")
    told = f"line 2: the journal was written anew since {TODAY}, by change 3: of the 17 commands of edition 1"
    assert told in done.err and "line 1:" not in done.err


def test_kept(flock_desk: Desk) -> None:
    """Lines go with a backup; one that somebody changed in the file is told, and no certificate is made under it."""
    line = flock_desk.good("seal", "--publish").out
    flock_desk.good("backup", "copy.sqlite")
    flock_desk.good("restore", "copy.sqlite", "--book", "other")
    assert flock_desk.good("seal", "--published", "--book", "other").out == line
    with contextlib.closing(sqlite3.connect(flock_desk.room / "book/book.sqlite", isolation_level=None)) as connection:
        connection.execute("UPDATE published_seal SET seal = ?", (NONE,))
    flock_desk.wrong("isn't the one of the journal", "sealed", "a0")
    done = flock_desk.run("seal", "--publish")
    assert done.status == 1 and "isn't the one of the journal" in done.err


@pytest.mark.parametrize("language", ["en", "de", "fr"])
def test_printed(flock_desk: Desk, language: str) -> None:
    """A certificate shows the day and the ends of the seal that was published last, where it had the animal."""
    flock_desk.good("certificate", "a0", "--out", "before.html")
    assert 'class="seal"' not in flock_desk.text("before.html")
    seal = flock_desk.good("seal", "--publish").out.strip().split(",")[-1]
    flock_desk.good("birth", "new", "--sex", "f", "--day", "2014-01-01", "--owner", "farm 1")
    flock_desk.good("certificate", "a0", "new", "--language", language, "--out", "after.html")
    text = flock_desk.text("after.html")
    assert text.count('class="seal"') == 1 and text.index('class="seal"') < text.index("<h1", text.index("</main>"))
    assert f"<b>{seal[:8]} … {seal[-8:]}</b>" in text
