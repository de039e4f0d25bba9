"""All that is shown of one animal: its record, relatives and history."""
from __future__ import annotations

from front_desk.desk import Desk
from front_desk.sheet import Secretary

FAMILY = """\
id,name,sex,birth,sire,dam,owner,exit,embryo
s,Max,ram,2000-01-01,,,,,
t,,ram,2000-01-02,,,,,
d,,ewe,2000-02-01,,,,,
e,,ewe,2000-02-02,,,,,
x,Big Ben,wether,2002-03-03,s,d,Low Mill,2012-05-01,
y,,ram,2002-03-04,s,d,,,
z,,ewe,2001-03-03,s,d,,,
h,,ewe,2002-01-01,s,e,,,
u,,ewe,2003-01-01,s,,,,
v,,ewe,2003-01-02,s,,,,
w,,ram,2004-01-01,t,d,,,
o1,,ewe,2006-01-01,x,h,,,
o2,,ewe,2006-01-02,x,,,,
o3,,ram,2005-12-31,x,h,,,1
"""
# all that is shown of x, but for its number and the history
SHOWN = """\
  sex           male, castrated
  born          2002-03-03
  exit          2012-05-01
  owner         Low Mill
  coefficient   0 = 0 (0.00%)
  sire          s  Max  (born 2000-01-01, male)
  dam           d  (born 2000-02-01, female)
offspring: 3 with 2 partners
  by h
    o3  (born 2005-12-31, male, F 12.50%)
    o1  (born 2006-01-01, female, F 12.50%)
  by an unknown partner
    o2  (born 2006-01-02, female)
full sibs: 2
  z  (born 2001-03-03, female)
  y  (born 2002-03-04, male)
half sibs by the sire: 3
  h  (born 2002-01-01, female)
  u  (born 2003-01-01, female)
  v  (born 2003-01-02, female)
half sibs by the dam: 1
  w  (born 2004-01-01, male)
history
"""


def test_show(secretary_desk: Desk, secretary: Secretary) -> None:
    """The sibs and offspring are those that the sheet's parents make, each once."""
    parents = secretary.parents()
    chosen = max(parents, key=lambda id: sum(id in its for its in parents.values()) * bool(all(parents[id])))
    shown = secretary_desk.good("show", chosen).out
    sire, dam = parents[chosen]
    offspring = [id for id, its in parents.items() if chosen in its]
    full = [id for id, its in parents.items() if its == (sire, dam) and id != chosen]
    by_sire = [id for id, its in parents.items() if its[0] == sire and its[1] != dam]
    by_dam = [id for id, its in parents.items() if its[1] == dam and its[0] != sire]
    partners = {next(iter(set(parents[id]) - {chosen})) for id in offspring}
    assert f"\noffspring: {len(offspring)} with {len(partners)} partner" in shown
    for what, ids in ("full sibs", full), ("half sibs by the sire", by_sire), ("half sibs by the dam", by_dam):
        part = shown.partition(f"\n{what}: {len(ids)}\n")[2]
        assert {line.split("  ")[1] for line in part.splitlines()[: len(ids)]} == set(ids), what
    exact = secretary.coefficients()[chosen]
    assert f"  coefficient   {exact} = " in shown
    assert f"  sire          {sire}  " in shown


def test_show_all(desk: Desk) -> None:
    """Relatives in age order, each as what it is; sibs by unknown dams are half sibs."""
    desk.take(FAMILY)
    desk.good("transfer", "h", "--to", "New Farm", "--day", "2004-04-04")
    assert SHOWN in desk.good("show", "x").out
    of_dam = desk.good("show", "h").out
    assert "\n  owner         New Farm, since 2004-04-04\n" in of_dam
    assert "\noffspring: 2 with 1 partner\n  by x  Big Ben\n    o3  (born 2005-12-31, male, F 12.50%)\n" in of_dam
    assert "\n  x  Big Ben  (born 2002-03-03, male, exit 2012-05-01)\n" in of_dam
    assert (
        "\n  dam           unknown\noffspring: 0\nfull sibs: 0\nhalf sibs by the sire: 5\n"
        in desk.good("show", "u").out
    )
    of_embryo = desk.good("show", "o3").out
    assert "\n  born          2005-12-31, from a stored embryo\n  exit          none\n" in of_embryo
    assert "\n  coefficient   1/8 = 0.125 (12.50%)\n" in of_embryo


def test_show_history(society_desk: Desk) -> None:
    """Each change of the animal and what was told of it, also a refused one; of others nothing."""
    society_desk.good("transfer", "GK-17/472c", "--to", "New Farm", "--day", "2020-01-01")
    assert society_desk.run("exit", "GK-17/472c", "--day", "2001-01-01").status == 3
    society_desk.good("exit", "GK-18/486b", "--day", "2021-01-01")
    told = society_desk.good("show", "GK-17/472c").out.partition("\nhistory\n")[2].splitlines()
    assert [line.split()[0] for line in told if line[2] != " "] == ["1", "2", "3"]
    assert len(told) == 6
    assert "    owner New Farm, before St. Anne's Abbey; owner since 2020-01-01, before 2017-11-21" in told[3]
    assert "refusal 14" in told[-1]
    left_out = society_desk.good("show", "GK-12/351b").out
    assert "sire          unknown (in the sheet: GK-12/341c)" in left_out
    assert "\n    line 276: its sire GK-12/341c (line 148) is left out: it isn't male (refusal 5)\n" in left_out


def test_show_many(desk: Desk) -> None:
    rows = "".join(f"C{at},2004-01-{at % 28 + 1:02},S,D{at % 40}\n" for at in range(60))
    desk.take(f"id,birth,sire,dam\nS,2000-01-01,,\n{rows}")
    few, every = desk.good("show", "S").out, desk.good("show", "S", "--all").out
    assert "offspring: 60 with 40 partners" in few and "  and 35 more: --all shows them" in few
    assert few.count("    C") == 25 and every.count("    C") == 60 and "more" not in every


def test_id_that_is_a_number(desk: Desk) -> None:
    """An id is taken before the number of another animal, and this is told."""
    desk.take("id,birth,sire,dam\nHOLGBRF000000000002,2001,,\nb,2002,,\n")
    done = desk.good("show", "HOLGBRF000000000002")
    told = "'HOLGBRF000000000002' is taken for the animal with this id; another has this number: b"
    assert done.err == f"gudokeyi: {told}\n" and "2001-07-02" in done.out
    assert not desk.good("show", "HOLGBRF000000000001").err
