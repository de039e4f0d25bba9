"""Answers that are known by hand or from books, of each order. `M1` stands for the number HOLGBRM000000000001, and so
on."""
from __future__ import annotations

from outside.books import full_sibs

PLAIN = "kind,animal,day,sire,dam,from,to\n"
WITH_EMBRYO = "kind,animal,day,sire,dam,from,to,embryo\n"

# commands, each with what is answered to it: `a` for accepted, else the number of the refusal
REPLIES = [
    # a number is born once
    (PLAIN, """\
birth,M1,2000-01-01,0,0,,1 a
birth,M1,2000-01-01,0,0,,1 1
"""),
    # parents are older, of their sex, and others than the animal
    (PLAIN, """\
birth,M1,2000-01-01,0,0,,1 a
birth,F2,2000-01-01,0,0,,1 a
parents,M1,,M1,0,, 7
parents,F2,,F2,0,, 5
birth,M3,2001-01-01,M3,0,,1 3
birth,M3,2001-01-01,M1,M1,,1 6
parents,M3,,M9,0,, 11
"""),
    # a dam is born at least a day before her calf
    (PLAIN, """\
birth,F1,2000-01-02,0,0,,1 a
birth,M2,2000-01-02,0,F1,,1 8
birth,M2,2000-01-03,0,F1,,1 a
"""),
    # a dam leaves after her calves are born, a sire when he likes
    (PLAIN, """\
birth,F1,2000-01-01,0,0,,1 a
birth,M9,2000-01-01,0,0,,1 a
exit,M9,2001-01-01,,,, a
birth,F2,2003-03-01,M9,F1,,1 a
exit,F1,2003-02-28,,,, 16
exit,F1,2003-03-01,,,, a
birth,F3,2003-03-01,0,F1,,1 a
birth,F4,2003-03-02,0,F1,,1 9
exit,F1,2003-03-05,,,, 12
"""),
    # an owner gives what he owns, from the day on which he got it, until it leaves
    (PLAIN, """\
birth,M1,2000-01-01,0,0,,1 a
transfer,M1,2001-05-01,,,1,2 a
transfer,M1,2001-05-01,,,1,2 13
transfer,M1,2001-06-01,,,2,2 15
transfer,M1,2001-04-30,,,2,3 14
exit,M1,2001-04-30,,,, 14
exit,M1,2002-01-01,,,, a
transfer,M1,2002-02-01,,,2,3 12
exit,M9,2002-01-01,,,, 11
"""),
    # a calf of a stored embryo may be born after its dam left, and no sooner than any other
    (WITH_EMBRYO, """\
birth,F1,2000-01-01,0,0,,1, a
birth,M9,2000-01-01,0,0,,1, a
exit,F1,2003-03-01,,,,, a
birth,F2,2004-01-01,M9,F1,,1,1 a
birth,F3,2004-01-01,M9,F1,,1, 9
birth,F3,2004-01-01,M9,0,,1, a
parents,F3,,M9,F1,,, 9
parents,F2,,M9,F1,,, a
birth,F4,1999-01-01,0,F1,,1,1 8
"""),
    # it doesn't keep its dam
    (WITH_EMBRYO, """\
birth,F1,2000-01-01,0,0,,1, a
birth,F2,2003-03-02,0,F1,,1,1 a
exit,F1,2003-03-01,,,,, a
"""),
    # the first fault of the parents is told; an offspring is no parent, since it isn't older
    (PLAIN, """\
birth,M1,2000-01-01,0,0,,1 a
birth,F2,2002-01-01,M1,0,,1 a
birth,M3,2002-01-01,M1,0,,1 a
exit,F2,2004-01-01,,,, a
parents,M1,,F8,M9,, 3
parents,M1,,F2,M9,, 4
parents,M1,,F2,M3,, 5
parents,M1,,M3,M3,, 6
parents,M1,,M3,F2,, 7
parents,M1,,0,F2,, 8
"""),
]  # fmt: skip

# full sibs M3 and F4, of whom M5 is a calf, and F6 of F4 and her own sire
SIX = f"""\
{PLAIN}birth,M1,2000-01-01,0,0,,1
birth,F2,2000-01-01,0,0,,1
birth,M3,2002-01-01,M1,F2,,1
birth,F4,2002-01-01,M1,F2,,1
birth,M5,2004-01-01,M3,F4,,1
birth,F6,2004-01-01,M1,F4,,1
"""
HALF_SIBS = f"""\
{PLAIN}birth,M1,2000-01-01,0,0,,1
birth,F2,2000-01-01,0,0,,1
birth,F3,2000-01-01,0,0,,1
birth,M4,2002-01-01,M1,F2,,1
birth,F5,2002-01-02,M1,F3,,1
"""
HALF_FIRST_COUSINS = f"""\
{PLAIN}birth,M1,2000-01-01,0,0,,1
birth,F2,2000-01-01,0,0,,1
birth,F3,2000-01-01,0,0,,1
birth,F6,2000-01-01,0,0,,1
birth,M7,2000-01-01,0,0,,1
birth,M4,2002-01-01,M1,F2,,1
birth,F5,2002-01-01,M1,F3,,1
birth,M8,2004-01-01,M4,F6,,1
birth,F9,2004-01-01,M7,F5,,1
birth,M10,2006-01-01,M8,F9,,1
"""
# founders and four generations of full sibs, each of the pair before; and M21, a half sib of M3 and F4
SIBS_OF_SIBS = f"""\
{full_sibs(5)}birth,F20,2000-01-01,0,0,,1
birth,M21,2001-01-01,M1,F20,,1
"""
# the six animals of Mrode (2014), of which the fourth has one known parent
MRODE = f"""\
{PLAIN}birth,M1,2000-01-01,0,0,,1
birth,F2,2000-01-01,0,0,,1
birth,M3,2001-01-01,M1,F2,,1
birth,F4,2002-01-01,M1,0,,1
birth,M5,2003-01-01,M3,F4,,1
birth,F6,2004-01-01,M5,F2,,1
"""
# a calf gets a half sister as its dam
CORRECTED = f"""\
{PLAIN}birth,M1,2000-01-01,0,0,,1
birth,M3,2004-01-01,M1,0,,1
birth,F2,2002-01-01,M1,0,,1
parents,M3,,M1,F2,,
"""
# a pair, their calf, one from a stored embryo, and the calf's sale and exit
FAMILY = f"""\
{WITH_EMBRYO}birth,M1,2000-01-01,0,0,,1,
birth,F2,2000-01-01,0,0,,1,
birth,M3,2002-01-01,M1,F2,,4,
birth,F4,2001-05-01,M1,F2,,1,1
transfer,M3,2004-06-01,,,4,2,
exit,M3,2005-03-01,,,,,
"""
SOLD = "M3,2002-01-01,M1,F2,2,2004-06-01,2005-03-01,\n"
DAM = "F2,2000-01-01,0,0,1,2000-01-01,-,\n"
SALE = "transfer,M5,2004-06-01,,,1,2\n"
EXIT = "exit,M5,2005-03-01,,,,\n"


def certificate(herd: str, since: str, left: str) -> str:
    """Of the bull M5 of the six."""
    return f"""\
animal M5
sex male
born 2004-01-01
herd {herd}
since {since}
left {left}
inbreeding 1/4 25.00
S M3
D F4
SS M1
SD F2
DS M1
DD F2
SSS 0
SSD 0
SDS 0
SDD 0
DSS 0
DSD 0
DDS 0
DDD 0
"""


# the words of an order, a command file, and what is printed
ANSWERS = [
    ("inbreeding", PLAIN + "birth,M1,2000-01-01,0,0,,1\n" * 2, "M1,0,0.00\n"),
    (
        "inbreeding",
        HALF_SIBS + "birth,M6,2004-01-01,M4,F5,,1\n",
        "F2,0,0.00\nF3,0,0.00\nM1,0,0.00\nM4,0,0.00\nF5,0,0.00\nM6,1/8,12.50\n",
    ),
    (
        "inbreeding",
        HALF_SIBS + "birth,M6,2004-01-01,M4,0,,1\n",
        "F2,0,0.00\nF3,0,0.00\nM1,0,0.00\nM4,0,0.00\nF5,0,0.00\nM6,0,0.00\n",
    ),
    ("inbreeding", SIX, "F2,0,0.00\nM1,0,0.00\nF4,0,0.00\nM3,0,0.00\nF6,1/4,25.00\nM5,1/4,25.00\n"),
    (
        "inbreeding",
        HALF_FIRST_COUSINS,
        "F2,0,0.00\nF3,0,0.00\nF6,0,0.00\nM1,0,0.00\nM7,0,0.00\n"
        "F5,0,0.00\nM4,0,0.00\nF9,0,0.00\nM8,0,0.00\nM10,1/32,3.13\n",
    ),
    # the calf of half sibs, until its dam is unknown again
    ("inbreeding", CORRECTED, "M1,0,0.00\nF2,0,0.00\nM3,1/4,25.00\n"),
    ("inbreeding", CORRECTED + "parents,M3,,M1,0,,\n", "M1,0,0.00\nF2,0,0.00\nM3,0,0.00\n"),
    ("certificate M5", SIX, certificate("1", "2004-01-01", "-")),
    ("certificate M5", SIX + EXIT, certificate("1", "2004-01-01", "2005-03-01")),
    ("certificate M5", SIX + SALE + EXIT, certificate("2", "2004-06-01", "2005-03-01")),
    ("mating --dam F4 M3 M1 M5 F4 M99", SIX, "M3,1/4,25.00\nM1,1/4,25.00\nM5,3/8,37.50\nF4,refused,3\nM99,refused,1\n"),
    ("mating --dam F99 M3", SIX, "M3,refused,2\n"),
    ("mating --dam M1 M3", SIX, "M3,refused,4\n"),
    ("mating --dam F6 M5", SIX, "M5,5/16,31.25\n"),
    ("mating --dam F2 M1 M1", SIX, "M1,0,0.00\nM1,0,0.00\n"),
    (
        "records",
        FAMILY,
        f"{DAM}M1,2000-01-01,0,0,1,2000-01-01,-,\nF4,2001-05-01,M1,F2,1,2001-05-01,-,1\n{SOLD}",
    ),
    ("records M3 F2 M3", FAMILY, SOLD + DAM + SOLD),
    # the whole matrix, as published
    (
        "relationships M1 F2 M3 F4 M5 F6",
        MRODE,
        "M1,M1,1\nM1,F2,0\nM1,M3,1/2\nM1,F4,1/2\nM1,M5,1/2\nM1,F6,1/4\nF2,F2,1\n"
        "F2,M3,1/2\nF2,F4,0\nF2,M5,1/4\nF2,F6,5/8\nM3,M3,1\nM3,F4,1/4\nM3,M5,5/8\n"
        "M3,F6,9/16\nF4,F4,1\nF4,M5,5/8\nF4,F6,5/16\nM5,M5,9/8\nM5,F6,11/16\nF6,F6,9/8\n",
    ),
    # full sibs, of which one is asked about twice, and two of one sex
    ("relationships M3 F4 F4", SIX, "M3,M3,1\nM3,F4,1/2\nM3,F4,1/2\nF4,F4,1\nF4,F4,1\nF4,F4,1\n"),
    # full sibs whose parents have the inbreeding 3/8 and are full sibs too, and half sibs
    ("relationships M9 F10", SIBS_OF_SIBS, "M9,M9,3/2\nM9,F10,19/16\nF10,F10,3/2\n"),
    ("relationships M21 --with M3 F4", SIBS_OF_SIBS, "M21,M3,1/4\nM21,F4,1/4\n"),
    # parent and offspring, where no one is inbred
    ("relationships M1 --with M3 F4 M1", SIX, "M1,M3,1/2\nM1,F4,1/2\nM1,M1,1\n"),
    # numbers that aren't in the book come first, as they are given
    (
        "relationships F99 M5 M98 --with F6 F99 M1",
        SIX,
        "F99,refused,1\nM98,refused,1\nF99,refused,1\nM5,F6,5/8\nM5,M1,1/2\n",
    ),
    ("relationships M1 F2 --with F99", SIX, "F99,refused,1\n"),
    ("relationships F99", SIX, "F99,refused,1\n"),
    ("relationships M5", SIX, "M5,M5,5/4\n"),
    ("inverse", PLAIN + "birth,M1,2000-01-01,0,0,,1\n" * 2, "M1,M1,M1,1\n"),
]

# a command file, and lines of its contributions to the inverse that stand together
CONTRIBUTIONS = [
    (SIX, "M3,M3,M3,2\nM3,M3,M1,-1\nM3,M3,F2,-1\nM3,M1,M1,1/2\nM3,F2,F2,1/2\nM3,M1,F2,1/2\n"),
    # an inbred sire with a younger founder, and a calf with one known parent
    (
        SIX + "birth,F7,2000-01-02,0,0,,1\nbirth,M8,2006-01-01,M5,F7,,1\nbirth,F9,2006-01-02,M1,0,,1\n",
        "M8,M8,M8,16/7\nM8,M8,M5,-8/7\nM8,M8,F7,-8/7\nM8,M5,M5,4/7\nM8,F7,F7,4/7\nM8,M5,F7,4/7\n"
        "F9,F9,F9,4/3\nF9,F9,M1,-2/3\nF9,M1,M1,1/3\n",
    ),
    # two inbred parents, a sire alone, and a dam alone
    (
        SIX + "birth,M8,2006-01-01,M5,F6,,1\nbirth,M9,2006-01-02,M5,0,,1\nbirth,F10,2006-01-03,0,F6,,1\n",
        "M8,M8,M8,8/3\nM8,M8,M5,-4/3\nM8,M8,F6,-4/3\nM8,M5,M5,2/3\nM8,F6,F6,2/3\nM8,M5,F6,2/3\n"
        "M9,M9,M9,16/11\nM9,M9,M5,-8/11\nM9,M5,M5,4/11\n"
        "F10,F10,F10,16/11\nF10,F10,F6,-8/11\nF10,F6,F6,4/11\n",
    ),
]

# the second record of a file, and its fault
SECOND_RECORDS = [
    ("birth,HOLGBRM00000000001,2000-01-01,0,0,,1", "4 Animal"),
    ("birth,HOLGBRX000000000002,2000-01-01,0,0,,1", "4 Animal"),
    ("birth,M2,2023-02-29,0,0,,1", "5 Day"),
    ("birth,M2,1900-02-29,0,0,,1", "5 Day"),
    ("birth,M2,1899-12-31,0,0,,1", "5 Day"),
    ("birth,M2,2200-01-01,0,0,,1", "5 Day"),
    ("birth,M2,2000-01-01,HOL,0,,1", "6 Sire"),
    ("birth,M2,2000-01-01,0,x,,1", "7 Dam"),
    ("transfer,M1,2000-01-01,,,0,2", "8 FromHerd"),
    ("birth,M2,2000-01-01,0,0,,100000000", "9 ToHerd"),
    ("birth,M2,2000-01-01,0,0,,007", "9 ToHerd"),
    ("sale,M1,2000-01-01,,,1,2", "3 Kind"),
    ("birth,M2,2000-01-01,0,0,1", "2 Fields"),
    ("birth,M2,2000-01-01,0,0,1,1", "10 FieldNotUsed"),
    ("birth,M2,2000-01-01,0,0,,1,", "2 Fields"),
    ("exit,M1,2000-01-01,,,,1", "10 FieldNotUsed"),
    ("exit,x,x,,,,1", "4 Animal"),
    ("exit,M1,x,,,,1", "5 Day"),
    ("parents,M1,x,,,,", "10 FieldNotUsed"),
    (f"exit,{'A' * 100_000},2001-01-01,,,,", "4 Animal"),
]

# the first record of a file with embryos, and its fault
FIRST_RECORDS = [
    ("birth,M5,2000-01-01,0,0,,1,x", "14 Embryo"),
    ("exit,M5,2000-01-01,,,,,1", "10 FieldNotUsed"),
    ("birth,M5,2000-01-01,0,0,,1", "2 Fields"),
]

# words, requests, and the answers where one thread gives all
SESSIONS = [
    # of the commands at the one desk one can't be read, and the last finds the journal full
    (
        "session --desks 1 --inspectors 1 --limit-animals 10 --limit-steps 3",
        "a,desk,1,birth,M1,2000-01-01,0,0,,1,\nb,desk,1,birth,M1,2000-01-01,0,0,,1,\n"
        "c,desk,1,birth,M2,2000-02-30,0,0,,1,\nd,desk,1,exit,M1,2001-01-01,,,,,\ne,desk,1,exit,M1,2001-01-01,,,,,\n",
        "a,1,accepted\nb,2,refused,1\nc,fault,Day\nd,3,accepted\ne,fault,JournalFull\nclosed,3,1\n",
    ),
    # questions about an empty book, and what is none
    (
        "session --desks 2 --inspectors 2",
        "a,inspector,2,seen\nb,inspector,2,inbreeding\nc,inspector,2,certificate,M1\nd,inspector,2,record\n"
        "e,inspector,2,horoscope\n",
        "a,end,0\nb,end,0\nc,fault,NotRegistered\nd,fault,Fields\ne,fault,Question\nclosed,0,0\n",
    ),
    # what is for nobody; a record without a tag is answered without one
    (
        "session --desks 2 --inspectors 2",
        ",desk,1\nclosed,desk,1\na,clerk,1\nb,desk,3\nc,inspector,0,seen\n",
        ",fault,Tag\n,fault,Tag\na,fault,Addressee\nb,fault,NoDesk\nc,fault,NoInspector\nclosed,0,0\n",
    ),
]
