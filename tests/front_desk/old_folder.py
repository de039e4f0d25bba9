"""The files of a book as version 0.11 wrote them: two takings, with an animal that was dropped."""
from __future__ import annotations

from front_desk.desk import Desk

FILES = {
    "commands.csv": """\
kind,animal,day,sire,dam,from,to,embryo
birth,SKUGBRF000000000001,2001-01-01,0,0,,1,
birth,SKUGBRM000000000002,2001-02-01,0,0,,2,
birth,SKUGBRF000000000004,2004-07-02,SKUGBRM000000000002,SKUGBRF000000000001,,1,
birth,SKUGBRM000000000005,2006-07-02,SKUGBRM000000000002,SKUGBRF000000000004,,2,
birth,SKUGBRM000000000006,2007-01-02,0,0,,99999999,
birth,SKUGBRF000000000007,2009-01-01,SKUGBRM000000000006,SKUGBRF000000000004,,99999999,
exit,SKUGBRM000000000005,2011-05-31,,,,,
""",
    "ids.csv": """\
number,id,name,row,birth,exit,sex
SKUGBRF000000000001,a,Anna,yes,,,
SKUGBRM000000000002,b,Bob,yes,,,
SKUGBRF000000000003,g,,dropped,,,
SKUGBRF000000000004,c,Cleo,yes,from the year 2004,day unknown: 'verkauft',
SKUGBRM000000000005,d,Dan,yes,from its parents,the month 2011-05,
SKUGBRM000000000006,x,,no,from its offspring,,since it is a sire
SKUGBRF000000000007,e,Eve,yes,,,
""",
    "options.csv": 'option,word\ncolumns,"id=Tag,sex=S,owner=Hof"\n',
    "owners.csv": "herd,owner\n1,Nord\n2,Süd\n",
    "parents.csv": "id,role,written\nc,sire,Bob\n",
    "report.csv": "line,id,what,why\n,g,gone,it has no row any more: it is dropped from the book\n",
}
# what version 0.11 lists of it
LIST = """\
id,name,number,birth,coefficient,decimal,percent
a,Anna,SKUGBRF000000000001,2001-01-01,0,0,0.00
b,Bob,SKUGBRM000000000002,2001-02-01,0,0,0.00
c,Cleo,SKUGBRF000000000004,2004-07-02 (inferred),0,0,0.00
d,Dan,SKUGBRM000000000005,2006-07-02 (inferred),1/4,0.25,25.00
x,,SKUGBRM000000000006,2007-01-02 (inferred),0,0,0.00
e,Eve,SKUGBRF000000000007,2009-01-01,0,0,0.00
"""
SHEET = """\
Tag;Name;S;born;sire;dam;Hof;exit
a;Anna;F;2001-01-01;;;Nord;
b;Bob;M;2001-02-01;;;Süd;
c;Cleo;F;2004;Bob;a;Nord;verkauft
d;Dan;M;;b;c;Süd;2011-05
e;Eve;F;2009-01-01;x;c;;
g;;F;2003-01-01;;;;
"""


def write_old(desk: Desk) -> None:
    (desk.room / "book").mkdir()
    for name, text in FILES.items():
        desk.write(f"book/{name}", text.encode())
