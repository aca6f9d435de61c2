#!/usr/bin/env python3
"""Makes the spreadsheets of this folder anew: with LibreOffice those that it saves, and the others
after the documentation of their programs (README.md).

    tests/trials/spreadsheets/make.py

Needs `soffice`. A sheet is a list of rows; a cell is a text, or a number with its format.
"""

import os
import subprocess
import tempfile
from xml.sax.saxutils import escape

HERE = os.path.dirname(os.path.abspath(__file__))
SPACES = " ".join(
    f'xmlns:{name}="urn:oasis:names:tc:opendocument:xmlns:{path}:1.0"'
    for name, path in [
        ("office", "office"),
        ("table", "table"),
        ("text", "text"),
        ("style", "style"),
        ("number", "datastyle"),
        ("fo", "xsl-fo-compatible"),
    ]
)
# LibreOffice's numbers of encodings.
UTF8, WINDOWS_1252, UTF16 = 76, 1, 65535
COMMA, SEMICOLON, TAB = 44, 59, 9


class Shown:
    """A number with one decimal place, in the form of the sheet's language."""

    def __init__(self, number):
        self.number = number


def cell(value):
    if value == "":
        return "<table:table-cell/>"
    if isinstance(value, (int, float)):
        return f'<table:table-cell office:value-type="float" office:value="{value}"/>'
    if isinstance(value, Shown):
        kind = 'table:style-name="place" office:value-type="float"'
        return f'<table:table-cell {kind} office:value="{value.number}"/>'
    lines = "".join(f"<text:p>{escape(line)}</text:p>" for line in value.split("\n"))
    return f'<table:table-cell office:value-type="string">{lines}</table:table-cell>'


def workbook(rows, language, country):
    """A sheet as a flat OpenDocument file."""
    body = "".join(f"<table:table-row>{''.join(map(cell, row))}</table:table-row>" for row in rows)
    place = f'number:language="{language}" number:country="{country}"'
    return (
        f'<?xml version="1.0" encoding="UTF-8"?><office:document {SPACES} office:version="1.2"'
        ' office:mimetype="application/vnd.oasis.opendocument.spreadsheet">'
        '<office:styles><style:default-style style:family="table-cell">'
        f'<style:text-properties fo:language="{language}" fo:country="{country}"/>'
        "</style:default-style></office:styles><office:automatic-styles>"
        f'<number:number-style style:name="N1" {place}>'
        '<number:number number:decimal-places="1" number:min-decimal-places="1"'
        ' number:min-integer-digits="1"/></number:number-style>'
        '<style:style style:name="place" style:family="table-cell" style:data-style-name="N1"/>'
        "</office:automatic-styles><office:body><office:spreadsheet>"
        f'<table:table table:name="Plan">{body}</table:table>'
        "</office:spreadsheet></office:body></office:document>"
    )


def saved(name, rows, language, form):
    """Saves a sheet with LibreOffice: as CSV if the form is a separator, an encoding and whether all
    texts are quoted, else with the format of the name's end."""
    with tempfile.TemporaryDirectory() as room:
        stem, ending = name.rsplit(".", 1)
        path = os.path.join(room, stem + ".fods")
        with open(path, "w", encoding="utf-8") as file:
            file.write(workbook(rows, *language))
        if form:
            separator, encoding, quotes = form
            ending = f"csv:Text - txt - csv (StarCalc):{separator},34,{encoding},1,,0,{quotes},true"
        subprocess.run(
            ["soffice", f"-env:UserInstallation=file://{room}/profile", "--headless"]
            + ["--convert-to", ending, "--outdir", HERE, path],
            check=True,
            stdout=subprocess.DEVNULL,
            stderr=subprocess.DEVNULL,
        )


def written(name, text, encoding):
    """Writes a text as another program saves it."""
    with open(os.path.join(HERE, name), "wb") as file:
        file.write(text.replace("\n", "\r\n").encode(encoding))


ENGLISH, GERMAN, FRENCH, SPANISH = ("en", "US"), ("de", "DE"), ("fr", "FR"), ("es", "ES")

WALL = [
    ["ID", "Task", "Duration", "After", "crew", "digger"],
    ["A", "Excavation", 2, "", 2, 1],
    ["B", "Concrete footing", 3, "A", 3, ""],
    ["C", "Bricks, delivered", 1, "", "", ""],
    ["D", "Wall", 5, "B C", 3, ""],
    ["capacity", "", "", "", 3, 1],
]
QUOTES = [
    ["id", "name", "duration", "predecessors"],
    ["a", "Café “Süd” — counter", 4, ""],
    ["b", "Owner’s ‘list’ …", 2, "a"],
    ["c", "Fee: 500 €", 0, "a, b"],
]
PARTY = [
    ["No.", "Task Name", "Duration", "Predecessors"],
    [1, "Invite", "1 day", ""],
    [2, "Ω choir", "4 days", 1],
    [3, "Party 🎉", "2d", "1, 2"],
]
MAUER = [
    ["Nr.", "Vorgang", "Dauer", "Vorgänger", "Maurer", "Bagger"],
    [1, "Aushub", Shown(2), "", 2, 1],
    [2, "Fundament „Süd“", Shown(3), 1, 3, ""],
    [3, "Ziegel – 500 €", Shown(1), "", "", ""],
    [4, "Mauer, 30 m²", Shown(5), "2;3", 2, ""],
    ["capacity", "", "", "", 3, 1],
]
MAISON = [
    ["No", "Nom de la tâche", "Durée", "Prédécesseurs", "équipe"],
    [1, "Études", Shown(3), "", 1],
    [2, "Gros œuvre", Shown(10), 1, 4],
    [3, "Fenêtres à poser", Shown(2), 2, 2],
    [4, "Électricité", Shown(4), 2, 3],
    ["capacity", "", "", "", 4],
]
CASA = [
    ["id", "Nombre de tarea", "Duración", "Predecesoras", "cuadrilla"],
    ["A", "Diseño", "2 días", "", 1],
    ["B", "Cimentación", "1 día", "A", 2],
    ["C", "Señalización", "3 días", "A", 2],
    ["capacity", "", "", "", 2],
]
LINE_BREAK = [
    ["id", "name", "duration"],
    ["a", "Roof", 2],
    ["b", "Walls,\nnorth and south", 3],
]
HALF_DAYS = [
    ["Nr.", "Vorgang", "Dauer"],
    [1, "Aushub", Shown(2)],
    [2, "Fundament", Shown(1.5)],
]

SAVED = [
    ("libreoffice_wall.csv", WALL, ENGLISH, (COMMA, UTF8, "false")),
    ("libreoffice_quotes.csv", QUOTES, ENGLISH, (COMMA, WINDOWS_1252, "true")),
    ("libreoffice_party.csv", PARTY, ENGLISH, (TAB, UTF16, "false")),
    ("libreoffice_mauer_utf8.csv", MAUER, GERMAN, (SEMICOLON, UTF8, "false")),
    ("libreoffice_mauer_windows1252.csv", MAUER, GERMAN, (SEMICOLON, WINDOWS_1252, "false")),
    ("libreoffice_mauer_utf16.csv", MAUER, GERMAN, (TAB, UTF16, "false")),
    ("libreoffice_maison_utf8.csv", MAISON, FRENCH, (SEMICOLON, UTF8, "false")),
    ("libreoffice_maison_windows1252.csv", MAISON, FRENCH, (SEMICOLON, WINDOWS_1252, "false")),
    ("libreoffice_casa.csv", CASA, SPANISH, (TAB, UTF16, "false")),
    ("libreoffice_line_break.csv", LINE_BREAK, ENGLISH, (COMMA, UTF8, "false")),
    ("libreoffice_half_days.csv", HALF_DAYS, GERMAN, (SEMICOLON, UTF8, "false")),
    ("wall.xlsx", WALL, ENGLISH, None),
    ("wall.xls", WALL, ENGLISH, None),
    ("wall.ods", WALL, ENGLISH, None),
]

WRITTEN = [
    ("excel_utf8.csv", "utf-8-sig", '''\
ID,Name,Duration,Predecessors,crew
A,Würfel,2,,1
B,Zelt,3,A,2
capacity,,,,2
'''),
    ("excel_mauer.csv", "cp1252", '''\
Nr;Vorgangsname;Dauer;Vorgänger;Bemerkung;Maurer
1;Aushub;2 Tage;;ab März;2
2;"Gerüst ""groß""";1 Tag;1;;1
3;Putz;4 Tage;1;innen – zuerst;2
capacity;;;;;3
'''),
    ("excel_unicode_text.txt", "utf-16", '''\
id\tname\tduration\tpredecessors\tcrew
A\tDach über Süd\t2\t\t1
B\t"Walls, ""north"""\t3\tA\t2
capacity\t\t\t\t2
'''),
    ("notepad_big_endian.txt", "utf-16-be", '''\
\ufeffid\tname\tduration\tpredecessors
A\t屋根 🏠\t2\t
B\tŁazienka\t3\tA
'''),
    ("excel_separator_line.csv", "cp1252", '''\
sep=;
id;name;duration
A;Roof;2
'''),
    ("msproject.csv", "cp1252", '''\
ID,Task Name,Duration,Start,Finish,Predecessors,Resource Names
1,Survey,2 days,Mon 3/4/24,Tue 3/5/24,,crew
2,"Excavation, north",4 days,Wed 3/6/24,Mon 3/11/24,1,"crew[2],digger"
3,Footing,3 days,Wed 3/6/24,Fri 3/8/24,1,crew[3]
4,Café slab,1 day,Tue 3/12/24,Tue 3/12/24,"2,3",crew
5,Acceptance,0 days,Tue 3/12/24,Tue 3/12/24,4,
'''),
    ("msproject_lag.csv", "cp1252", '''\
ID,Task Name,Duration,Start,Finish,Predecessors,Resource Names
1,Footing,3 days,Mon 3/4/24,Wed 3/6/24,,crew[3]
2,Walls,5 days,Mon 3/11/24,Fri 3/15/24,1FS+2 days,crew[3]
'''),
    ("msproject_estimate.csv", "cp1252", '''\
ID,Task Name,Duration,Start,Finish,Predecessors,Resource Names
1,Footing,3 days,Mon 3/4/24,Wed 3/6/24,,crew[3]
2,Walls,1 day?,Thu 3/7/24,Thu 3/7/24,1,crew[3]
'''),
    ("ganttproject_tasks.csv", "utf-8", '''\
ID,Name,Begin date,End date,Duration,Completion,Cost,Coordinator,Predecessors,Outline number,Resources
0,Survey,3/4/24,3/5/24,2,100,0,,,1,crew
1,Excavation,3/6/24,3/11/24,4,50,0,,0,2,crew;digger
2,Footing,3/12/24,3/14/24,3,0,0,,1,3,crew
'''),
    ("ganttproject.csv", "utf-8", '''\
ID,Name,Begin date,End date,Duration,Completion,Cost,Coordinator,Predecessors,Outline number,Resources
0,Survey,3/4/24,3/5/24,2,100,0,,,1,crew
1,Excavation,3/6/24,3/11/24,4,50,0,,0,2,crew;digger

ID,Name,Default role,e-mail,Phone,Standard rate
0,crew,0,,,0
'''),
    ("taskjuggler.csv", "utf-8", '''\
"No";"Name";"Start";"End";"Duration"
"1";"Survey";"2024-03-04";"2024-03-06";"2.0d"
"2";"Excavation; north";"2024-03-06";"2024-03-12";"4.0d"
"3";"Footing";"2024-03-12";"2024-03-15";"3.0d"
'''),
    ("google_sheets.csv", "utf-8", '''\
ID,Task,Days,Depends on,crew
A,Draft – first,3,,1
B,"Review, by two",2,A,2
C,Print,1,"A, B",1
capacity,,,,2'''),
    ("jira.csv", "utf-8", '''\
Summary,Issue key,Issue id,Issue Type,Status,Assignee,Original Estimate,Inward issue link (Blocks)
Draft,PLAN-1,10001,Task,To Do,Ada,86400,
Review,PLAN-2,10002,Task,To Do,Bob,57600,PLAN-1
'''),
]


def main():
    for name, rows, language, form in SAVED:
        saved(name, rows, language, form)
    for name, encoding, text in WRITTEN:
        written(name, text, encoding)


if __name__ == "__main__":
    main()
