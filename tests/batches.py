#!/usr/bin/env python3
"""Turns exports by tools/wh-batches, and has the built program deliver what comes out. Build it first (`rt run` in crates/wh).

usage: batches.py [LINES] [PROGRAM]: a year of 60,000 lines, or of so many, at least 30. WH names another program, too.

Exports as tills in Germany, France and Switzerland write them, a year of a till, and just as many records and bytes as a batch may have. What a batch must
hold, and how it is named, is put together here from the rows of which an export is written, by the rules of docs/tutorial.md; a report must have the sums that
Python finds in the export. Each fault must be said by line and column, and leave nothing behind. At last exports are changed at random: what is turned has to be
good by the readers of tests/lib/readers.py.
"""

import contextlib
import csv
import datetime
import hashlib
import importlib.machinery
import importlib.util
import io
import os
import random
import re
import shlex
import subprocess
import sys
from decimal import Decimal

from lib import readers
from lib.program import program
from lib.worked import Count, own_folder

ROOT = os.path.realpath(f"{os.path.dirname(__file__)}/..")
LINES = int(sys.argv[1]) if len(sys.argv) > 1 else 60_000
PROGRAM = program(2)
TOOL = f"{ROOT}/tools/wh-batches"
SALES = "ticket,line,day,store,product,customer,quantity,amount,cost"
SALE = "T1,1,2024-01-05,S1,P1,,1,1.50,0.90"
POLICY = """\
first_year = 2024
last_year = 2025
[[product]]
name = "description"
type = 1
[[product]]
name = "brand"
type = 2
[[store]]
name = "city"
type = 2
[[customer]]
name = "tier"
type = 2
"""
GERMAN = ["--separator", ";", "--decimal", ",", "--day", "DD.MM.YYYY"]
TITLES = {"ticket": "Bon", "line": "Pos", "day": "Datum", "product": "Artikel", "customer": "Karte", "quantity": "Menge", "amount": "Betrag", "cost": "Einstand"}
COLUMNS = ",".join(f"{field}={title}" for field, title in TITLES.items())

count = Count()
work = own_folder()
os.chdir(work.name)


def equal(name, found, wanted):
    count.case([] if found == wanted else f"{name}: {found!r}\nand not {wanted!r}")


def written(name, text, encoding="utf-8"):
    with open(name, "wb") as file:
        file.write(text if isinstance(text, bytes) else text.encode(encoding))
    return name


def files_in(folder):
    return {name: open(f"{folder}/{name}", "rb").read() for name in os.listdir(folder)}


def turned(export, out, kind, *words):
    """The status, what is printed, and the files that are made."""
    done = subprocess.run([TOOL, export, "--kind", kind, "--out", out, *words], capture_output=True, text=True)
    return done.returncode, done.stdout + done.stderr, files_in(out) if os.path.isdir(out) else None


def wh(*words):
    done = subprocess.run([PROGRAM, *words], stdin=subprocess.DEVNULL, stdout=subprocess.PIPE, text=True)
    return done.stdout, done.returncode


def made_from(kind, header, groups, out, prefix=""):
    """What the tool must say, and the files that it must make of groups of records: pairs of a day, or nothing, and the records in their order."""
    files, manifest = {}, ""
    for day, records in groups:
        content = "".join(record + "\n" for record in [header, *records]).encode()
        name = prefix + "-".join([kind, *([day] if day else []), hashlib.sha256(content).hexdigest()[:12]])
        files[f"{name}.csv"] = content
        manifest += f"{kind},{name},{out}/{name}.csv\n"
    printed = f"{sum(len(records) for _, records in groups)} records in {len(groups)} batches: {out}/manifest.csv\n"
    return 0, printed, {**files, "manifest.csv": manifest.encode()}


def money(hundredths, point="."):
    return f"{'-' if hundredths < 0 else ''}{abs(hundredths) // 100}{point}{abs(hundredths) % 100:02}"


def cell_of(text):
    return '"' + text.replace('"', '""') + '"' if re.search('[";\n\r]', text) else text


# ---- Notations


def german_till():
    """Windows-1252, CRLF, quoted separators, quotes and line ends in a column that is dropped; the lines of a day in no order."""
    rows = [
        (datetime.date(2024, 12, 31), "0001", 1, "COLA", "Cola; 1 l", 2, 300, 180, "ANNA"),
        (datetime.date(2024, 12, 30), "1001", 10, "K-7", "Käse\r\n\"alt\"", 1, 1234567, 5, ""),
        (datetime.date(2024, 12, 30), "1001", 9, "TEA", "Tee für Gäste, 50 €", -1, -5, -180, ""),
        (datetime.date(2024, 12, 30), "0999", 1, "TEA", "", 1, 0, 0, "BEN"),
    ]
    lines = [f"{day:%d.%m.%Y};{ticket};{line};{product};{cell_of(text)};{quantity};{money(amount, ',')};{money(cost, ',')};{card}" for day, ticket, line, product, text, quantity, amount, cost, card in rows]
    export = "\r\n".join(["Datum;Bon;Pos;Artikel;Bezeichnung;Menge;Betrag;Einstand;Karte", *lines, ";;;;;;;;", ""])
    written("kasse.csv", export, "cp1252")
    rows.sort(key=lambda row: row[:3])
    records = [(day, f"ZH-{ticket},{line},{day},S1,{product},{card},{quantity},{money(amount)},{money(cost)}") for day, ticket, line, product, _, quantity, amount, cost, card in rows]
    groups = [(str(day), [record for at, record in records if at == day]) for day in sorted({day for day, _ in records})]
    words = [*GERMAN, "--encoding", "cp1252", "--columns", f"store==S1,{COLUMNS}", "--ticket-prefix", "ZH-", "--id-prefix", "zuerich-01-"]
    wanted = made_from("sales", SALES, groups, "night", "zuerich-01-")
    equal("a German till", turned("kasse.csv", "night", "sales", *words), wanted)
    # the longest id
    equal("the longest id", max(len(name) for name in wanted[2]) - len(".csv"), 40)
    # in another order, with other line ends, and by words in a file
    head, *rest = export.split("\r\n")[:-1]
    rest = [rest[4], rest[3], rest[1] + "\r\n" + rest[2], rest[0]]
    written("turned.csv", "\n".join([head, *rest]).replace("\r\n", "\n"), "cp1252")
    written("till.options", "\n".join(words))
    equal("another order", turned("turned.csv", "again", "sales", "@till.options")[2].keys(), wanted[2].keys())


def french_till():
    """UTF-8 with a byte order mark, spaces that break and don't between groups of digits, times behind days, padded cells."""
    thousands = "\u202f", "\u00a0", " "
    lines = [f"31/12/2024 9:05;{number};1;P{number};1;1{space}234{space}567,50;-2{space}000,00  " for number, space in enumerate(thousands)]
    written("caisse.csv", "\ufeffDate;Ticket;Ligne;Article;Quantité;Montant;Coût\n" + "\n".join(lines))
    records = [f"GE-{number},1,2024-12-31,GENEVE,P{number},,1,1234567.50,-2000.00" for number in range(3)]
    words = ["--separator", ";", "--decimal", ",", "--thousands", "space", "--day", "DD/MM/YYYY h:mm", "--ticket-prefix", "GE-"]
    named = "ticket=Ticket,line=Ligne,day=Date,product=Article,quantity=Quantité,amount=Montant,cost=Coût,store==GENEVE,customer=="
    equal("a French till", turned("caisse.csv", "french", "sales", *words, "--columns", named), made_from("sales", SALES, [("2024-12-31", records)], "french"))


def products_of_an_old_till():
    """Code page 850, tabs, apostrophes; attributes in the order in which they are named, a day and an attribute that the export hasn't."""
    lines = [f"P{number}\t{name}\tM\u00fcller, S\u00f6hne" for number, name in enumerate(['Gr\u00fc\u00dfe "5"', "\u00c4pfel", "  Öl  ", ""])]
    written("artikel.txt", "Nr\tName\tMarke\n" + "\n".join(lines) + "\n", "cp850")
    records = [f'P{number},2024-01-01,"M\u00fcller, S\u00f6hne",{name},West' for number, name in enumerate(['"Gr\u00fc\u00dfe ""5"""', "\u00c4pfel", "Öl", ""])]
    words = ["--separator", "tab", "--encoding", "cp850", "--day", "D.M.YYYY", "--columns", "id=Nr,day==1.1.2024,brand=Marke,description=Name,supplier==West"]
    wanted = made_from("product", "id,day,brand,description,supplier", [("", records)], "old")
    equal("products of an old till", turned("artikel.txt", "old", "product", *words), wanted)
    # latin-1 has none of these umlauts where code page 850 has them
    status, printed, files = turned("artikel.txt", "wrong", "product", *words, "--encoding", "latin-1")
    equal("in another encoding", (status, files, "line 2, column Name: 'Gr\\x81" in printed, printed.count("control character")), (1, None, True, 7))


def several_shops():
    """One export of two shops, whose tickets have the same numbers; with discounts; columns with signs in their titles."""
    written("all.csv", 'Filiale,Bon,"Betrag, brutto",P+Q,Rabatt,day\nZH,1,1,2,0.5,2024-05-01\nBE,1,1.5,2,0,2024-05-01\n')
    named = '"amount=Betrag, brutto",ticket=Filiale+Bon,quantity=P+Q,store=Filiale,line==1,product==MIX,customer==,cost==0,discount=Rabatt'
    records = ["BE-1,1,2024-05-01,BE,MIX,,2,1.50,0.00,0.00", "ZH-1,1,2024-05-01,ZH,MIX,,2,1.00,0.00,0.50"]
    equal("several shops", turned("all.csv", "all", "sales", "--columns", named), made_from("sales", f"{SALES},discount", [("2024-05-01", records)], "all"))


def voids():
    written("voids.csv", "ticket,line,day\nT2,01,2024-05-02\nT1,10,2024-05-01\nT1,9,2024-05-01\n")
    equal("voids", turned("voids.csv", "v", "void"), made_from("void", "ticket,line", [("", ["T2,1", "T1,10", "T1,9"])], "v"))
    by_day = [("2024-05-01", ["T1,9", "T1,10"]), ("2024-05-02", ["T2,1"])]
    equal("voids by day", turned("voids.csv", "w", "void", "--columns", "day=day"), made_from("void", "ticket,line", by_day, "w"))
    equal("voids before a day", turned("voids.csv", "x", "void", "--columns", "day=day", "--before", "2024-05-02"), made_from("void", "ticket,line", by_day[:1], "x"))
    written("voids.csv", "ticket,line\n")
    equal("no voids", turned("voids.csv", "y", "void"), made_from("void", "ticket,line", [], "y"))


NUMBERS = [
    # words, and amounts with what they are in a batch
    ((), {"1": "1.00", "1.5": "1.50", "1.50": "1.50", "001.5000": "1.50", "-0.05": "-0.05", "-0.00": "0.00", "9999999.99": "9999999.99"}),
    (("--decimal", ","), {"1,5": "1.50", "-1234567,89": "-1234567.89"}),
    (("--decimal", ",", "--thousands", "."), {"1.234,5": "1234.50", "1.234": "1234.00", "1.234.567": "1234567.00", "1234,50": "1234.50", "-12.345,00": "-12345.00"}),
    (("--thousands", "'"), {"1'234.50": "1234.50", "1\u2019234": "1234.00"}),
    (("--thousands", ","), {"1,234.50": "1234.50"}),
]
WRONG_NUMBERS = [
    ((), ["", "1,5", "1,234", "+1", ".5", "1.", "1e3", "1 234", "1.234.5", "--1", "1-", "٣", "0x1", "1'234", "€1"], "is no number of the form 1234.50"),
    (("--decimal", ",", "--thousands", "."), ["1.50", "12.34,5", "1234.567,00", ".123", "1,234.50", "1.2345", "1..234"], "is no number of the form 1.234,50"),
    (("--thousands", "space"), ["1\u202f23", "1 234 56", "1  234"], "is no number of the form 1 234.50"),
    ((), ["1.234", "0.001"], "has more than two decimals"),
    ((), ["10000000", "12345678.00"], "has more than 7 digits"),
]


def amounts_export(amounts):
    text = io.StringIO()
    csv.writer(text).writerows([SALES.split(","), *([f"T{place}", 1, "2024-01-05", "S1", "P1", "", 1, amount, 0] for place, amount in enumerate(amounts))])
    return written("amounts.csv", text.getvalue())


def numbers():
    for place, (words, amounts) in enumerate(NUMBERS):
        records = [f"T{at},1,2024-01-05,S1,P1,,1,{amount},0.00" for at, amount in enumerate(amounts.values())]
        equal(f"amounts {words}", turned(amounts_export(amounts), f"n{place}", "sales", *words), made_from("sales", SALES, [("2024-01-05", records)], f"n{place}"))
    for words, amounts, why in WRONG_NUMBERS:
        lines = [f"amounts.csv, line {line}, column amount: {amount!r} {why}" for line, amount in enumerate(amounts, 2)]
        equal(f"wrong amounts {words}", turned(amounts_export(amounts), "wrong", "sales", *words), (1, "\n".join([*lines, "nothing is written", ""]), None))


# ---- Faults

KEY = "is no key, which is 1 to 32 of A to Z, a to z, 0 to 9, '-', '_' and '.'"
# the lines below the header, words, what is said of the file
SALES_FAULTS = [
    ([SALE, "T1 ,1,2024-02-30,S1,P1,,1,1,1"], [], ["line 3, column day: '2024-02-30' is no day from 1900 to 2199 of the form YYYY-MM-DD"]),
    (["T1,1,5.1.2024,S1,P1,,1,1,1"], ["--day", "DD.MM.YYYY"], ["line 2, column day: '5.1.2024' is no day from 1900 to 2199 of the form DD.MM.YYYY"]),
    (["T1,1,31.12.24,S1,P1,,1,1,1"], ["--day", "DD.MM.YYYY"], ["line 2, column day: '31.12.24' is no day from 1900 to 2199 of the form DD.MM.YYYY"]),
    (["T1,1,1899-12-31,S1,P1,,1,1,1"], [], ["line 2, column day: '1899-12-31' is no day from 1900 to 2199 of the form YYYY-MM-DD"]),
    (["T/1,0,2024-01-05,S 1,P1,Ä,1.5,x,1"], [], [
        "line 2, column ticket: 'T/1' is no key, which is 1 to 20 of A to Z, a to z, 0 to 9, '-', '_' and '.'",
        "line 2, column line: '0' is no line of a ticket, which is 1 to 9999", f"line 2, column store: 'S 1' {KEY}", f"line 2, column customer: 'Ä' {KEY}",
        "line 2, column quantity: '1.5' isn't whole", "line 2, column amount: 'x' is no number of the form 1234.50"]),
    ([f"{18 * 'T'},10000,2024-01-05,S1,{33 * 'P'},,10000,1,1"], ["--ticket-prefix", "ZH-"], [
        f"line 2, column ticket: '{18 * 'T'}' is no key, which is 1 to 17 of A to Z, a to z, 0 to 9, '-', '_' and '.'",
        "line 2, column line: '10000' is no line of a ticket, which is 1 to 9999", f"line 2, column product: '{33 * 'P'}' {KEY}",
        "line 2, column quantity: '10000' has more than 4 digits"]),
    ([",1,2024-01-05,S1,P1,,1,1,1"], ["--ticket-prefix", "ZH-"], ["line 2, column ticket: '' is no key, which is 1 to 17 of A to Z, a to z, 0 to 9, '-', '_' and '.'"]),
    ([",1,2024-01-05,S1,P1,,1,1,1"], ["--columns", "ticket=store+ticket"], ["line 2, column store+ticket: one of the cells is empty"]),
    ([SALE, "", '"T\n2",1,2024-01-05,S1,P1,,1,1,1', "T3,x,2024-01-05,S1,P1,,1,1,1"], [], [
        "line 4, column ticket: 'T\\n2' is no key, which is 1 to 20 of A to Z, a to z, 0 to 9, '-', '_' and '.'", "line 6, column line: 'x' is no line of a ticket, which is 1 to 9999"]),
    ([SALE, "T2,1,2024-01-05", SALE + ","], [], ["line 3: the number of cells is 3, and 9 in the header", "line 4: the number of cells is 10, and 9 in the header"]),
    ([SALE, "T2,1,2024-01-05,S1,P1,,1,1,1", SALE.replace(",1,", ",0001,", 1)], [], ["line 4: ticket T1, line 1 stands on line 2, too"]),
    ([SALE, '"T2"x,1,2024-01-05,S1,P1,,1,1,1', "T3"], [], ["line 3: the cell of a quote doesn't end with the next quote (',' expected after '\"')"]),
    ([SALE, '"T2,1,2024-01-05,S1,P1,,1,1,1', SALE], [], ["line 3: the cell of a quote doesn't end with the next quote (unexpected end of data)"]),
    (["T1,1,2024-01-05,S1,P1,,1,1,-1"], ["--columns", "discount=cost"], ["line 2, column cost: '-1' is less than nothing"]),
    ([SALE], ["--columns", "ticket=Bon,line=Pos"], ["line 1: the column Bon of the field ticket is missing", "line 1: the column Pos of the field line is missing",
        "line 1: the columns are 'ticket', 'line', 'day', 'store', 'product', 'customer', 'quantity', 'amount', 'cost'"]),
    ([SALE], ["--separator", ";", "--columns", "ticket==A,line==1,day==2024-01-05,store==A,product==A,customer==,quantity==1,amount==1"], [
        "line 1: the column cost of the field cost is missing", "line 1: the columns are 'ticket,line,day,store,product,customer,q..'"]),
]


def faults():
    for lines, words, printed in SALES_FAULTS:
        written("bad.csv", "\n".join([SALES, *lines, ""]))
        before = sorted(os.listdir("."))
        found = turned("bad.csv", "none", "sales", *words)
        equal(f"the fault of {lines}", found, (1, "".join(f"bad.csv, {line}\n" for line in printed) + "nothing is written\n", None))
        equal(f"what is left by the fault of {lines}", sorted(os.listdir(".")), before)
    written("bad.csv", "\n".join([SALES, *(f"T{number},0,2024-01-05,S1,P1,,1,1,1" for number in range(33))]))
    status, printed, _ = turned("bad.csv", "none", "sales")
    printed = printed.split("\n")
    equal("many faults", (status, len(printed), printed[19].split(",")[1], printed[20:]), (1, 23, " line 21", [".. and 13 more", "nothing is written", ""]))


def further_faults():
    attributes = ["--columns", "description=Name"]
    cases = [
        (b"id,day,Name\nP1,2024-01-05,K\xe4se\n", "line 2, column Name: the byte E4 is no utf-8, so --encoding has to be another"),
        ("id,day,Name\nP1,2024-01-05,(none)\n", "line 2, column Name: '(none)' begins with '('"),
        (f"id,day,Name\nP1,2024-01-05,{29 * 'ä'}123\n", f"line 2, column Name: '{29 * 'ä'}123' has 61 bytes in UTF-8, and 60 are the most"),
        ('id,day,Name\nP1,2024-01-05,"a\nb"\n', "line 2, column Name: 'a\\nb' has a line end or another control character in it"),
        ("id,day,Name\nP1,2024-01-05,a\nP1,2024-01-05,b\n", "line 3: id P1, day 2024-01-05 stands on line 2, too"),
        ("id,day,Name,Name\nP1,2024-01-05,a,b\n", "line 1: the column Name of the field description stands twice\nbad.csv, line 1: the columns are 'id', 'day', 'Name', 'Name'"),
        ("", "line 1: the columns are none"),
        (b"id,day,Name\nP1,2024-01-05,\x81\n", "line 2, column Name: the byte 81 is no cp1252, so --encoding has to be another"),
    ]
    for content, line in cases:
        encoding = "cp1252" if "cp1252" in line else "utf-8"
        found = turned(written("bad.csv", content), "none", "product", "--encoding", encoding, *attributes)
        equal(f"the fault of {content}", found, (1, f"bad.csv, {line}\nnothing is written\n", None))
    equal("no export", turned("nothere.csv", "none", "sales"), (1, "nothere.csv: No such file or directory\n", None))
    os.mkdir("there")
    for out in ("there", "nothere/none"):
        equal(out, turned("kasse.csv", out, "sales")[:2], (1, f"{out} is there already, or the folder around it isn't there\n"))
    equal("a folder that was there", os.listdir("there"), [])


def wrong_words():
    cases = [
        (["--columns", "tickt=Bon"], "sales has no field 'tickt'"),
        (["--columns", "ticket"], "argument --columns: 'ticket' isn't FIELD=COLUMN or FIELD==TEXT, or its field stands twice"),
        (["--columns", "ticket=A,ticket=B"], "argument --columns: 'ticket=B' isn't FIELD=COLUMN or FIELD==TEXT, or its field stands twice"),
        (["--columns", "store==Zürich"], f"store==Zürich: 'Zürich' {KEY}"),
        (["--day", "DD.MM"], "--day 'DD.MM' hasn't one YYYY, one MM or M, and one DD or D"),
        (["--day", "DD.MM.YYYY D"], "--day 'DD.MM.YYYY D' hasn't one YYYY, one MM or M, and one DD or D"),
        (["--decimal", ",", "--thousands", ","], "--decimal and --thousands are the same sign"),
        (["--id-prefix", "zuerich-001-"], "argument --id-prefix: 'zuerich-001-' isn't up to 11 of A to Z, a to z, 0 to 9, '-', '_' and '.'"),
        (["--ticket-prefix", "Z "], "argument --ticket-prefix: 'Z ' isn't up to 11 of A to Z, a to z, 0 to 9, '-', '_' and '.'"),
        (["--before", "31.12.2024"], "argument --before: invalid day value: '31.12.2024'"),
        (["--kind", "void", "--before", "2024-12-31"], "--before is for sales, and for voids with a day"),
        (["--kind", "product", "--columns", "Name=Name"], "product has no field 'Name'"),
    ]
    for words, printed in cases:
        equal(f"the words {words}", turned("kasse.csv", "none", "sales", *words), (4, f"error: {printed}; wh-batches --help tells more\n", None))


def example_of_the_help():
    """It makes of the till's export that examples/ has the batches that the options beside it make."""
    with open(f"{ROOT}/examples/till/kasse.csv", "rb") as till, open(f"{ROOT}/examples/till/kasse.options") as options:
        written("kasse.csv", till.read())
        words = options.read().replace("==ZURICH", "==ZH").split("\n")[:-1]
    printed = subprocess.run([TOOL, "--help"], capture_output=True, text=True, check=True).stdout
    example = printed.partition("Zurich:\n")[2].partition("  wh deliver")[0]
    done = subprocess.run(["bash", "-c", example], env={**os.environ, "PATH": f"{ROOT}/tools:{os.environ['PATH']}"}, capture_output=True, text=True)
    equal("the example of the help", (done.stdout, done.stderr), ("4 records in 2 batches: zurich/manifest.csv\n", ""))
    wanted = turned("kasse.csv", "zurich2", "sales", *words)[2]
    wanted["manifest.csv"] = wanted["manifest.csv"].replace(b"zurich2", b"zurich")
    equal("the batches of the help's example", files_in("zurich"), wanted)


# ---- Limits


def most_records():
    for records, sizes in ((5000, [5000]), (5001, [5000, 1])):
        written("most.csv", "\n".join([SALES, *(f"T{number:05},1,2024-01-05,S1,P1,,1,1.50,0.90" for number in range(records))]))
        _, _, files = turned("most.csv", f"most{records}", "sales")
        entries = readers.read_manifest(files.pop("manifest.csv"))[0]
        equal(f"{records} records", [files[f"{name}.csv"].count(b"\n") - 1 for _, name, _ in entries], sizes)


def most_bytes():
    """Products of which two batches have just 1,000,000 bytes, or the second would have one more, and a further one. Quotes count twice, umlauts too. The program
    takes them."""
    for more, sizes in ((1, [4951, 4950, 2]), (0, [4951, 4951, 1])):
        header = "id,day,description,brand\n"
        # 202 bytes each with its line end; 277 or 278 are left for two
        brands = [*[60 * '"'] * 4949, 58 * "x", 59 * "x", *[60 * '"'] * 4949, (58 + more) * "x", 59 * "x", "last"]
        written("bytes.csv", "Nr;Name;Marke\n" + "".join(f"P{place:05};{30 * 'ä'};{cell_of(brand)}\n" for place, brand in enumerate(brands)))
        records = [f"P{place:05},2024-01-01,{30 * 'ä'},{cell_of(brand)}" for place, brand in enumerate(brands)]
        equal("the bytes of the records", [len((header + "".join(record + "\n" for record in part)).encode()) for part in (records[:4951], records[4951:-1])], [1_000_000, 1_000_000 + more])
        ends = [sum(sizes[:count]) for count in range(4)]
        groups = [("", records[start:end]) for start, end in zip(ends, ends[1:])]
        words = ["--separator", ";", "--columns", "id=Nr,day==2024-01-01,description=Name,brand=Marke"]
        equal(f"1,000,000 bytes and {more}", turned("bytes.csv", f"bytes{more}", "product", *words), made_from("product", header[:-1], groups, f"bytes{more}"))
    wh("init", "bytes.wh", written("policy.toml", POLICY))
    printed, status = wh("deliver", "bytes.wh", "bytes0/manifest.csv")
    equal("the delivery of 1,000,000 bytes", ([line.split(": ")[1] for line in printed.splitlines()], status), ([f"{size} records, 0 placeholders" for size in sizes], 0))


# ---- A year of a till

# the days, and how many of thirty parts of the lines each has
PARTS = {datetime.date(2024, month, day): 1 for month in range(1, 11) for day in (3, 28)} | {datetime.date(2024, 12, day): 5 for day in (30, 31)}
YEAR_TITLES = "Datum;Bon;Pos;Artikel;Menge;Betrag;Einstand;Karte"
YEAR_WORDS = [*GERMAN, "--columns", f"store==S1,{COLUMNS}"]


def lines_of(day):
    chance = random.Random(day.toordinal())
    for number in range(LINES // 30 * PARTS[day]):
        amount = chance.randrange(-999, 99999)
        card = f"K{chance.randrange(500)}" if number % 3 else ""
        yield f"{day:%d.%m.%Y};{day:%m%d}{number // 2:05};{number % 2 + 1};A{chance.randrange(3000)};{chance.randrange(-3, 20)};{money(amount, ',')};{money(amount * 2 // 3, ',')};{card}"


def month_report(export):
    """The report by month that the export's lines add up to."""
    with open(export, encoding="cp1252") as file:
        rows = list(csv.DictReader(file, delimiter=";"))
    sums = {}
    for row in rows:
        for label in (f"{row['Datum'][6:]}-{row['Datum'][3:5]}", "total"):
            figures = sums.setdefault(label, [0, 0, Decimal(0), Decimal(0)])
            for place, more in enumerate((1, int(row["Menge"]), *(Decimal(row[name].replace(",", ".")) for name in ("Betrag", "Einstand")))):
                figures[place] += more
    lines = [f"{lines:8} {quantity:10} {amount:14} {cost:14} {amount - cost:14}  {label}\n" for label, (lines, quantity, amount, cost) in sorted(sums.items())]
    return "report date.month was 2024-01-01 2024-12-31\n   lines   quantity         amount           cost         margin  label\n" + "".join(lines)


def sizes_of(lines):
    """How many records each batch of so many lines has."""
    return [min(5000, lines - start) for start in range(0, lines, 5000)]


def deliver_year(out, days, sent):
    """Turns the days' lines and delivers them; those that were sent before are known. Adds the further answers to those."""
    lines = {day: list(lines_of(day)) for day in days}
    sizes = [size for day in days for size in sizes_of(len(lines[day]))]
    written("year.csv", "\n".join([YEAR_TITLES, *(line for day in days for line in lines[day]), ""]), "cp1252")
    status, printed, files = turned("year.csv", out, "sales", *YEAR_WORDS)
    equal(f"{out} of a year", (status, printed, len(files)), (0, f"{sum(sizes)} records in {len(sizes)} batches: {out}/manifest.csv\n", len(sizes) + 1))
    printed, status = wh("deliver", "year.wh", f"{out}/manifest.csv")
    answers = printed.splitlines()
    equal(f"{out} of a year, known", answers[: len(sent)], [re.sub("^accepted", "already", line) for line in sent])
    new = [re.fullmatch("accepted [0-9]+ sales-2024-[-0-9a-f]+: ([0-9]+) records, [0-9]+ placeholders", line) for line in answers[len(sent) :]]
    equal(f"{out} of a year, new", [found and int(found[1]) for found in new], sizes[len(sent) :])
    equal(f"the status of {out}", status, 0)
    sent += answers[len(sent) :]


def year():
    """A year whose last day is still to come; the whole year; the same once more."""
    equal("init", wh("init", "year.wh", "policy.toml")[1], 0)
    days, sent = list(PARTS), []
    deliver_year("year-most", days[:-1], sent)
    deliver_year("year-all", days, sent)
    deliver_year("year-again", days, sent)
    equal("batches of a year", len(sent), sum(len(sizes_of(LINES // 30 * part)) for part in PARTS.values()))
    grown_day(days)
    equal("the report of a year", wh("report", "year.wh", "date.month", "was", "2024-01-01", "2024-12-31"), (month_report("year.csv"), 0))
    equal("the check", wh("check", "year.wh"), ("clean\n", 0))


def grown_day(days):
    """A day that has grown since it was sent is refused, and left out where that is asked for; the days before it are known."""
    lines = [line for day in days[:2] for line in lines_of(day)]
    written("grown.csv", "\n".join([YEAR_TITLES, *lines, f"{days[1]:%d.%m.%Y};999999;1;A1;1;1,00;0,50;", ""]), "cp1252")
    turned("grown.csv", "grown", "sales", *YEAR_WORDS)
    printed, status = wh("deliver", "year.wh", "grown/manifest.csv")
    equal("a day that has grown", ([line.partition(" ")[0] for line in printed.splitlines()], printed.splitlines()[1], status), (["already", "refused:"], "refused: E6 line there, record 1", 2))
    turned("grown.csv", "before", "sales", *YEAR_WORDS, "--before", str(days[1]))
    with open("grown/manifest.csv") as grown, open("before/manifest.csv") as before:
        equal("what is before the day", before.read(), grown.readline().replace("grown/", "before/"))


# ---- Chance


def turn_here(tool, words):
    """The status of a run inside this process."""
    with contextlib.redirect_stdout(io.StringIO()), contextlib.redirect_stderr(io.StringIO()):
        return tool.main(words)


def changed(chance, text):
    """The text with up to three changes."""
    for _ in range(chance.randint(1, 3)):
        place = chance.randrange(len(text))
        what = chance.choice(['"', ";", "\n", "\r", ",", "-", "0", "9", "x", " ", "\u00a0", "\u00e4", "\x00", "\x7f", "(", "", "", text[chance.randrange(len(text)) :][:7]])
        text = text[:place] + what + text[place + chance.randint(0, 2) :]
    return text


def changed_exports():
    """What is turned of a changed export is good, and has a record for each line that is filled; else nothing is there."""
    loader = importlib.machinery.SourceFileLoader("wh_batches", TOOL)
    tool = importlib.util.module_from_spec(importlib.util.spec_from_loader("wh_batches", loader))
    loader.exec_module(tool)
    chance, good = random.Random(11), 0
    sales = "\n".join(["day;ticket;line;product;store;quantity;amount;cost;customer", *(f"0{day}.05.2024;10{day};{line};P{line};S1;-2;1.234,50;0,5;" for day in (3, 4) for line in (1, 2))])
    products = "\n".join(["id;day;text", *(f'P{number};01.05.2024;"K\u00e4se; {number}"' for number in range(4))])
    for number in range(1500):
        kind, text, names = chance.choice((("sales", sales, []), ("product", products, ["text"])))
        written("changed.csv", changed(chance, text))
        words = ["changed.csv", "--kind", kind, "--out", f"c{number}", *GERMAN, "--thousands", ".", *(["--columns", "text=text"] if names else [])]
        if turn_here(tool, words):
            count.case([] if not os.path.exists(f"c{number}") else f"change {number} left something")
            continue
        good += 1
        files = files_in(f"c{number}")
        entries = readers.read_manifest(files.pop("manifest.csv"))[0]
        batches = [readers.read_batch(kind, names, (1900, 2199), files[f"{name}.csv"]) for _, name, _ in entries]
        equal(f"change {number}", ([fault for _, fault in batches if fault], len(entries)), ([], len(files)))
    count.case([] if 100 < good < 1400 else f"{good} of 1500 changed exports are good")
    count.case([] if not [it for it in os.listdir(".") if it.startswith(".")] else "something is left beside the folders")


def main():
    german_till()
    french_till()
    products_of_an_old_till()
    several_shops()
    voids()
    numbers()
    faults()
    further_faults()
    wrong_words()
    example_of_the_help()
    most_records()
    most_bytes()
    year()
    changed_exports()


main()
count.end()
