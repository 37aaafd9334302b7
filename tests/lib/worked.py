"""The warehouse of worked rows, sixteen and then those of its upgrade and of a void, and how a script runs the program over it and reads its file. The scripts in
Python share it.

`WORDS` are what is asked of one warehouse `w`, row after row, each with the lines that it prints. They were worked out by hand from the rules of
docs/, and so were all that the scripts compare with. `FILES` are the policies and batches that the words name.
"""

import os
import shutil
import sqlite3
import subprocess
import sys
import tempfile

POLICY = """\
first_year = 2023
last_year = 2026
[[product]]
name = "description"
type = 1
[[product]]
name = "brand"
type = 2
[[product]]
name = "category"
type = 6
[[product]]
name = "department"
type = 7
[[product]]
name = "launched"
type = 0
[[product]]
name = "supplier"
type = 3
[[store]]
name = "city"
type = 2
[[customer]]
name = "tier"
type = 2
[[customer]]
name = "age_band"
type = 5
[[customer]]
name = "spend_band"
type = 5
[[holiday]]
day = "2024-12-25"
name = "Christmas Day"
"""

# the tables in the order in which they are judged, with their columns; the first so many are the key
DIMENSION = "surrogate durable natural from_day to_day is_current a1 a2 a3 a4 a5 a6 b1 b2 b3 b4 b5 b6 profile_now"
FACT = "ticket line day store_key product_key customer_key store_durable product_durable customer_durable profile quantity amount cost"
TABLES = {
    "meta": (1, "name value"),
    "command": (1, "number id kind bytes records placeholders"),
    "member": (2, "dim durable natural opening"),
    "change": (2, "command record dim durable day anchor v1 v2 v3 v4 v5 v6"),
    "product": (1, DIMENSION),
    "store": (1, DIMENSION),
    "customer": (1, DIMENSION),
    "profile": (1, "number v1 v2 v3 v4 v5 v6"),
    "calendar": (1, "date_key iso year quarter month day day_of_year weekday weekday_name weekend holiday"),
    "fact": (2, FACT),
    "fact2": (2, f"{FACT} discount"),
    "void": (2, "ticket line command"),
}
# those that an upgrade adds
SECOND = ("fact2", "void")

HEADERS = {
    "product": "id,day,description,brand,category,department,launched,supplier",
    "store": "id,day,city",
    "customer": "id,day,tier,age_band,spend_band",
    "sales": "ticket,line,day,store,product,customer,quantity,amount,cost",
    # those of the second format
    "sales2": "ticket,line,day,store,product,customer,quantity,amount,cost,discount",
    "void": "ticket,line",
}


def batch(kind, *records):
    return "".join(line + "\n" for line in (HEADERS[kind], *records)).encode()


C2 = batch("customer", "C9,2024-07-01,Gold,40-49,high")
BRAND, CATEGORY = '[[product]]\nname = "brand"\ntype = 2\n', '[[product]]\nname = "category"\ntype = 6\n'
FILES = {
    "policy": POLICY.encode(),
    "m1": POLICY.replace(BRAND, BRAND.replace("2", "1")).encode(),
    "m3": POLICY.replace(BRAND + CATEGORY, CATEGORY + BRAND).encode(),
    "m5": POLICY.replace(BRAND, BRAND.replace("2", "8")).encode(),
    "p0": batch("product"),
    "p00": b"",
    "p1": batch("product", "P1,2024-01-10,Cola 1l,Acme,Drinks,Grocery,2019,North"),
    "p2": batch("product", "P1,2024-02-01,Cola 1l,Bolt,Drinks,Grocery,2019,North"),
    "p3": batch("product", "P1,2024-01-20,Cola 1l,Bolt,Drinks,Grocery,2019,North"),
    "p4": batch("product", "P1,2024-02-01,Cola 1l,Cask,Drinks,Grocery,2019,North"),
    "p5": batch("product", "P1,2024-03-01,Cola 1 l,Cask,Drinks,Grocery,2019,North"),
    "p6": batch("product", "P1,2024-04-01,Cola 1 l,Cask,Soft drinks,Grocery,2019,North"),
    "p7": batch("product", "P1,2024-06-01,Cola 1 l,Cask,Soft drinks,Grocery,2021,South"),
    "p8": batch("product", "P1,2024-05-01,Cola 1 l,Cask,Soft drinks,Grocery,2019,East"),
    "p9": batch("product", "P9,2024-06-05,Tea 50,Leaf,Drinks,Grocery,2024,North"),
    "p10": batch("product", "P1,2024-02-01,Cola 1 l,Dash,Drinks,Grocery,2019,North"),
    "s1": batch("sales", "T1,1,2024-02-05,S1,P1,,2,5.00,3.20", "T0,1,2023-12-31,S1,P1,,1,2.5,1.60"),
    "s2": batch("sales", "T2,1,2024-06-10,S1,P9,C9,1,10.00,7.00"),
    "s3": batch("sales", "T3,1,2024-07-02,S1,P1,,1,2.50,1.60", "T2,1,2024-07-02,S1,P1,,1,2.50,1.60"),
    "s4": batch("sales", "T4,1,2024-02-29,S1,P1,,1,2.50,1.60"),
    "s6": batch("sales", "T4,2,2023-02-29,S1,P1,,1,2.50,1.60"),
    "s7": batch("sales", "T4,2,2027-01-01,S1,P1,,1,2.50,1.60"),
    "c1": batch("customer", "C9,2024-06-08,Gold,30-39,high"),
    "c2": C2,
    "c3": b"\xef\xbb\xbf" + C2.replace(b"\n", b"\r\n"),
    "c4": batch("customer", f"C8,2024-07-01,{60 * 'x'},,"),
    "c5": batch("customer", f"C8,2024-07-01,{61 * 'x'},,"),
    "d5": batch("sales2", "T5,1,2024-07-05,S1,P1,C9,2,5.00,3.20,0.5"),
    "d6": batch("sales2", "T6,1,2024-07-05,S1,P1,C9,2,5.00,3.20,0", "T6,2,2024-07-05,S1,P1,C9,2,5.00,3.20,-0.5"),
    "d7": batch("sales2", "T6,1,2024-07-05,S1,P1,C9,2,5.00,3.20,12345678"),
    "d8": batch("sales2", "T6,1,2024-07-05,S1,P1,C9,2,5.00,3.20,9999999.99", "T1,1,2024-02-05,S1,P1,,2,5.00,3.20,0"),
    "d9": batch("sales2", "T1,1,2024-02-05,S1,P1,,2,5.00,3.20,0"),
    "v1": batch("void", "T1,1"),
    "v2": batch("void", "T2,1", "T1,01"),
    "v3": batch("void", "T4,1", "T2,0001", "T1,10"),
    "v4": batch("void", "T2,1", "T2,0001"),
    "v5": batch("void", "T2,0"),
}
FILES["p1-longer"] = FILES["p1"] + b"\n"

# the products after row 8, but for their brands
PRODUCTS = """\
1,1,P1,19000101,20240119,0,Cola 1 l,Acme,Drinks,Grocery,2019,South,,,Soft drinks,,,East,0
3,1,P1,20240201,20240331,0,Cola 1 l,Cask,Drinks,Grocery,2019,South,,,Soft drinks,,,East,0
4,1,P1,20240120,20240131,0,Cola 1 l,Bolt,Drinks,Grocery,2019,South,,,Soft drinks,,,East,0
6,1,P1,20240401,99991231,1,Cola 1 l,Cask,Soft drinks,Grocery,2019,South,,,Soft drinks,,,East,0
"""
# the facts that row 17 carries into the second table, those after row 18, and the lines of the plan of row 17
CARRIED = """\
T0,1,20231231,1,1,0,1,1,0,0,1,250,160,0
T1,1,20240205,1,3,0,1,1,0,0,2,500,320,0
T2,1,20240610,1,9,1,1,2,1,2,1,1000,700,0
T4,1,20240229,1,3,0,1,1,0,0,1,250,160,0
"""
DISCOUNTED = CARRIED + "T5,1,20240705,1,6,1,1,1,1,3,2,500,320,50"
# those that stand after row 20
STANDING = DISCOUNTED.replace("T1,1,20240205,1,3,0,1,1,0,0,2,500,320,0\n", "")
MOVED = "remove fact T0 1\nremove fact T1 1\nremove fact T2 1\nremove fact T4 1\nput fact2 T0 1\nput fact2 T1 1\nput fact2 T2 1\nput fact2 T4 1\n"
REPORT = "   lines   quantity         amount           cost         margin  label\n"
TOTAL = "       4          5          20.00          13.40           6.60  total\n"
BY_AGE = """\
       2          3           7.50           4.80           2.70  (no card)
       1          1          10.00           7.00           3.00  30-39
       3          4          17.50          11.80           5.70  total
"""
DAYS = "2023-01-01 2026-12-31"

# row, words, what they print; of a dump without its header
WORDS = [
    (1, "init w policy", "accepted 1 init: 0 records, 0 placeholders"),
    (1, "init w policy", "refused: E11 not empty"),
    (1, "load w product p0 p0", "accepted 2 p0: 0 records, 0 placeholders"),
    (1, "load w product p00 p00", "refused: E3 batch, B2 wrong header, record 0"),
    (1, "explain w product p00", """\
refused: E3 batch, B2 wrong header, record 0
line 1, column 1 "id": nothing stands there
wanted: id,day,description,brand,category,department,launched,supplier
there: nothing"""),
    (2, "explain w store", """\
id,day,city
column 1 "id": 1 to 32 letters A-Z or a-z, digits, -, _ and .
column 2 "day": a day as YYYY-MM-DD, from 1900-01-01 to 2199-12-31
column 3 "city": nothing, or up to 60 bytes of UTF-8 without control characters and without ( in front
a batch has at most 5000 records and 1000000 bytes"""),
    (2, "load w product p1 p1", "accepted 3 p1: 1 records, 0 placeholders"),
    (2, "load w product p2 p2", "accepted 4 p2: 1 records, 0 placeholders"),
    (2, "dump w product", """\
1,1,P1,19000101,20240131,0,Cola 1l,Acme,Drinks,Grocery,2019,North,,,Drinks,,,(none),0
3,1,P1,20240201,99991231,1,Cola 1l,Bolt,Drinks,Grocery,2019,North,,,Drinks,,,(none),0"""),
    (3, "load w sales s1 s1", "accepted 5 s1: 2 records, 1 placeholders"),
    (3, "dump w fact", "T0,1,20231231,1,1,0,1,1,0,0,1,250,160\nT1,1,20240205,1,3,0,1,1,0,0,2,500,320"),
    (4, "plan w product p3 p3", "put command 6\nput change 6 1\nput product 1\nremove product 3\nput product 4\nrekey fact T1 1\nedits 6"),
    (4, "load w product p3 p3", "accepted 6 p3: 1 records, 0 placeholders"),
    (4, "dump w product", """\
1,1,P1,19000101,20240119,0,Cola 1l,Acme,Drinks,Grocery,2019,North,,,Drinks,,,(none),0
4,1,P1,20240120,99991231,1,Cola 1l,Bolt,Drinks,Grocery,2019,North,,,Drinks,,,(none),0"""),
    (4, "dump w fact", "T0,1,20231231,1,1,0,1,1,0,0,1,250,160\nT1,1,20240205,1,4,0,1,1,0,0,2,500,320"),
    (5, "load w product p4 p4", "accepted 7 p4: 1 records, 0 placeholders"),
    (5, "dump w product", """\
1,1,P1,19000101,20240119,0,Cola 1l,Acme,Drinks,Grocery,2019,North,,,Drinks,,,(none),0
3,1,P1,20240201,99991231,1,Cola 1l,Cask,Drinks,Grocery,2019,North,,,Drinks,,,(none),0
4,1,P1,20240120,20240131,0,Cola 1l,Bolt,Drinks,Grocery,2019,North,,,Drinks,,,(none),0"""),
    (5, "dump w fact", "T0,1,20231231,1,1,0,1,1,0,0,1,250,160\nT1,1,20240205,1,3,0,1,1,0,0,2,500,320"),
    (6, "plan w product p5 p5", "put command 8\nput change 8 1\nput product 1\nput product 3\nput product 4\nedits 5"),
    (6, "load w product p5 p5", "accepted 8 p5: 1 records, 0 placeholders"),
    (7, "load w product p6 p6", "accepted 9 p6: 1 records, 0 placeholders"),
    (7, "dump w product", """\
1,1,P1,19000101,20240119,0,Cola 1 l,Acme,Drinks,Grocery,2019,North,,,Soft drinks,,,(none),0
3,1,P1,20240201,20240331,0,Cola 1 l,Cask,Drinks,Grocery,2019,North,,,Soft drinks,,,(none),0
4,1,P1,20240120,20240131,0,Cola 1 l,Bolt,Drinks,Grocery,2019,North,,,Soft drinks,,,(none),0
6,1,P1,20240401,99991231,1,Cola 1 l,Cask,Soft drinks,Grocery,2019,North,,,Soft drinks,,,(none),0"""),
    (8, "load w product p7 p7", "accepted 10 p7: 1 records, 0 placeholders"),
    (8, "dump w product", PRODUCTS.replace("East", "North")),
    (8, "load w product p8 p8", "accepted 11 p8: 1 records, 0 placeholders"),
    (8, "dump w product", PRODUCTS),
    (9, "plan w sales s2 s2", "put command 12\nput member 1 2\nput member 3 1\nput product 9\nput customer 1\nput fact T2 1\nedits 6"),
    (9, "explain w sales s2", """\
would be accepted: 1 records, 2 placeholders
mentioned for the first time: product P9
mentioned for the first time: customer C9"""),
    (9, "load w sales s2 s2", "accepted 12 s2: 1 records, 2 placeholders"),
    (9, "dump w product", PRODUCTS + "9,2,P9,19000101,99991231,1,(unknown),(unknown),(unknown),(unknown),(unknown),(unknown),,,(unknown),,,(none),0"),
    (9, "dump w customer", "0,0,(no card),19000101,99991231,1,(no card),,,,,,,,,,,,0\n1,1,C9,19000101,99991231,1,(unknown),,,,,,,,,,,,1"),
    (9, "dump w fact", "T0,1,20231231,1,1,0,1,1,0,0,1,250,160\nT1,1,20240205,1,3,0,1,1,0,0,2,500,320\nT2,1,20240610,1,9,1,1,2,1,1,1,1000,700"),
    (10, "load w product p9 p9", "accepted 13 p9: 1 records, 0 placeholders"),
    (10, "plan w customer c1 c1", "put command 14\nput change 14 1\nput customer 1\nput profile 2\nrekey fact T2 1\nedits 5"),
    (10, "load w customer c1 c1", "accepted 14 c1: 1 records, 0 placeholders"),
    (10, "dump w profile", "0,,(no card),(no card),,,\n1,,(unknown),(unknown),,,\n2,,30-39,high,,,"),
    (11, "load w customer c2 c2", "accepted 15 c2: 1 records, 0 placeholders"),
    (11, "dump w fact", "T0,1,20231231,1,1,0,1,1,0,0,1,250,160\nT1,1,20240205,1,3,0,1,1,0,0,2,500,320\nT2,1,20240610,1,9,1,1,2,1,2,1,1000,700"),
    (11, f"report w customer.age_band was {DAYS}", f"report customer.age_band was {DAYS}\n{REPORT}{BY_AGE}"),
    (11, f"report w customer.age_band is {DAYS}", f"report customer.age_band is {DAYS}\n{REPORT}{BY_AGE.replace('30-39', '40-49')}"),
    (12, "plan w migrate m1 m1", "put command 16\nput product 1\nremove product 3\nremove product 4\nrekey fact T1 1\nedits 5"),
    (12, "migrate w m1 m1", "accepted 16 m1: 0 records, 0 placeholders"),
    (12, "dump w product", """\
1,1,P1,19000101,20240331,0,Cola 1 l,Cask,Drinks,Grocery,2019,South,,,Soft drinks,,,East,0
6,1,P1,20240401,99991231,1,Cola 1 l,Cask,Soft drinks,Grocery,2019,South,,,Soft drinks,,,East,0
9,2,P9,19000101,99991231,1,Tea 50,Leaf,Drinks,Grocery,2024,North,,,Drinks,,,(none),0"""),
    (12, "migrate w m2 policy", "accepted 17 m2: 0 records, 0 placeholders"),
    (12, "dump w product", PRODUCTS + "9,2,P9,19000101,99991231,1,Tea 50,Leaf,Drinks,Grocery,2024,North,,,Drinks,,,(none),0"),
    (12, "migrate w m3 m3", "refused: E5 policy does not fit"),
    (12, "explain w migrate m3", """\
refused: E5 policy does not fit
product: attribute 2 "brand" has to stay in its place; "category" stands there
product: attribute 3 "category" has to stay in its place; "brand" stands there"""),
    (12, "explain w migrate m5", """\
refused: E4 policy, P5 bad type
[[product]] number 2, key "type": the number 8 stands there; a type is a whole number from 0 to 7, without quotes"""),
    (13, "load w product p1 p1", "already 3 p1: 1 records, 0 placeholders"),
    (13, "load w product p1 p1-longer", "refused: E2 id reused"),
    (13, "load w sales s3 s3", "refused: E6 line there, record 2"),
    (13, "explain w sales s3", """\
refused: E6 line there, record 2
line 3: ticket T2, line 1: sold by command 12, s2, on 2024-06-10 in S1; a line is sold once"""),
    (14, "load w sales s4 s4", "accepted 18 s4: 1 records, 0 placeholders"),
    (14, "load w sales s6 s6", "refused: E3 batch, B5 bad day, record 1"),
    (14, "explain w sales s6", """\
refused: E3 batch, B5 bad day, record 1
line 2, column 3 "day": '2023-02-29' is no real day; wanted: a day as YYYY-MM-DD"""),
    (14, "load w sales s7 s7", "refused: E3 batch, B9 outside calendar, record 1"),
    (14, "dump w fact", "T0,1,20231231,1,1,0,1,1,0,0,1,250,160\nT1,1,20240205,1,3,0,1,1,0,0,2,500,320\nT2,1,20240610,1,9,1,1,2,1,2,1,1000,700\nT4,1,20240229,1,3,0,1,1,0,0,1,250,160"),
    (15, f"report w product.brand is {DAYS}", "refused: G2 no reading, type 2 is"),
    (15, f"report w product.category was {DAYS}", f"report product.category was {DAYS}\n{REPORT}{TOTAL.replace('total', 'Drinks')}{TOTAL}"),
    (15, f"report w product.category is {DAYS}", f"""\
report product.category is {DAYS}
{REPORT}       1          1          10.00           7.00           3.00  Drinks
       3          4          10.00           6.40           3.60  Soft drinks
{TOTAL}"""),
    (15, "report w product.category is 2025-01-01 2025-12-31", f"""\
report product.category is 2025-01-01 2025-12-31
{REPORT}       0          0           0.00           0.00           0.00  total"""),
    (15, f"query w {DAYS} product.brand date.month --where product.brand=Cask --where product.brand:was=Acme", """\
product.brand:was,date.month,lines,quantity,amount,cost,margin
Acme,2023-12,1,1,2.50,1.60,0.90
Cask,2024-02,2,3,7.50,4.80,2.70"""),
    (15, f"query w {DAYS} date.month product.brand:is", "refused: G2 no reading, type 2 is"),
    (16, "plan w customer c3 c3", "put command 19\nput change 19 1\nedits 2"),
    (16, "load w customer c3 c3", "accepted 19 c3: 1 records, 0 placeholders"),
    (16, "load w customer c4 c4", "accepted 20 c4: 1 records, 0 placeholders"),
    (16, "load w customer c5 c5", "refused: E3 batch, B6 bad value, record 1"),
    (16, "load w void v1 v1", "refused: E3 batch, B10 not in format, record 0"),
    (16, "load w void v1 p00", "refused: E3 batch, B10 not in format, record 0"),
    (16, "records w customer", f"id,day,tier,age_band,spend_band\nC9,2024-06-08,Gold,30-39,high\nC9,2024-07-01,Gold,40-49,high\nC8,2024-07-01,{60 * 'x'},,"),
    (16, "check w", "clean"),
    (16, "status w", "format 1\ncommands 20\nchanges 13\nfacts 4\nmembers product 2 store 1 customer 2"),
    (17, "dump w fact2", ""),
    (17, "dump w void", ""),
    (17, "upgrade w u/1", "refused: E1 bad id"),
    (17, "upgrade w s1", "refused: E2 id reused"),
    (17, "plan w upgrade u1 none", f"put meta format\nput command 21\n{MOVED}edits 10"),
    (17, "upgrade w u1", "accepted 21 u1: 0 records, 0 placeholders"),
    (17, "upgrade w u1", "already 21 u1: 0 records, 0 placeholders"),
    (17, "plan w upgrade u1 none", "edits 0"),
    (17, "upgrade w u2", "refused: E6 format, 2"),
    (17, "plan w upgrade u2 none", "refused: E6 format, 2"),
    (17, "load w product u1 p1", "refused: E2 id reused"),
    (17, "dump w meta", "changes_max,1000000\ncommands_max,100000\nfacts_max,1000000\nformat,2"),
    (17, "dump w fact", ""),
    (17, "dump w fact2", CARRIED),
    (17, "status w", "format 2\ncommands 21\nchanges 13\nfacts 4\nmembers product 2 store 1 customer 2"),
    (18, "load w sales s5 s4", "refused: E3 batch, B2 wrong header, record 0"),
    (18, "load w sales s5 d6", "refused: E3 batch, B7 bad number, record 2"),
    (18, "load w sales s5 d7", "refused: E3 batch, B7 bad number, record 1"),
    (18, "load w sales s5 d8", "refused: E6 line there, record 2"),
    (18, "plan w sales s5 d5", "put command 22\nput fact2 T5 1\nedits 2"),
    (18, "load w sales s5 d5", "accepted 22 s5: 1 records, 0 placeholders"),
    (18, "dump w fact2", DISCOUNTED),
    (18, "dump w fact", ""),
    (18, "dump w void", ""),
    (19, "load w sales s1 s1", "already 5 s1: 2 records, 1 placeholders"),
    (19, "plan w migrate m4 m1", "put command 23\nput product 1\nremove product 3\nremove product 4\nrekey fact2 T1 1\nrekey fact2 T4 1\nedits 6"),
    (19, f"report w date.month was {DAYS}", f"""\
report date.month was {DAYS}
{REPORT}       1          1           2.50           1.60           0.90  2023-12
       2          3           7.50           4.80           2.70  2024-02
       1          1          10.00           7.00           3.00  2024-06
       1          2           5.00           3.20           1.80  2024-07
       5          7          25.00          16.60           8.40  total"""),
    (19, "check w", "clean"),
    (19, "status w", "format 2\ncommands 22\nchanges 13\nfacts 5\nmembers product 2 store 1 customer 2"),
    (20, "load w void v1 p00", "refused: E3 batch, B2 wrong header, record 0"),
    (20, "load w void v1 v4", "refused: E3 batch, B8 twice in batch, record 2"),
    (20, "load w void v1 v5", "refused: E3 batch, B7 bad number, record 1"),
    (20, "load w void v1 v3", "refused: E6 no line, record 3"),
    (20, "load w void s1 v1", "refused: E2 id reused"),
    (20, "plan w void v1 v1", "put command 23\nremove fact2 T1 1\nput void T1 1\nedits 3"),
    (20, "load w void v1 v1", "accepted 23 v1: 1 records, 0 placeholders"),
    (20, "dump w fact2", STANDING),
    (20, "dump w void", "T1,1,23"),
    (20, f"report w date.month was {DAYS}", f"""\
report date.month was {DAYS}
{REPORT}       1          1           2.50           1.60           0.90  2023-12
       1          1           2.50           1.60           0.90  2024-02
       1          1          10.00           7.00           3.00  2024-06
       1          2           5.00           3.20           1.80  2024-07
{TOTAL}"""),
    (20, f"query w {DAYS} customer.age_band product.category:is --where store.city=(unknown)", """\
customer.age_band:was,product.category:is,lines,quantity,amount,cost,margin
(no card),Soft drinks,2,2,5.00,3.20,1.80
30-39,Drinks,1,1,10.00,7.00,3.00
40-49,Soft drinks,1,2,5.00,3.20,1.80"""),
    (20, f"query w {DAYS} store.city --where store.city=Bern", "store.city:was,lines,quantity,amount,cost,margin"),
    (20, "records w product 6", f"{HEADERS['product']}\nP1,2024-06-01,Cola 1 l,Cask,Soft drinks,Grocery,2021,South\nP9,2024-06-05,Tea 50,Leaf,Drinks,Grocery,2024,North"),
    (20, "load w void v2 v1", "refused: E6 no line, record 1"),
    (20, "load w void v2 v2", "refused: E6 no line, record 2"),
    (20, "plan w void v2 v2", "refused: E6 no line, record 2"),
    (20, "load w sales s6 d9", "refused: E6 line there, record 1"),
    (20, "load w sales s6 d8", "refused: E6 line there, record 2"),
    (20, "load w void v1 v1", "already 23 v1: 1 records, 0 placeholders"),
    (20, "plan w void v1 v1", "edits 0"),
    (20, "load w sales v1 v1", "refused: E2 id reused"),
    (20, "plan w product p10 p10", "put command 24\nput change 24 1\nput product 3\nput product 5\nedits 4"),
    (20, "plan w migrate m4 m1", "put command 24\nput product 1\nremove product 3\nremove product 4\nrekey fact2 T4 1\nedits 5"),
    (20, "check w", "clean"),
    (20, "status w", "format 2\ncommands 23\nchanges 13\nfacts 4\nmembers product 2 store 1 customer 2"),
]


def own_folder():
    """A folder of the script's own, in memory where the system has a place for that: each run syncs its files, and a disk takes long for it."""
    return tempfile.TemporaryDirectory(dir="/dev/shm" if os.access("/dev/shm", os.W_OK) else None)


def write_files(folder):
    for name, content in FILES.items():
        with open(f"{folder}/{name}", "wb") as file:
            file.write(content)


class Answer:
    """What a run printed, and how it ended: its status, or less than 0 where a signal ended it."""

    def __init__(self, text, status):
        self.text, self.status = text, status

    def __eq__(self, other):
        return (self.text, self.status) == (other.text, other.status)

    def __repr__(self):
        return f"status {self.status} and {self.text.decode(errors='replace')!r}"

    def line(self):
        return self.text.decode(errors="replace").rstrip("\n")


def said(lines):
    """The answer of these lines, with the status that belongs to them."""
    first = lines.split(" ", 1)[0]
    status = {"refused:": 2, "failed:": 3, "wrong:": 3}.get(first, 0)
    return Answer((lines.rstrip("\n") + "\n").encode(), status)


def expected(words, lines):
    """The answer to words of `WORDS`."""
    if words.startswith("dump "):
        lines = ",".join(TABLES[words.split()[2]][1].split()) + "\n" + lines
    return said(lines)


def printed(row, words):
    """The lines that words of a row print at last."""
    return next(lines for at, asked, lines in reversed(WORDS) if (at, asked) == (row, words))


def without_file(words):
    """Words as a session's line has them."""
    first, _, *rest = words.split(" ")
    return " ".join([first, *rest])


def answers_in(text):
    """The answers that a session printed, and what stands behind the line of the last status."""
    answers, so_far = [], b""
    for line in text.splitlines(True):
        if line.startswith(b"status ") and line.endswith(b"\n"):
            answers.append(Answer(so_far, int(line.split()[1])))
            so_far = b""
        else:
            so_far += line
    return answers, so_far


def run(program, folder, words, told=b"", **environment):
    """Runs the program in a folder, with what it is told on its standard input; it is ended, and the script with it, where it takes 20 seconds."""
    words = words.split(" ") if isinstance(words, str) else words
    done = subprocess.run(
        [program, *words], cwd=folder, input=told, stdout=subprocess.PIPE, stderr=subprocess.DEVNULL, timeout=20,
        env={**os.environ, **environment} if environment else None,
    )
    return Answer(done.stdout, done.returncode)


def make_worked(program, folder, until=16, since=1):
    """Makes the warehouse `w` as it is after a row, by the words of the rows that write, and sees that each is answered as it should be; with `since` from
    what it is before that row."""
    for row, words, lines in WORDS:
        if since <= row <= until and words.split()[0] in ("init", "load", "migrate", "upgrade"):
            answer = run(program, folder, words)
            if answer != expected(words, lines):
                sys.exit(f"row {row}, {words}: {answer}")


class Text(bytes):
    """A text as it is stored, whatever its bytes."""

    def __repr__(self):
        return f"Text({super().__repr__()})"


def connected(path):
    base = sqlite3.connect(path, isolation_level=None)
    base.text_factory = Text
    return base


def columns_in(base, table):
    """The columns that a table has in a file; none where it isn't there."""
    return [bytes(name).decode() for _, name, *_ in base.execute(f"PRAGMA table_info({table})")]


def rows_of(path):
    """The rows of the tables that are there with their columns, in order of their keys: ten, and twelve after an upgrade."""
    base = connected(path)
    try:
        there = [table for table, (_, columns) in TABLES.items() if columns_in(base, table) == columns.split()]
        return {table: base.execute(f"SELECT * FROM {table} ORDER BY {', '.join(TABLES[table][1].split()[: TABLES[table][0]])}").fetchall() for table in there}
    finally:
        base.close()


def same(one, other):
    """Whether two rows, or tables, or all tables are the same, 1 and 1.0 and a text and its bytes being two."""
    return one is other or repr(one) == repr(other)


def copy(path, to):
    """Copies a warehouse that no run uses, its log with it."""
    for end in ("", "-wal"):
        if os.path.exists(to + end):
            os.remove(to + end)
        if os.path.exists(path + end):
            shutil.copyfile(path + end, to + end)
    if os.path.exists(to + "-shm"):
        os.remove(to + "-shm")


class Count:
    """How many of a script's cases passed; those that didn't are told."""

    def __init__(self):
        self.passed = self.failed = 0

    def case(self, faults):
        if faults:
            self.failed += 1
            print(faults if isinstance(faults, str) else "\n".join(faults), flush=True)
        else:
            self.passed += 1

    def end(self):
        print(f"{self.passed} passed, {self.failed} failed")
        sys.exit(1 if self.failed else 0)
