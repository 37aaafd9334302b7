#!/usr/bin/env python3
"""Times `wh-mirror --chain` on three servers: twelve files of N sales, a month of 2024 each (build the program first: `rt run` in crates/wh).
chain_mirror.py N DSN DSN DSN [PROGRAM]: the connection strings name empty databases of a superuser, the first of which gets the chain's views.

The files aren't delivered but written by SQLite, as `wh` would make them (12 x N sales would take it an hour): `--small` has `wh check` look
at one of 500 sales. Then come the first mirror, one of nothing new, one of a night of 5,000 sales in the newest file, and five questions,
each asked three times (the least time counts), of the chain and of one plain table with the same rows and indexes on the day and the ticket.
Prints seconds by the clock, and of processor time, that of the servers included, which have to be on this machine; and which files a plan reaches."""
import os
import re
import resource
import shutil
import sqlite3
import subprocess
import sys
import tempfile
import time

import deliver

TOP = os.path.join(os.path.dirname(os.path.abspath(__file__)), "..")
MONTHS, STORES = range(1, 13), 50

PLAIN = """
CREATE TABLE plain AS SELECT was.*, now.product_category AS product_category_now FROM wh.sales_as_was AS was
JOIN (SELECT DISTINCT product, product_category FROM wh.sales_as_is WHERE file = 'wh_2024_12') AS now USING (product);
CREATE INDEX ON plain (day);
CREATE INDEX ON plain (ticket, line);
VACUUM ANALYZE plain;
"""
YEAR = "SELECT label, sum(amount) FROM (SELECT file, {} AS label, sum(amount) AS amount FROM wh.{} GROUP BY file, label) AS by_file GROUP BY label"
ALL = "SELECT {}, sum(amount) FROM {} GROUP BY 1"
BRANDS_OF_JUNE = "SELECT product_brand, sum(amount) FROM {} WHERE day BETWEEN 20240601 AND 20240630 GROUP BY 1"
A_TICKET = "SELECT product, amount FROM {} WHERE ticket = 'T06000000001'"
# what is asked of the chain, and of the plain table; the sums by file are each server's own
QUESTIONS = {
    "a month by brand": (BRANDS_OF_JUNE.format("wh.sales_as_was"), BRANDS_OF_JUNE.format("plain")),
    "the year by brand": (YEAR.format("product_brand", "sales_as_was"), ALL.format("product_brand", "plain")),
    "the year by brand, not grouped by file": (ALL.format("product_brand", "wh.sales_as_was"), ALL.format("product_brand", "plain")),
    "the year by category as is": (YEAR.format("product_category", "sales_as_is"), ALL.format("product_category_now", "plain")),
    "the months": ("SELECT month, amount FROM wh.sales_by_month", ALL.format("month", "plain")),
    "a ticket": (A_TICKET.format("wh.sales_as_was"), A_TICKET.format("plain")),
}

# the processes that a server has for no session
SERVERS_OWN = re.compile(r"postgres: (?:[^ ]+: )?(?:archiver|autovacuum|background|checkpointer|logical|startup|stats|walwriter)")


class File:
    """A warehouse that is written without `wh`, but for its first command."""

    def __init__(self, path, products=8000, customers=2000):
        self.database = sqlite3.connect(path)
        self.database.execute("PRAGMA synchronous = off")
        self.products, self.customers = products, customers
        self.commands, self.batches = self.database.execute("SELECT max(number), count(*) FILTER (WHERE kind = 'sales') FROM command").fetchone()

    def begin(self):
        """The records of all members."""
        self.database.execute("INSERT INTO profile VALUES (2, '', '', '', '', '', '')")
        self.records(1, "product", [f"P{it:06}" for it in range(self.products)], lambda it: (f"Item {it % 17}", f"Brand {it % 23}", f"Category {it % 11}", f"Department {it % 5}", "2019", "North"))
        self.records(2, "store", [f"S{it:02}" for it in range(STORES)], lambda it: (f"City {it % 7}",))
        self.records(3, "customer", [f"C{it:06}" for it in range(self.customers)], lambda it: (f"Tier {it % 4}",))

    def command(self, kind, text, records):
        self.commands += 1
        self.database.execute("INSERT INTO command VALUES (?, ?, ?, ?, ?, 0)", (self.commands, f"b{self.commands}", kind, text.encode(), records))

    def records(self, number, dimension, keys, values_of):
        """A record of each member; its opening has the number before that of its day."""
        header = {"product": "description,brand,category,department,launched,supplier", "store": "city", "customer": "tier"}[dimension]
        for first in range(0, len(keys), deliver.SIZE):
            some = range(first, min(first + deliver.SIZE, len(keys)))
            text = f"id,day,{header}\n" + "".join(f"{keys[it]},2024-01-01,{','.join(values_of(it))}\n" for it in some)
            self.command(dimension, text, len(some))
            for record, it in enumerate(some, 1):
                opening, given = 2 * it + 1, (*values_of(it), *[""] * 6)[:6]
                second = ("", "", given[2], "", "", "(none)") if dimension == "product" else [""] * 6
                self.database.execute("INSERT INTO member VALUES (?, ?, ?, ?)", (number, it + 1, keys[it], opening))
                self.database.execute("INSERT INTO change VALUES (?, ?, ?, ?, 20240101, ?, ?, ?, ?, ?, ?, ?)", (self.commands, record, number, it + 1, opening + 1, *given))
                self.database.execute(f"INSERT INTO {dimension} VALUES ({', '.join('?' * 19)})", (opening, it + 1, keys[it], 19000101, 99991231, 1, *given, *second, 0))

    def sell(self, month, sales):
        """Batches of sales of a month, every third one with a card."""
        for first in range(0, sales, deliver.SIZE):
            lines, facts = ["ticket,line,day,store,product,customer,quantity,amount,cost\n"], []
            for number in range(first, min(first + deliver.SIZE, sales)):
                product, store = (number * 1777 + self.batches * 31) % self.products, number % STORES
                card = (number * 31 + self.batches) % self.customers if number % 3 == 0 else None
                ticket, line, day = f"T{month:02}{self.batches:03}{number // 4:06}", number % 4 + 1, number % 28 + 1
                quantity, amount, cost = number % 9 + 1, (number % 90 + 10) * 100 + 50, (number % 60 + 5) * 100 + 25
                key = "" if card is None else f"C{card:06}"
                lines.append(f"{ticket},{line},2024-{month:02}-{day:02},S{store:02},P{product:06},{key},{quantity},{amount // 100}.50,{cost // 100}.25\n")
                customer, durable, profile = (0, 0, 0) if card is None else (2 * card + 1, card + 1, 2)
                facts.append((ticket, line, 20240000 + month * 100 + day, 2 * store + 1, 2 * product + 1, customer, store + 1, product + 1, durable, profile, quantity, amount, cost))
            self.command("sales", "".join(lines), len(facts))
            self.database.executemany(f"INSERT INTO fact VALUES ({', '.join('?' * 13)})", facts)
            self.batches += 1

    def close(self):
        self.database.commit()
        self.database.close()


class Servers:
    """The processor time of what servers do for sessions, by their first processes, which count their children's once these have ended."""

    def __init__(self, dsns):
        self.pids = [int(psql(dsn, "SELECT pg_read_file('postmaster.pid')").split()[0]) for dsn in dsns]

    def are_serving(self):
        """Whether a session, or a worker of one, hasn't ended yet."""
        children = [child for pid in self.pids for child in read_proc(f"{pid}/task/{pid}/children").split()]
        return not all(SERVERS_OWN.match(read_proc(f"{child}/cmdline") or "postgres: startup") for child in children)

    def spent(self):
        """Seconds of processor time, those of the commands that were run included."""
        while self.are_serving():
            time.sleep(0.05)
        ticks = sum(int(it) for pid in self.pids for it in read_proc(f"{pid}/stat").rpartition(")")[2].split()[11:15])
        here = resource.getrusage(resource.RUSAGE_CHILDREN)
        return ticks / os.sysconf("SC_CLK_TCK") + here.ru_utime + here.ru_stime


def read_proc(name):
    """A file of the system's on a process; nothing where the process has ended."""
    try:
        with open(f"/proc/{name}", encoding="utf-8", errors="replace") as file:
            return file.read()
    except OSError:
        return ""


def run(*words):
    """What a command prints; it has to succeed."""
    done = subprocess.run(words, capture_output=True, text=True)
    if done.returncode:
        sys.exit(done.stdout + done.stderr)
    return done.stdout


def timed(servers, what, *words):
    """Prints what a command takes."""
    before, began = servers.spent(), time.time()
    run(*words)
    clock = time.time() - began
    print(f"{what}: {clock:.1f} s by the clock, {servers.spent() - before:.1f} s of processor time", flush=True)


def small(program):
    """A small file of the same kind has to be what its commands define."""
    with tempfile.TemporaryDirectory() as folder:
        path = os.path.join(folder, "small.wh")
        run(program, "init", path, deliver.POLICY)
        file = File(path, products=40, customers=30)
        file.begin()
        file.sell(3, 500)
        file.close()
        print(run(program, "check", path), end="")


def write_files(folder, program, sales):
    """The paths of the files."""
    empty = os.path.join(folder, "empty")
    run(program, "init", empty, deliver.POLICY)
    paths = [os.path.join(folder, f"2024-{month:02}.wh") for month in MONTHS]
    for month, path in zip(MONTHS, paths):
        shutil.copyfile(empty, path)
        file = File(path)
        file.begin()
        file.sell(month, sales)
        file.close()
    return paths


def words_of_psql(dsn, *statements):
    return ["psql", "-d", dsn, "-XAtq", "-v", "ON_ERROR_STOP=1", *(word for text in statements for word in ("-c", text))]


def psql(dsn, *statements):
    return run(*words_of_psql(dsn, *statements))


def by_file(question):
    return f"SET enable_partitionwise_aggregate = {'on' if 'by_file' in question else 'off'}"


def ask(servers, dsn, question):
    """The rows of a question, and its least times of three: by the clock, and of processor time."""
    answers, spent = [], []
    for _ in range(3):
        before = servers.spent()
        answers.append(psql(dsn, by_file(question), "\\timing on", question).splitlines())
        spent.append(servers.spent() - before)
    return sorted(answers[0][:-1]), min(float(answer[-1].split()[1]) / 1000 for answer in answers), min(spent)


def reached(dsn, question):
    """Which files a plan reaches, and how many of them while it reaches others."""
    plan = psql(dsn, by_file(question), f"EXPLAIN VERBOSE {question}")
    files = sorted(set(re.findall(r"(?:on|from|FROM) (?:wh\.)?(wh_2024_\d\d)", plan)))
    return f"{len(files)} files, {plan.count('Async Foreign Scan')} of them at once with others"


def mirrors(servers, paths, dsns):
    """The mirrors, with a night between two of them."""
    on = [word for place, path in enumerate(paths) for word in ("--on", f"{dsns[place % 3]}={path}")]
    words = [os.path.join(TOP, "mirror", "wh-mirror"), "--chain", dsns[0], *paths, *on]
    timed(servers, "the first mirror", *words)
    timed(servers, "nothing new", *words)
    newest = File(paths[-1])
    newest.sell(12, deliver.SIZE)
    newest.close()
    timed(servers, f"a night of {deliver.SIZE} sales", *words)


def main():
    if sys.argv[1:2] == ["--small"]:
        small(sys.argv[2])
        return
    sales, dsns = int(sys.argv[1]), sys.argv[2:5]
    program = sys.argv[5] if len(sys.argv) > 5 else os.path.join(TOP, "crates", "wh", "out", "wh")
    servers = Servers(dsns)
    with tempfile.TemporaryDirectory() as folder:
        began = time.time()
        paths = write_files(folder, program, sales)
        print(f"12 files of {sales} sales are written: {time.time() - began:.1f} s, {sum(map(os.path.getsize, paths)) / 1e6:.0f} MB", flush=True)
        mirrors(servers, paths, dsns)
    timed(servers, "the plain table", *words_of_psql(dsns[0], *PLAIN.split(";")[:-1]))
    for what, (of_chain, of_plain) in QUESTIONS.items():
        rows, *chain = ask(servers, dsns[0], of_chain)
        plain_rows, *plain = ask(servers, dsns[0], of_plain)
        if rows != plain_rows:
            sys.exit(f"{what}: the answers differ")
        took = " ".join(f"{name} {clock:.2f} s by the clock, {spent:.2f} s of processor time;" for name, clock, spent in (("chain", *chain), ("plain", *plain)))
        print(f"{what}: {took} {reached(dsns[0], of_chain)}", flush=True)


if __name__ == "__main__":
    main()
