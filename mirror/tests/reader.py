"""Somebody who reads a mirror while it is written."""

import threading
import time

import psycopg
from shop import Shop

TOTALS = "SELECT commands, count(*), sum(amount)::text FROM wh.mirror, wh.sales_as_was GROUP BY commands"


def totals_of(shop: Shop) -> tuple[int, int, str]:
    """What a reader may find after a night: commands, lines and amount, as the program prints them."""
    total = shop.report("date.month", "was")[-1]
    return shop.status()["commands"], int(total.lines), total.amount


class Reader(threading.Thread):
    """Asks again and again, and keeps each answer; without a question of its own every other time in two statements of
    one snapshot."""

    def __init__(self, dsn: str, question: str | None = None) -> None:
        super().__init__()
        self._dsn = dsn
        self._question = question
        self._is_ended = threading.Event()
        self.answers: set[tuple | None] = set()
        self.fault: psycopg.Error | None = None
        self.times = 0

    def run(self) -> None:
        try:
            with psycopg.connect(self._dsn) as connection:
                while not self._is_ended.is_set():
                    self.times += 1
                    self.answers.add(self._ask_once(connection))
                    connection.rollback()
                    time.sleep(0.01)
        except psycopg.Error as error:
            self.fault = error

    def _ask_once(self, connection: psycopg.Connection) -> tuple | None:
        if self._question or self.times % 2:
            connection.isolation_level = psycopg.IsolationLevel.READ_COMMITTED
            return connection.execute((self._question or TOTALS).encode()).fetchone()
        connection.isolation_level = psycopg.IsolationLevel.REPEATABLE_READ
        (commands,) = connection.execute(b"SELECT commands FROM wh.mirror").fetchone()
        sums = connection.execute(b"SELECT count(*), sum(amount)::text FROM wh.sales_as_is").fetchone()
        return (commands, *sums)

    def end(self) -> None:
        """Asks no more."""
        self._is_ended.set()
        self.join()
