"""Mirrors that are killed at random moments: readers find a whole night, and the next mirror ends it."""

import random
import subprocess
import time

from databases import MIRROR, MirrorTest, ask, new_database, run_mirror, seconds_of
from reader import TOTALS, totals_of

KILLS = 20


def kill_after(seconds: float, *words: str) -> bool:
    """Starts a mirror and kills it; answers whether it was still running."""
    process = subprocess.Popen([MIRROR, *words], stdout=subprocess.DEVNULL, stderr=subprocess.DEVNULL)
    time.sleep(seconds)
    is_running = process.poll() is None
    process.kill()
    process.wait()
    return is_running


class Kills(MirrorTest):
    """Twenty kills of mirrors of nights, and some of the first one."""

    def test_nights(self) -> None:
        """Each night's mirror is killed at some moment, and then runs to its end."""
        chance = random.Random(KILLS)
        shop, dsn = self.shop_after_a_night(), new_database()
        took = seconds_of(lambda: run_mirror(shop.path, dsn))
        killed = 0
        for night in range(KILLS):
            before = totals_of(shop)
            shop.night()
            after = totals_of(shop)
            with self.subTest(night=night):
                killed += kill_after(chance.uniform(0.1, took), shop.path, dsn)
                self.assertIn(ask(dsn, TOTALS)[0], (before, after))
                took = seconds_of(lambda: run_mirror(shop.path, dsn))
                self.assertEqual(ask(dsn, TOTALS), [after])
        self.assert_same_tables(shop, dsn)
        self.assert_same_reports(shop, dsn)
        self.assertGreater(killed, KILLS / 3)

    def test_first(self) -> None:
        """There is no schema, or the whole mirror."""
        chance, shop, dsn = random.Random(1), self.shop_after_a_night(), new_database()
        took = seconds_of(lambda: run_mirror(shop.path, new_database()))
        for _ in range(4):
            kill_after(chance.uniform(0.2, took), shop.path, dsn)
            there = ask(dsn, "SELECT count(*) FROM pg_class WHERE relnamespace = to_regnamespace('wh')")
            if there != [(0,)]:
                self.assertEqual(ask(dsn, TOTALS), [totals_of(shop)])
        self.mirrors(shop.path, dsn)
        self.assert_same_tables(shop, dsn)
