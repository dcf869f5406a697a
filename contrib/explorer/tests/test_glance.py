"""The chain at a glance: its numbers and plots beside the model of the rules, on short chains and long ones."""
import random
import re

from .case import Case, unittest
from .test_finding import FAMILY
from .test_listings import ODD
from .test_names import WithNames, base

from model import PROFILES
from namecoin_explorer.asking import Tip
from namecoin_explorer.building import Builder
from namecoin_explorer.glance import shown
from namecoin_explorer.name_pages import first_expired
from namecoin_explorer.names import Names

DAYS = {"a day": 144, "a week": 1008, "a month": 4320}


def facts_of(text):
    """The table of facts, and the tables of the two plots: each row's first and last block, and its number."""
    rows = re.findall(r"<tr><th scope=row>([^<]*)</th><td>([0-9,]+)</td></tr>", text)
    plots = []
    for figure in re.findall(r"<figure>(.*?)</figure>", text, re.DOTALL):
        lines = re.findall(r"<tr><td>([0-9,]+) to ([0-9,]+)</td><td class=number>([0-9,.]+)</td></tr>", figure)
        plots.append([tuple(float(it.replace(",", "")) for it in line) for line in lines])
    return {name: int(it.replace(",", "")) for name, it in rows}, plots


class Glance(Case):
    def check(self, text, model):
        newest = [values[-1].height for values in model.given().values()]
        expired = [it for it in newest if model.profile.expired(it, model.height)]
        facts, (expiring, changing) = facts_of(text)
        self.assertEqual(facts["Names that were ever registered"], len(newest))
        self.assertEqual((facts["Served now"], facts["Expired"]), (len(newest) - len(expired), len(expired)))
        for name, blocks in DAYS.items():
            wanted = sum(model.profile.expired(it, model.height + blocks) for it in newest) - len(expired)
            self.assertEqual(facts[f"Expire within {name} ({blocks:,} blocks)"], wanted)
        for first, last, number in expiring:
            wanted = sum(model.profile.expired(it, last) and not model.profile.expired(it, first - 1) for it in newest)
            self.assertEqual(number, wanted, (first, last))
        given = [it.height for values in model.given().values() for it in values]
        for first, last, number in changing:
            wanted = sum(first <= it <= last for it in given) / (last - first + 1)
            self.assertAlmostEqual(number, wanted, delta=0.051)
        self.assertEqual((expiring[0][0], changing[-1][1]), (model.height + 1, model.height))
        self.assertTrue(all(above[0] == below[1] + 1 for rows in (expiring, changing) for below, above in zip(rows, rows[1:])))

    def test_beside_the_model(self):
        """While blocks come and leave, and names expire."""
        self.has_names({**ODD, **FAMILY}, 2)
        run, chance = self.explorer(), random.Random(1)
        for step in range(6):
            height = self.chains.blocks[self.node.tip].height
            run.reaches(height)
            page = run.get("/")
            self.check(page.html, self.model_at(self.node.tip))
            self.node.move(self.chains.grow(self.chains.back(self.node.tip, chance.randrange(3)), chance.choice((4, 17, 31))))
        bars = re.findall(r'<rect x="[^"]*" y="([^"]*)" width="[^"]*" height="([^"]*)"/>', page.html)
        self.assertGreater(len(bars), 3)
        self.assertTrue(all(abs(float(top) + float(height) - 100) < 0.02 and float(height) > 0 for top, height in bars))

    def test_no_names(self):
        text = self.explorer().reaches(0).get("/")
        facts, plots = facts_of(text.html)
        self.assertEqual((set(facts.values()), [len(it) for it in plots]), ({0}, [30]))


class Main(WithNames):
    def test_the_main_network(self):
        """Names of the profile main expire by its own rule; plots are of days."""
        chance, tip = random.Random(4), 500_000
        heights = sorted(chance.randrange(450_000, tip + 1) for _ in range(3000))
        builder = Builder(self.path, base(bytes(32), 2, 495_000))
        lines = [b"tip %d " % tip + b"ab" * 32]
        for number, height in enumerate(heights):
            lines += [b"name %08x %d served -" % (number, height), b"  at %d since %d -" % (height, height)]
        builder.take(lines)
        builder.finish(lambda: None)
        builder.in_place()
        names = Names(self.path)
        self.addCleanup(names.close)
        facts, (expiring, changing) = facts_of(shown(names))
        expired = PROFILES["main"].expired
        self.assertEqual((facts["Served now"], facts["Expired"]), (sum(not expired(it, tip) for it in heights), sum(expired(it, tip) for it in heights)))
        for name, blocks in DAYS.items():
            self.assertEqual(facts[f"Expire within {name} ({blocks:,} blocks)"], sum(not expired(it, tip) and expired(it, tip + blocks) for it in heights))
        self.assertEqual((len(expiring), sum(it for *_, it in expiring)), (30, facts["Expire within a month (4,320 blocks)"]))
        self.assertEqual((len(changing), changing[0][0], changing[-1][1]), (28, tip - 4031, tip))
        self.assertEqual(names.tip, Tip(tip, bytes.fromhex("ab" * 32)[::-1]))

    def test_when_names_expire(self):
        """The height at which a value is expired is the first one of the rule, on both sides of where the rule changes."""
        for name, profile in PROFILES.items():
            names = base(bytes(32), 2 if name == "main" else 1).profile
            for height in (0, 1, 11_999, 12_000, 12_001, 23_999, 24_000, 30_000, 36_000, 47_999, 48_000, 48_001, 499_999):
                found = first_expired(names, height)
                self.assertTrue(profile.expired(height, found) and not profile.expired(height, found - 1), (name, height, found))
                self.assertFalse(any(profile.expired(height, it) for it in range(height + 1, min(found, height + 40_000), 97)))


if __name__ == "__main__":
    unittest.main()
