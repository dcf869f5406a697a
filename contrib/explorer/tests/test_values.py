"""Values as DNS reads them: where the program reads a value, its page has items, and nowhere else; and the way of a domain's answers."""
import html
import random
import re

from .case import Case, finding, unittest

import values_model
from namecoin_explorer.ways import Ways, host_of, object_of

# What stands beside an address in a value. These three DNS doesn't read, though other readers of JSON do.
UNREAD = [b"1e400", b'"\\ud800"', b"9" * 310]
# More of their kind, and of others that it doesn't read.
UNREAD += [b"-1e400", b"1E999", b"1.8e308", b"[[1e309]]", b"-" + b"9" * 320, b"1" + b"0" * 309, b'"\\udc00"', b'"\\udc00\\ud800"', b'"\\ud800\\u0041"', b'"\\ud83dx"']
UNREAD += [b'{"\\ud800":1}', b'["\\uDFFF"]', b"NaN", b"Infinity", b"-Infinity", b"01", b"+1", b".5", b"1.", b"0x1", b"'a'", b"tru", b"nul", b'"\t"', b'"\\x41"', b'"\\u12"']
UNREAD += [b"[1,]", b"{1:2}", b'"a', b"", b"1 2", b'"\xff"', b'"\xed\xa0\x80"', b'"\xc0\x80"', b'"\xf4\x90\x80\x80"', b"[" * 127 + b"]" * 127, b"\xc2\xa01"]
# What it does read: eight that were tried beside the three, and more.
READ = [b"1", b"null", b'"\\ud83d\\ude00"', b"9" * 308, b"1e308", b"-0", b"18446744073709551616", b"1e-400"]
READ += [b"1.7976931348623157e308", b"0e999999999", b"-1e-999", b"0.0", b"[]", b"{}", b'{"a":1,"a":2}', b"true", b'"\\u0000"', b'"\\/"', b'"\xf4\x8f\xbf\xbf"', b"[" * 126 + b"]" * 126]
READ += [b'"\\ud83d\\ude00\\ud83d\\ude00"', b" \t\r\n1", b'"<script>"', b"123456789012345678901234567890", b"-9223372036854775809", b"2.5", b"1e1", b'"\x7f"']


class Values(Case):
    def test_read_as_dns_does(self):
        """Each form beside an address: the page lays out items just where a query gets the address."""
        forms = [*UNREAD, *READ]
        names = {b"d/form%d" % number: b'{"ip":"192.0.2.7","x":' + form + b"}" for number, form in enumerate(forms)}
        run = self.explorer().reaches(self.has_names(names))
        run.waits_for("names", lambda: run.get("/name/d/form0").status == 200)
        for number, form in enumerate(forms):
            answer = run.get(f"/answer?name=form{number}.bit&type=A").text
            page = run.get(f"/name/d/form{number}")
            is_read = "192.0.2.7" in answer
            self.assertEqual(is_read, form in READ, (form, "what DNS reads"))
            self.assertEqual("for DNS it has no items" in page.text, not is_read, (form, "the page"))
            self.assertEqual("IPv4 address" in page.text, is_read, (form, "the page's items"))
            self.assertEqual("It has no records" in page.text, not is_read, (form, "what a resolver gets"))

    def test_members_that_come_twice(self):
        """Of equal keys the last one counts, in what is drawn too."""
        names = {b"d/twice": b'{"alias":"a.example.","alias":"b.example."}'}
        run = self.explorer().reaches(self.has_names(names))
        run.waits_for("names", lambda: run.get("/name/d/twice").status == 200)
        tree = run.get("/name/d/twice").html.partition("<svg class=tree")[2].partition("</svg>")[0]
        self.assertEqual((">b.example<" in tree, ">a.example<" in tree), (True, False))


class Trees(Case):
    def test_what_a_resolver_gets(self):
        """All types that a domain has, as the answer page has them one by one; and the names of the way, as a drawing and as a list."""
        names = {
            b"d/example": b'{"ip":["192.0.2.1"],"txt":"<b>","import":["dd/base","www"],"map":{"www":{"alias":"@"},"sub":{"ns":"ns.example.org."},"*":{"translate":"other.bit."}}}',
            b"dd/base": b'{"map":{"www":{"mx":[[5,"mail"]],"import":"dd/deeper"}}}',
            b"dd/deeper": b'{"sshfp":[[1,1,"AAAA"]]}',
            b"d/cut": b'{"ns":["ns1.example.","ns2.example."],"alias":"elsewhere.","ds":[[1,8,2,"AQID"]]}',
            b"d/away": b'{"alias":"www.example.bit."}',
            b"d/below": b'{"translate":"example.bit."}',
            b"d/none": b'{"email":"a@b"}',
        }
        run = self.explorer().reaches(self.has_names(names))
        run.waits_for("names", lambda: run.get("/name/d/example").status == 200)
        for name in names:
            if not name.startswith(b"d/"):
                continue
            domain = f"{name[2:].decode()}.bit"
            page = run.get(f"/name/{name.decode()}")
            part = page.html.partition("<h2>What a resolver gets</h2>")[2].partition("<h2>")[0]
            self.assertNotIn("<b>", part)
            shown, wanted = self.records(part.partition("<figure>")[0]), []
            for type in ("A", "AAAA", "TXT", "NS", "CNAME", "MX", "SRV", "DNAME", "DS", "SSHFP", "TLSA"):
                answer = run.get(f"/answer?name={domain}&type={type}").html
                wanted += [it for it in self.records(answer) if it[2] != "SOA"]
            self.assertEqual(sorted(set(shown)), sorted(set(wanted)), name)
            self.assertEqual(len(shown), len(set(shown)))
        drawn = {
            "example": ["example.bit", "dd/base", "dd/deeper", "www.example.bit", "example.bit", "sub.example.bit", "ns.example.org", "*.example.bit", "other.bit"],
            "cut": ["cut.bit", "ns1.example", "ns2.example"],
            "away": ["away.bit", "www.example.bit"],
            "below": ["below.bit", "example.bit"],
            "none": ["none.bit"],
        }
        for name, texts_of in drawn.items():
            page = run.get(f"/name/d/{name}").html
            tree = page.partition("<svg class=tree")[2].partition("</svg>")[0]
            found = [html.unescape(it) for it in re.findall(r'<text x="[^"]*" y="[^"]*">(.*?)</text>', tree)]
            self.assertEqual(sorted(found), sorted(texts_of), name)
            listed = page.partition("As a list, with links")[2].partition("</details>")[0]
            self.assertEqual(sorted(html.unescape(it) for it in re.findall(r"<code>(.*?)</code>", listed)), sorted(texts_of), name)
        self.assertIn('<a href="/name/dd/deeper">', run.get("/name/d/example").html)

    def records(self, part):
        """The records of tables: owner, seconds, type, and what they say."""
        rows = re.findall(r"<tr><td><code>(.*?)</code></td><td[^>]*>(.*?)</td><td[^>]*>(.*?)</td><td[^>]*><code>(.*?)</code></td></tr>", part)
        return [tuple(html.unescape(re.sub("<[^>]*>", "", it)) for it in row) for row in rows]

    def test_hostile_trees(self):
        """Names that import each other, many names below, long hosts, objects in each other: what is drawn is bounded."""
        names = {b"d/loop": b'{"import":[["d/loop"],["d/pool"],["d/loop"],["d/pool"],["d/loop"],["d/pool"],["d/loop"],["d/pool"]]}'}
        names[b"d/pool"] = names[b"d/loop"]
        names[b"d/wide"] = b'{"map":{' + b",".join(b'"%d":{}' % number for number in range(120)) + b"}}"
        names[b"d/deep"] = b'{"map":{"a":' * 60 + b"{}" + b"}}" * 60
        names[b"d/long"] = b'{"alias":"' + b".".join([b"a" * 60] * 4) + b'."}'
        names[b"d/odd"] = b'{"alias":"<script>.bit.","ns":[[],{},5,"a..b"],"import":[["\\u0000<script>"]],"map":{"<b>":{},"A":{},"ok":[]}}'
        run = self.explorer().reaches(self.has_names(names))
        run.waits_for("names", lambda: run.get("/name/d/loop").status == 200)
        for name in names:
            page = run.get(f"/name/{name.decode()}")
            self.assertEqual((page.status, "<script" in page.html, "<b>" in page.html), (200, False, False), name)
            self.assertLess(page.html.count("<circle"), 50)
            self.assertLess(len(page.html), 200_000)
        self.assertEqual(run.get(finding("d/loop")).status, 200)


class Rules(unittest.TestCase):
    def test_beside_the_model(self):
        """Sources, entries and hosts are those of the model of docs/RULES.md, for values made by chance."""
        chance = random.Random(7)

        def thing(depth):
            found = {}
            for key in chance.sample(("ip", "alias", "ns", "translate", "txt", "map", "import"), chance.randrange(5)):
                if key == "map":
                    labels = ("", "*", "www", "a", "B", "x y", "\u00e4")
                    found[key] = {it: thing(depth + 1) if depth < 4 else 5 for it in chance.sample(labels, chance.randrange(4))}
                elif key == "import":
                    one = lambda: [f"d/{chance.randrange(6)}"] + chance.choice(([], [""], ["www"], ["www.a"], ["*"], ["a..b"], [5]))  # noqa: E731
                    found[key] = chance.choice((f"d/{chance.randrange(6)}", one(), [one() for _ in range(chance.randrange(10))], [], 5, [[]], ["d/1", "", ""]))
                else:
                    found[key] = chance.choice(("@", "", "a", "a.@", "b.c.", "1.2.3.4", "x y", ["a", "b."], [["t"]], 5, None, "a" * 64, ".@", "a."))
            return found

        for _ in range(400):
            names = {b"d/%d" % number: self.text(thing(0)) for number in range(5)}
            ways = Ways(names.get)
            for name, value in names.items():
                wanted = list(values_model.sources(names, values_model.object_of(value)))
                self.assertEqual(ways.sources([object_of(value)]), wanted, names)
                self.assertLess(len(list(self.nodes(ways.tree(name, "x.bit")))), 60)
                ways.left = 40
        place = values_model.Place((b"www", b"x", b"bit"), (b"x", b"bit"))
        for text in ("", "@", "a", "a.b", "a.@", "a.", "a.b.", ".", "..", ".@", "@.", "1.2.3.4", "1.2.3.4.", "01.2.3.4", "1.2.3", "x y", "a" * 64, "A-_9", "1.2.3.256", ".".join(["a" * 60] * 4)):
            wanted = values_model.host(text, place)
            self.assertEqual(host_of(text, "www.x.bit", "x.bit"), wanted and b".".join(wanted).decode(), text)

    def nodes(self, node):
        yield node
        for it in node.below:
            yield from self.nodes(it)

    def text(self, thing):
        return values_model.json.dumps(thing).encode()

    def test_values_by_chance(self):
        """What is read is what the model reads, for bytes that are changed by chance."""
        chance = random.Random(11)
        for _ in range(4000):
            text = bytearray(b'{"ip":"1.2.3.4","x":' + chance.choice([*READ, *UNREAD])[:60] + b"}")
            for _ in range(chance.randrange(3)):
                text[chance.randrange(len(text))] = chance.choice(b'{}[]",:\\ue+-.019 \xff')
            self.assertEqual(list(object_of(bytes(text))), list(values_model.object_of(bytes(text))), text)


if __name__ == "__main__":
    unittest.main()
