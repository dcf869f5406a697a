"""How names are answered now, as pages show it."""
import html
import json
import re

from .case import Case, unittest
from .test_listings import ODD


class Answers(Case):
    def test_answers(self):
        """How a name is answered now: by the model's records, of each type; and by those of the next block behind it."""
        value = {
            "ip": ["192.0.2.1", "192.0.2.2"],
            "ip6": "2001:db8::1",
            "txt": ["one", ["two", "<script>alert(1)</script>"]],
            "mx": [[10, "mail"]],
            "srv": [[1, 2, 80, "web"]],
            "sshfp": [[1, 1, "AAAA"]],
            "tls": [[3, 1, 1, "AQID"]],
            "map": {"www": {"alias": "@"}, "sub": {"ns": "ns.example.org.", "ds": [[1, 8, 2, "AQID"]]}},
        }
        names = {**ODD, b"d/example": json.dumps(value).encode()}
        run = self.explorer().reaches(self.has_names(names))
        wanted = {
            "example.bit A": ["192.0.2.1", "192.0.2.2"],
            "example.bit AAAA": ["2001:db8::1"],
            "example.bit TXT": ['"one"', '"two" "<script>alert(1)</script>"'],
            "example.bit MX": ["10 mail.example.bit."],
            "example.bit SRV": ["1 2 80 web.example.bit."],
            "example.bit SSHFP": ["1 1 000000"],
            "example.bit TLSA": ["3 1 1 010203"],
            "www.example.bit CNAME": ["example.bit."],
            "www.example.bit A": ["example.bit.", "192.0.2.1", "192.0.2.2"],
            "sub.example.bit DS": ["1 8 2 010203"],
            "bit NS": ["ns.example."],
        }
        for asked, records in wanted.items():
            name, type = asked.split()
            told = run.get(f"/answer?name={name}&type={type}")
            self.assertEqual(told.status, 200)
            self.assertNotIn("<script", told.html)
            answer = told.html.partition("<h2>Answer</h2>")[2].partition("<h2>")[0]
            says = re.findall(r"<td data-of=Says><code>(.*?)</code></td></tr>", answer)
            self.assertEqual([html.unescape(re.sub("<[^>]*>", "", it)) for it in says], records, asked)
        told = run.get("/answer?name=example.bit&type=ANY").text
        for record in ("192.0.2.2", "2001:db8::1", "10 mail.example.bit."):
            self.assertIn(record, told)
        self.assertIn("answered by the name servers below", run.get("/answer?name=sub.example.bit&type=A").text)
        self.assertIn("ns.example.org.", run.get("/answer?name=sub.example.bit&type=A").text)
        self.assertIn("there is no such name now", run.get("/answer?name=nobody.bit&type=A").text)
        self.assertIn("has nothing of this type", run.get("/answer?name=plain.bit&type=MX").text)
        self.assertIn("only names below bit are answered", run.get("/answer?name=example.com&type=A").text)
        # Behind the blocks in which it expires it isn't answered any more, while a listing still has it.
        tip = self.chains.grow(self.node.tip, 31)
        self.node.move(tip)
        run.reaches(self.chains.blocks[tip].height)
        self.assertIn("there is no such name now", run.get("/answer?name=example.bit&type=A").text)


if __name__ == "__main__":
    unittest.main()
