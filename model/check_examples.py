"""Checks the model against the examples of the page, and prints how many.

`python3 model/check_examples.py [PAGE]`. The long examples are read from the page (docs/PROTOCOL.md where none is named), the
lines of its tables are written here again.
"""
import os
import re
import sys

import broker
import messages
import replay
import sparql
from graph import Graph
from messages import LITERAL, URI, Message, Parameter, Triples
from space import Space
from sparql import Bgp, Filter, Join, LeftJoin, Refused, Union

COUNTED, FAILED = [], []


def expect(name, found, expected):
    """Counts an example; keeps it where the model says something else."""
    COUNTED.append(name)
    if found != expected:
        FAILED.append(name)
        print("%s\n  page:  %r\n  model: %r" % (name, expected, found))


def run(words, data=b""):
    """The output and the status of a command."""
    return broker.run([word.encode() for word in words.split(" ")], lambda: data)


def blocks(page):
    """The fenced blocks of the page."""
    return [block.encode() for block in re.findall(r"^```\w+\n(.*?)^```$", page, re.S | re.M)]


def block(page, start, holding=b""):
    """The one block that begins so and has this in it, without its last LF."""
    found = [b for b in blocks(page) if b.startswith(start) and holding in b]
    assert len(found) == 1, (start, len(found))
    return found[0]


# --- commands, streams, scripts ---

def commands():
    """Commands, Exit statuses, Streams."""
    join = replay.make(1).splitlines(keepends=True)[2]
    expect("replay of one link", run("replay X", b"+\n"), (b"= 0 0 0\n", 0))
    expect("show of the JOIN", run("show", join), (join, 0))
    expect("check of the JOIN", run("check", join), (b"ok 1\n", 0))
    expect("make 2 replayed", replay.replay(b"trial", run("make 2")[0])[0].splitlines()[-1], b"= 2 2 50")
    for word in ("0", "01", "+1", "10001", "", "1 1"):
        for command in ("make", "trial"):
            expect("%s %s" % (command, word), run(command + " " + word), (b"", 2))
    expect("no words", broker.run([], None), (b"", 2))
    expect("no UTF-8", broker.run([b"replay", b"\xff"], None), (b"", 2))
    for name, status in ((b"", 2), (b"s" * 1_024, 0), (b"s" * 1_025, 2), (b"\0", 2), ("\ufffe".encode(), 2), (b"\x7f", 0),
                         ("\U0001fffe".encode(), 0)):
        expect("SPACE of %d bytes %r" % (len(name), name[:4]), broker.run([b"replay", name], lambda: b"")[1], status)
    for words, data, expected in (("check", b"", (b"ok 0\n", 0)), ("check", b"<SSAP_message><x", (b"! 15 syntax\n", 1)),
                                  ("check", b" \n<SSAP", (b"! 2 cut\n", 1)), ("check again", b"", (b"", 2)), ("show", b"", (b"", 0))):
        expect("%s of %r" % (words, data), run(words, data), expected)


STOPS = [
    (b"<SSAP_message><x", 15), (b"<SSAP_message></", 15), (b"<SSAP_message a", 14),
    (b"<SSAP_message><transaction_id>1</transaction_id><transaction_id>", 61),
    (b"<SSAP_message><transaction_id>1</transaction_id><transaction_type>JOIN</transaction_type><transaction_id>", 90),
    (b"<SSAP_message><parameter>", 24), (b"x", 0)]
ID, PARAMETER = b"<SSAP_message><node_id>", b"<SSAP_message><parameter name='x'>"
GOOD = [  # bytes that can go on, and bytes with which they can't
    (ID, [b"\xc0", b"\xc1", b"\xf5", b"\xff", b"\xe0\x9f", b"\xed\xa0", b"\xef\xbf\xbe", b"\xef\xbf\xbf", b"\xf0\x8f", b"\xf4\x90",
          b"\xc3<", b"&#14", b"&#x", b"&b", b"\0", b"<t", b"</s"], [b"\xe0\xa0", b"\xed\x9f", b"\xef\xbf\xbd", b"\xf0\x90", b"\xf4\x8f",
          b"&#10", b"&#13", b"&l", b"&g", b"&a", b"&q", b"&#", b"]]>", b">", b"<![CDATA[", b"</n"]),
    (PARAMETER + b" \n", [b"<p", b"</t"], [b"<!", b"<t", b"<s", b"</p"]),
    (PARAMETER + b"x", [b"<t", b"<s"], [b"<!", b"</p"]), (PARAMETER + b"<![CDATA[]]>", [b"<t", b"<s"], [b"<!", b"</p"]),
    (PARAMETER + b"&lt;", [b"<t", b"<s"], [b"<!", b"</p"]),
    (PARAMETER + b"<triple_list/>", [b"<t", b"<!", b"x", b"&"], [b"</p", b" "]),
    (b"<SSAP_message><message_type>", [b"RES", b"<", b"J"], [b" RE", b"CONFIRM </"]),
    (b"<SSAP_message><message_type>RE", [b"<", b" ", b"S"], [b"QUEST\n</message_type"]),
    (b"<SSAP_message><transaction_type>", [b"UPS", b"UNI", b"j"], [b"\tUN", b"UP", b"SU"]),
    (PARAMETER + b"<sparql", [b"/", b" y"], [b">", b" xmlns='http", b"  >"]),
    (PARAMETER + b"<sparql><head/><results><result><binding", [b">", b"/"], [b" name = ''>"]),
    (PARAMETER + b"<triple_list><triple><subject", [b" type='l", b" type='Ur", b"x"], [b"/", b">", b" type='URI'", b" type=\"bnode\""]),
    (PARAMETER + b"<triple_list><triple><subject/><predicate/><object", [b">", b"/", b" >"], [b" type='LITERAL'/>"]),
    (b"", [b"<?xml?", b"<?xml version='1.1", b"\xef"], [b"<?xml version='1.0' encoding = \"utf-8\" ?>\r\n<SSAP_message"])]


def stops():
    """Where a stream stops."""
    for data, place in STOPS:
        expect("stop of %r" % data, run("check", data), (b"! %d syntax\n" % place, 1))
    for prefix, bad, good in GOOD:
        for more in bad:
            expect("%r stops" % (prefix + more), run("check", prefix + more), (b"! %d syntax\n" % (len(prefix + more) - 1), 1))
        for more in good:
            cut = re.match(rb"\s*", prefix + more).end()
            expect("%r goes on" % (prefix + more), run("check", prefix + more), (b"! %d cut\n" % cut, 1))
    limits()


def limits():
    """The limit of a message."""
    size = messages.MESSAGE_LIMIT
    start = b"<SSAP_message>"
    gap = b" " * (size - len(start))
    expect("long", run("check", b" " + start + gap + b" "), (b"! 1 long\n", 1))
    expect("syntax before long", run("check", start + gap + b"x"), (b"! %d syntax\n" % size, 1))
    expect("cut at the limit", run("check", start + gap), (b"! 0 cut\n", 1))
    join = messages.spell(next(replay.generated(1)))
    whole = join[:-1] + b" " * (size - len(join)) + b">"
    expect("exactly the limit", run("check", whole + b"\n" + join), (b"ok 2\n", 0))


def scripts():
    """Scripts."""
    for data, place in ((b"+", 1), (b">1 3\nabcX", 8), (b">0", 1), (b">1 70000", 7), (b">4294967296", 10), (b">1 00", 4), (b"-1 ", 2)):
        expect("script %r" % data, run("replay X", data), (b"? %d\n" % place, 3))
    expect("the empty script", run("replay X", b""), (b"= 0 0 0\n", 0))


def verbatim(page):
    """The blocks of the page."""
    expect("the small run", run("replay X", block(page, b"+\n>1 182")), (block(page, b"<1 229"), 0))
    envelope = b"<SSAP_message><node_id/><space_id/><transaction_id/><message_type>REQUEST</message_type>" \
               b"<transaction_type>JOIN</transaction_type><parameter name='x'>%s</parameter></SSAP_message>"
    for start in (b"<sparql", b"<triple_list"):
        expect("canonical %s" % start, block(page, start).strip() in run("show", envelope % block(page, start))[0], True)
    lines = replay.make(1).splitlines(keepends=True)
    expect("the generated script", b"".join(lines[:7] + lines[-2:]), block(page, b"+\n>1 186"))
    expect("make 1", len(replay.make(1)), 20_034)
    expect("make 10000", len(replay.make(10_000)), 6_004_403)
    for count, line, last in ((1, b"confirms 52 indications 10", b"= 1 1 50"), (2, b"confirms 53 indications 20", b"= 2 2 50"),
                              (21, b"confirms 72 indications 210", b"= 21 20 50")):
        expect("trial %d" % count, run("trial %d" % count), (line + b"\n" + last + b"\n", 0))
    if "long" in sys.argv:
        expect("trial 10000", run("trial 10000"), (b"confirms 10051 indications 100000\n= 10000 20 50\n", 0))


# --- requests ---

class Talk:
    """A link of a space X where k has joined."""

    def __init__(self, joined=True):
        self.space, self.count = Space(b"X"), 0
        self.space.opened()
        if joined:
            self.say(b"JOIN")

    def say(self, kind, *parameters, space=b"X"):
        """The output for a request."""
        self.count += 1
        pairs = [Parameter(name, None, content) for name, content in parameters]
        return self.space.delivered(1, messages.spell(Message(b"REQUEST", kind, b"%d" % self.count, b"k", space, pairs)))

    def status(self, *request, **space):
        """The status of its confirm."""
        return re.search(rb"m3:[A-Za-z.]+", self.say(*request, **space)).group().decode()


def triple(*words):
    """A triple: a word in quotes is a literal."""
    return tuple((LITERAL, word[1:-1].encode()) if word.startswith('"') else (URI, word.encode()) for word in words)


def graph_of(*rows):
    """An insert_graph."""
    return (b"insert_graph", Triples([triple(*row.split(" ")) for row in rows]))


def requests(page):
    """Requests and Subscriptions."""
    one = graph_of('a p "1"')
    bnode = (b"insert_graph", Triples([((messages.BNODE, b"a"),) + triple("p", "o")]))
    expect("INSERT by a stranger", Talk(False).status(b"INSERT", one), "m3:SIB.Error.AccessDenied")
    for name, request, status in (
            ("JOIN again", (b"JOIN",), "m3:Success"), ("INSERT of a wildcard", (b"INSERT", graph_of("a p sib:any")), "m3:KP.Error.Request"),
            ("INSERT without a graph", (b"INSERT",), "m3:KP.Error.Message.Incomplete"),
            ("a second graph", (b"INSERT", one, one), "m3:KP.Error.Message.Syntax"),
            ("a bnode", (b"INSERT", bnode), "m3:SIB.Failure.NotImplemented"),
            ("doubled, and a bnode", (b"INSERT", bnode, bnode), "m3:KP.Error.Message.Syntax")):
        expect(name, Talk().status(*request), status)
    refused = Talk().say(b"LEAVE", space=b"Y")
    expect("LEAVE for Y", (b"<space_id>Y</space_id>" in refused, b"m3:KP.Error.Request" in refused), (True, True))
    talk = Talk()
    talk.say(b"INSERT", graph_of('lamp state "on"'))
    talk.say(b"SUBSCRIBE", (b"type", b"sparql"), (b"query", b"SELECT DISTINCT ?s ?n WHERE { ?s <state> \"on\" OPTIONAL { ?s <name> ?n } }"))
    indication = block(page, b"<SSAP_message>", b"INDICATION")
    expect("the indication", talk.say(b"INSERT", graph_of('lamp name "L"')).endswith(b"\n<1 810\n" + indication), True)


# --- SPARQL ---

def kinds(text):
    """The tokens of a text as they are spelled."""
    return [(token.kind, token.value) for token in sparql.tokens(text.encode())]


def tokens():
    """Tokens."""
    expect("an IRI between", kinds("?a<?b&&?c>?d"), [("VAR", b"a"), ("IRI", b"?b&&?c"), ("VAR", b"d")])
    expect("<=> is an IRI", kinds("<=>"), [("IRI", b"=")])
    expect("no IRI", kinds("?a < ?b"), [("VAR", b"a"), ("<", b"<"), ("VAR", b"b")])
    expect("<> is no IRI", kinds("<>"), [("<", b"<"), (">", b">")])
    expect("SELECTED", [kind for kind, _ in kinds("SELECTED")], ["SELECT", "BROKEN"])
    expect("SELECT.x:y", kinds("SELECT.x:y"), [("PNAME", (b"SELECT.x", b"y"))])
    expect("p:a.", kinds("p:a."), [("PNAME", (b"p", b"a")), (".", b".")])
    expect("p:.", kinds("p:."), [("PREFIXNAME", (b"p", b"")), (".", b".")])
    expect("a.b:c", kinds("a.b:c"), [("PNAME", (b"a.b", b"c"))])
    expect("no border", refusal("SELECTDISTINCT*{}"), None)
    for text in ("SELECT DISTINCT * { ?x <p> ?a FILTER(!?a = ?x) }", "SELECT DISTINCT * { ?x <p> ?a FILTER(!!?a) }",
                 "SELECT DISTINCT * { ?x <p> ?a FILTER((?a) = ?x) }", "SELECT DISTINCT * {} .", "", "SELECT DISTINCT * { a <p> ?a }",
                 "SELECT DISTINCT * { \"x\" <p> ?a }", "SELECT DISTINCT * { ?a \"x\" ?a }", "SELECT DISTINCT ?s { ?s ?p _:b }",
                 "SELECT DISTINCT * { ?a ?b p:c }"):
        expect("no query: " + text, refusal(text), "m3:KP.Error.Request")
    expect("a comparison in parentheses", refusal("SELECT DISTINCT * { ?x <p> ?a FILTER(!(?a = ?b)) }"), None)
    expect("17 braces", refusal("SELECT DISTINCT * " + "{" * 17 + "}" * 17), "m3:SIB.Failure.OutOfResources")
    expect("16 braces", refusal("SELECT DISTINCT * " + "{" * 16 + "}" * 16), None)
    expect("without DISTINCT", refusal("SELECT ?s { ?s ?p ?o }"), "m3:SIB.Failure.NotImplemented")


def refusal(text):
    """The status that refuses a text, or None."""
    try:
        sparql.read(text.encode())
    except Refused as refused:
        return refused.status
    return None


def shape(part):
    """The operators of a part: a BGP by the number of its patterns."""
    if isinstance(part, Bgp):
        return len(part.patterns)
    if isinstance(part, Filter):
        return ["Filter", shape(part.part)]
    name = type(part).__name__ + (" if" if isinstance(part, LeftJoin) and part.condition else "")
    return [name, shape(part.left), shape(part.right)]


def translations():
    """Translation, and the width."""
    for group, expected in (
            ("{}", 0), ("{ {} {} }", 0), ('{ ?a <p> ?b FILTER(?b = "1") ?a <q> ?c }', ["Filter", 2]),
            ("{ ?a <p> ?b { ?a <q> ?c } }", ["Join", 1, 1]), ("{ OPTIONAL { ?a <p> ?b } }", ["LeftJoin", 0, 1]),
            ("{ ?a <p> ?b OPTIONAL { ?a <q> ?c FILTER(?c < ?b) } }", ["LeftJoin if", 1, 1]),
            ("{ {} UNION { ?a <p> ?b } }", ["Union", 0, 1]),
            ("{ OPTIONAL { { ?a <p> ?b FILTER(?b) } } }", ["LeftJoin", 0, ["Filter", 1]]),
            ("{ {?a <p> ?b} UNION {} UNION {?c <p> ?b} }", ["Union", ["Union", 1, 0], 1])):
        expect("algebra of " + group, shape(sparql.read(b"SELECT DISTINCT * " + group.encode()).part), expected)
    expect("width of {}", solved([], "SELECT DISTINCT * {}")[1], 1)
    expect("width 2 + 1 + 2", solved(['a p "1"', 'b p "1"', 'a q "2"'], "SELECT DISTINCT * { ?a <p> ?b OPTIONAL { ?a <q> ?c } }")[1], 5)
    expect("no columns", messages.spell_content(sparql.table(sparql.read(b"SELECT DISTINCT * {}"), [()])).count(
        b"<head></head><results><result></result></results>"), 1)


def solved(rows, text):
    """The rows of an answer, with words for their cells, and the width."""
    graph, query = Graph(), sparql.read(text.encode())
    for row in rows:
        graph.add(triple(*row.split(" ")))
    evaluation = sparql.Evaluation(query, graph)
    evaluation.solve(query.part)
    word = lambda cell: None if cell is None else ('"%s"' if cell[0] == LITERAL else "%s") % cell[1].decode()
    return [tuple(map(word, row)) for row in sparql.answer(query, graph)], evaluation.width


def solutions():
    """The queries with their graphs and rows."""
    five = ['a p "1"', 'b p "1"', 'b q ""', 'c p "1"', 'c q "v"']
    for rows, text, expected in (
            (['lamp state "on"'], 'SELECT DISTINCT ?s ?n WHERE { ?s <state> "on" OPTIONAL { ?s <name> ?n } }', [("lamp", None)]),
            (five, 'SELECT DISTINCT ?x ?y { ?x <p> ?z OPTIONAL { ?x <q> ?y } FILTER (!bound(?y) || ?y = "") }', [("a", None), ("b", '""')]),
            (five, "SELECT DISTINCT ?x { ?x <p> ?z FILTER (!(?x < ?z)) }", []),
            (five, "SELECT DISTINCT ?x { ?x <p> ?z FILTER (?x != ?z) }", [("a",), ("b",), ("c",)]),
            (['a p "2"', 'a q "1"', 'b p "2"', 'b q "3"'], "SELECT DISTINCT ?x ?w { ?x <p> ?v OPTIONAL { ?x <q> ?w FILTER (?w < ?v) } }",
             [("a", '"1"'), ("b", None)]),
            ([], 'SELECT DISTINCT ?u { FILTER ("10" < "9") }', [(None,)])):
        expect("rows of " + text, solved(rows, text)[0], expected)


def main():
    """Checks everything."""
    named = [word for word in sys.argv[1:] if word != "long"]
    path = named[0] if named else os.path.join(os.path.dirname(os.path.abspath(__file__)), "..", "docs", "PROTOCOL.md")
    with open(path, encoding="utf-8") as file:
        page = file.read()
    commands(), stops(), scripts(), verbatim(page), requests(page), tokens(), translations(), solutions()
    print("checked %d examples: %s" % (len(COUNTED), "%d differ" % len(FAILED) if FAILED else "the model agrees with each"))
    return 1 if FAILED else 0


if __name__ == "__main__":
    sys.exit(main())
