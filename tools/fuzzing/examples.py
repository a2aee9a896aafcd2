"""Examples of RFC 9535 and RFC 9485, by which the model is tried."""

import json

from . import patterns, queries, texts
from .meaning import Nodes, path_text

STORE = """{"store":{"book":[
{"category":"reference","author":"Nigel Rees","title":"Sayings of the Century","price":8.95},
{"category":"fiction","author":"Evelyn Waugh","title":"Sword of Honour","price":12.99},
{"category":"fiction","author":"Herman Melville","title":"Moby Dick","isbn":"0-553-21311-3","price":8.99},
{"category":"fiction","author":"J. R. R. Tolkien","title":"The Lord of the Rings","isbn":"0-395-19395-8","price":22.99}],
"bicycle":{"color":"red","price":399}}}"""
FILTERS = '{"a":[3,5,1,2,4,6,{"b":"j"},{"b":"k"},{"b":{}},{"b":"kilo"}],"o":{"p":1,"q":2,"r":3,"s":5,"t":{"u":6}},"e":"f"}'
DESCENDANTS = '{"o":{"j":1,"k":2},"a":[5,3,[{"j":4},{"k":6}]]}'
NULLS = '{"a":null,"b":[null],"c":[{}],"null":1}'
LETTERS = '["a","b","c","d","e","f","g"]'
COMPARED = '{"obj":{"x":"y"},"arr":[2,3]}'

# A text, a query, and the normalized paths of its nodelist (RFC 9535, sections 1.5 and 2.3 to 2.7).
SELECTED = [
    (STORE, "$.store.book[*].author", [f"$['store']['book'][{n}]['author']" for n in range(4)]),
    (STORE, "$..author", [f"$['store']['book'][{n}]['author']" for n in range(4)]),
    (STORE, "$.store..price", [f"$['store']['book'][{n}]['price']" for n in range(4)] + ["$['store']['bicycle']['price']"]),
    (STORE, "$..book[-1]", ["$['store']['book'][3]"]),
    (STORE, "$..book[0,1]", ["$['store']['book'][0]", "$['store']['book'][1]"]),
    (STORE, "$..book[:2]", ["$['store']['book'][0]", "$['store']['book'][1]"]),
    (STORE, "$..book[?@.isbn]", ["$['store']['book'][2]", "$['store']['book'][3]"]),
    (STORE, "$..book[?@.price<10]", ["$['store']['book'][0]", "$['store']['book'][2]"]),
    (LETTERS, "$[1:3]", ["$[1]", "$[2]"]),
    (LETTERS, "$[5:]", ["$[5]", "$[6]"]),
    (LETTERS, "$[1:5:2]", ["$[1]", "$[3]"]),
    (LETTERS, "$[5:1:-2]", ["$[5]", "$[3]"]),
    (LETTERS, "$[::-1]", [f"$[{n}]" for n in range(6, -1, -1)]),
    (LETTERS, "$[0:2,5]", ["$[0]", "$[1]", "$[5]"]),
    (LETTERS, "$[0,0]", ["$[0]", "$[0]"]),
    (FILTERS, "$.a[?@.b == 'kilo']", ["$['a'][9]"]),
    (FILTERS, "$.a[?(@.b == 'kilo')]", ["$['a'][9]"]),
    (FILTERS, "$.a[?@>3.5]", ["$['a'][1]", "$['a'][4]", "$['a'][5]"]),
    (FILTERS, "$.a[?@.b]", [f"$['a'][{n}]" for n in range(6, 10)]),
    (FILTERS, "$[?@.*]", ["$['a']", "$['o']"]),
    (FILTERS, "$[?@[?@.b]]", ["$['a']"]),
    (FILTERS, "$.o[?@<3, ?@<3]", ["$['o']['p']", "$['o']['q']", "$['o']['p']", "$['o']['q']"]),
    (FILTERS, '$.a[?@<2 || @.b == "k"]', ["$['a'][2]", "$['a'][7]"]),
    (FILTERS, '$.a[?match(@.b, "[jk]")]', ["$['a'][6]", "$['a'][7]"]),
    (FILTERS, '$.a[?search(@.b, "[jk]")]', ["$['a'][6]", "$['a'][7]", "$['a'][9]"]),
    (FILTERS, "$.o[?@>1 && @<4]", ["$['o']['q']", "$['o']['r']"]),
    (FILTERS, "$.o[?@.u || @.x]", ["$['o']['t']"]),
    (FILTERS, "$.a[?@.b == $.x]", [f"$['a'][{n}]" for n in range(6)]),
    (FILTERS, "$.a[?@ == @]", [f"$['a'][{n}]" for n in range(10)]),
    (DESCENDANTS, "$..j", ["$['o']['j']", "$['a'][2][0]['j']"]),
    (DESCENDANTS, "$..[0]", ["$['a'][0]", "$['a'][2][0]"]),
    (DESCENDANTS, "$..o", ["$['o']"]),
    (DESCENDANTS, "$.o..[*, *]", ["$['o']['j']", "$['o']['k']", "$['o']['j']", "$['o']['k']"]),
    (DESCENDANTS, "$.a..[0, 1]", ["$['a'][0]", "$['a'][1]", "$['a'][2][0]", "$['a'][2][1]"]),
    (NULLS, "$.a", ["$['a']"]), (NULLS, "$.a[0]", []), (NULLS, "$.b[0]", ["$['b'][0]"]), (NULLS, "$.b[?@]", ["$['b'][0]"]),
    (NULLS, "$.b[?@==null]", ["$['b'][0]"]), (NULLS, "$.c[?@.d==null]", []), (NULLS, "$.null", ["$['null']"]),
    (COMPARED, "$[?$.absent1 == $.absent2]", ["$['obj']", "$['arr']"]), (COMPARED, "$[?$.absent == 'g']", []),
    (COMPARED, "$[?$.obj == $.arr]", []), (COMPARED, "$[?1 > '13']", []), (COMPARED, "$[?'a' < 'b']", ["$['obj']", "$['arr']"]),
    (COMPARED, "$[?$.obj <= $.arr]", []), (COMPARED, "$[?1 <= $.arr]", []), (COMPARED, "$[?true <= true]", ["$['obj']", "$['arr']"]),
    (COMPARED, "$[?length(@)==1]", ["$['obj']"]), (COMPARED, "$[?count(@.*) == 2]", ["$['arr']"]),
]

# Queries that are well typed, or are not (RFC 9535, section 2.4.9), and others with their faults.
READ = [("$[?length(@) < 3]", None), ("$[?length(@.*) < 3]", "types"), ("$[?count(@.*) == 1]", None), ("$[?count(1) == 1]", "types"),
        ("$[?count(foo(@.*)) == 1]", "function"), ("$[?match(@.timezone, 'Europe/.*')]", None),
        ("$[?match(@.timezone, 'Europe/.*') == true]", "types"), ("$[?value(@..color) == 'red']", None),
        ("$[?value(@..color)]", "types"), ("$[?@.a == @['b' ]]", "syntax"), ("$ .a", None), ("$.a ", "syntax"), ("$[01]", "syntax"),
        ("$[-0]", "syntax"), ("$[9007199254740992]", "integer"), ("$['\\ud800']", "syntax"), ("$[?@ == 1e1234567890123456]", "number")]

# Patterns, a text, and whether the whole text and a part of it match; None where it is no pattern (RFC 9485, section 4).
MATCHED = [("a{2,3}", "aaa", True, True), ("[a-c]+", "abd", False, True), (".", "\n", False, False), ("a|b", "b", True, True),
           ("\\p{Lu}", "É", True, True), ("[^a]", "b", True, True), ("", "x", False, True), ("a**", "a", None, None), ("(", "", None, None)]


def failures():
    """What the model answers otherwise than the RFCs."""
    found = []
    for text, query, stated in SELECTED:
        nodes = Nodes(texts.read(text.encode())).select(queries.parse(query.encode()))
        if [path_text(path) for path, _ in nodes] != stated:
            found.append(f"{query} over {text[:40]}")
    for query, fault in READ:
        try:
            queries.parse(query.encode())
            said = None
        except queries.Refused as refused:
            said = str(refused)
        if said != fault:
            found.append(f"{query}: {said}")
    for pattern, text, whole, part in MATCHED:
        try:
            tree = patterns.parse(pattern)
            answers = patterns.matches(tree, text), patterns.occurs(tree, text)
        except patterns.NoPattern:
            answers = None, None
        if answers != (whole, part):
            found.append(f"{json.dumps(pattern)} over {json.dumps(text)}")
    return found
