"""What the page is asked, and files of orders."""
import json
import pathlib
import random

HERE = pathlib.Path(__file__).resolve().parent
QUERIES = [
    "$.order[?@ > 250]",
    "$",
    "$..price",
    "$..*",
    '$..[?search(@, "tea(pot)? ")]',
    "$.message",
    '$.user[?@ == "Zoë Brandt"]',
    "$.order.items[-1:].title",
    "$.request['path','duration_ms']",
    "$.order.items[?@.tags[?@ == 'gift']].sku",
    "$[?length(@) > 20]",
    "$.nothing",
    "$..[0]",
    "$['time','time']",
    "$.order.items[*].tags[*]",
    "$..[?@ == null]",
    "$.order.items[::-1]['sku','price']",
    "$[?@.id == $.order.id]",
    "$..name",
    "$.order.items[?count(@.tags[*]) > 1]",
]
CONDITIONS = [
    ('@.level == "error" && @.service == "payments"', ""),
    ("@.order.total > 200", "$.order['id','total']"),
    ('match(@.time, ".*T10:4.*")', "$.service"),
    ("!@.user", "$..name"),
    ("-1 < @.order.total", "$.order.items[*].price"),
    ("@.order.user.name == 'Mia O\\'Neil' || @.message", "$..[?@ > 20]"),
]
TABLES = [
    ("@.order.total > 200", ["$.order.id", "$.order.user.name", "$.order.total"]),
    ("", ["$.message", "$.level", "$['a,b']"]),
    ("@.order", ["$.order", "$.order.items[0].title"]),
]
# Texts over several lines, what the page proposes for each, and whether each value of it is accepted.
DOCUMENTS = [
    ('\n{"a": [1, "]}",\n2]}\n', "json", True),
    ('\ufeff{\r\n  "a": "\\"{",\r\n  "b": [true, {"c": 1.50}]\r\n}\r\n{"a": 2} "x" 5\n', "json", True),
    ('{"a": [\n{"b": 1, "b": 2}]} {"c":\n3}\n[4] {"d"\n5}\n{"e": "é"}\n', "json", False),
    ('[\n  {"id": 1, "at": [5]},\n  {"id": 2}, [3,\n4], "y"\n]\n{"id": 6}\n', "elements", True),
    ('[{"id": 1},\n{"id": 1, "id": 2}, x]\n[7]\n', "elements", False),
    (' [{"id": 1}, {"id": 2}]', "elements", True),
    ('[1]\n[2]\n', "", True),
    ('{"a": 1}\n{"b": [\n', "", False),
    ('{"a": 1, "a": [2]}\n{}\n', "", False),
    ("{\"a\": [", "", False),
    ("5", "", True),
]
PATTERNS = [
    ("query", r"$[?match(@.a, '\\d+') || search(@.b, 'x|(')]"),
    ("query", r'$..[?search(@, "\u00e9(\t\n\u0001\u0085")][?match(@, "[")]'),
    ("query", "$[?match(@.a, '[0-9]+')]"),
    ("where", "search(@.a, '{') && !match(@.b, 'x{2,1}')"),
    ("where", "@.a == '('"),
]
# Beside those of the worked examples: a fault of each kind.
FAULTS = [
    ("query", "$.message["),
    ("query", "$[9007199254740993]"),
    ("query", "$[?foo(@)]"),
    ("query", "$[?length(@)]"),
    ("query", "$[?@ == 'é\\x']"),
    ("query", "$.😀.a b"),
    ("query", "abc"),
    ("query", "$[?@.a == 1e1234567890123456]"),
    ("query", "@.a"),
    ("where", '@.level == "err'),
    ("where", "@.a &"),
    ("where", "length(@.a)"),
    ("where", "@.a == 1e1234567890123456"),
    ("where", "@.a = 1"),
    ("where", "@.é.b ~ 1"),
]


def write_orders(path, size):
    """Orders, with a line in a hundred that is none, up to some bytes."""
    rng, written, number = random.Random(5), 0, 0
    with open(path, "w", encoding="utf-8") as file:
        while written < size:
            number += 1
            items = [
                {
                    "sku": f"T-{rng.randrange(900)}",
                    "name": rng.choice(["teapot", 'mug "Monday"', "Café crème cups", "kettle"]),
                    "price": round(rng.uniform(2, 99), 2),
                    "tags": rng.sample(["gift", "kitchen", "office", "food"], rng.randrange(4)),
                }
                for _ in range(1 + rng.randrange(5))
            ]
            order = {
                "id": number,
                "user": {"id": rng.randrange(9), "name": rng.choice(["Zoë Brandt", "Mia O'Neil", "李雷"])},
                "items": items,
                "total": round(sum(it["price"] for it in items), 2),
            }
            row = {
                "time": f"2026-03-02T{number % 24:02}:4{number % 10}:00Z",
                "level": rng.choice(["info", "error"]),
                "service": "orders",
                "order": order,
                "total": order["total"],
                "status": rng.choice(["late", "sent", None]),
            }
            line = (
                json.dumps(row, ensure_ascii=rng.random() < 0.5)
                if number % 100
                else rng.choice(['{"a":1,"a":2}', "{", "", '"\\ud800"'])
            )
            written += file.write(line + "\n")


def stated_faults(name):
    with open(HERE / name, encoding="utf-8") as file:
        rows = [line.rstrip("\n").split("\t") for line in file]
    # The page takes the blanks away that stand around a text, and an empty text is none.
    return [(text, int(place)) for place, _, text in rows if text and text == text.strip()]
