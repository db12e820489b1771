"""Draws the pictures of docs/pictures, by Graphviz's `dot`, or says whether each is up to date.

The picture of the crates is made from crates.txt, that of an answer from what the guide shows of it, the others from lists of this module; each type and function that
the picture of the data names has to be in the sources.

A reader needs neither this module nor Graphviz, and neither does the check: the pictures are committed, each with the
text that it was drawn from, and each ends with the checksums of that text and of itself.
"""
import hashlib
import re
import subprocess
import sys

from krates_sources import ROOT, crates, files

FOLDER = ROOT / "docs" / "pictures"

STYLE = """
    bgcolor="white"; fontname="Helvetica"; fontsize=13; pad=0.2;
    node [fontname="Helvetica", fontsize=12, shape=box, style="filled,rounded", color="#5f6b7a", fillcolor="#f4f6f8"];
    edge [fontname="Helvetica", fontsize=11, color="#5f6b7a", arrowsize=0.7];
"""

# The rooms of the house, each with its colour and its crates, lowest first.
ROOMS = {
    "the document": ("#e8f1fb", ["krates_text", "krates_cm", "krates_cm_json", "krates_cargo"]),
    "ids and the stored graph": ("#f3eefb", ["krates_ids", "krates_graph"]),
    "resolution": (
        "#e9f7ec",
        ["krates_rules", "krates_document", "krates_questions", "krates_selection", "krates_search", "krates_resolve"],
    ),
    "checkers": ("#fdeaea", ["krates_derive", "krates_checkers", "krates_certificate", "krates_verdict"]),
    "the graph": ("#e6f6f6", ["krates_drawing", "krates_queries", "krates"]),
    "what cargo builds": ("#fdf3d8", ["krates_closure", "krates_units", "krates_manifest", "krates_build_tables", "krates_build_facts", "krates_build_checkers", "krates_build_naming", "krates_build_certificate", "krates_build_verdict", "krates_grounding", "krates_built", "krates_build_answers"]),
    "programs": (
        "#eceff1",
        [
            "krates_shown", "krates_cli", "krates_list", "krates_answers", "krates_words", "krates_report", "krates_build_report",
            "krates_host", "cargo_krates", "krates_check", "krates_foreign", "krates_c",
        ],
    ),
}


def shown(name):
    """Whether a crate is more than tests, or what only tests use."""
    return not name.endswith("_tests") and name not in {"krates_samples", "fake_cargo"}


def reaches(uses, start):
    """All crates that this one needs, over any number of steps."""
    seen, left = set(), list(uses[start])
    while left:
        name = left.pop()
        if name not in seen:
            seen.add(name)
            left.extend(uses[name])
    return seen


def direct(uses, name):
    """The crates that this one needs, without those that it needs only through others."""
    below = uses[name]
    return [one for one in below if not any(one in reaches(uses, other) for other in below)]


def crates_picture():
    """The text of the picture of the crates, room by room."""
    known = crates()
    uses = {name: [one for one in rest if one in known] for name, rest in known.items() if shown(name)}
    lines = ["digraph crates {", STYLE, "    rankdir=TB; ranksep=0.4; nodesep=0.2; newrank=true;"]
    for number, (room, (fill, names)) in enumerate(ROOMS.items()):
        lines.append(f'    subgraph cluster_{number} {{ label="{room}"; labeljust=l; color="#c5ccd3"; style=rounded;')
        lines.extend(f'        {name} [fillcolor="{fill}"];' for name in names)
        lines.append("    }")
    for name in uses:
        lines.extend(f"    {name} -> {below};" for below in direct(uses, name))
    lines.append("}")
    return "\n".join(lines)


# What a build makes, stage by stage: the name of each value, its crate, and how it is numbered. The first is a text.
VALUES = {
    "bytes": ("", "JSON"),
    "Metadata": ("krates_cm", "texts, as cargo wrote them"),
    "Ids": ("krates_document", "ids, with a number for each crate"),
    "Document": ("krates_questions", "look-ups by id, number and name"),
    "SearchState": ("krates_search", "by place of the node"),
    "Selection": ("krates_selection", "by number of the kept crate"),
    "KeptStep": ("krates_selection", "why each fact holds"),
    "Outline": ("krates_drawing", "with what the document says of each"),
    "Plan": ("krates_drawing", "by number of the node"),
    "Graph": ("krates_graph", "nodes and edges, stored"),
    "Division": ("krates_drawing", "packages, kept and others"),
    "Krates": ("krates_queries", "the graph, its steps and members"),
}

# Which value is made of which, and by which function of which crate.
MADE = [
    ("bytes", "Metadata", "krates_cm_json", "parse"),
    ("Metadata", "Ids", "krates_document", "admit"),
    ("Ids", "Document", "krates_questions", "new"),
    ("Document", "SearchState", "krates_resolve", "saturate"),
    ("SearchState", "Selection", "krates_resolve", "selection_of"),
    ("Selection", "Outline", "krates_drawing", "outline_of"),
    ("Selection", "KeptStep", "krates_selection", "kept_steps"),
    ("Outline", "Plan", "krates_drawing", "plan_within"),
    ("Plan", "Graph", "krates", "stored"),
    ("Metadata", "Division", "krates_drawing", "divide"),
    ("Division", "Graph", "krates_queries", "from_package"),
    ("Graph", "Krates", "krates_queries", "krates_of"),
    ("KeptStep", "Krates", "krates_queries", "krates_of"),
]


def data_picture():
    """The text of the picture of what a build makes, from bytes to a graph."""
    lines = ["digraph data {", STYLE, "    rankdir=TB; ranksep=0.35; nodesep=0.5;"]
    fills = {name: fill for fill, names in ROOMS.values() for name in names} | {"": "#ffffff"}
    for value, (crate, remark) in VALUES.items():
        name = f"<b>{value}</b>" + (f" <font color='#5f6b7a'>{crate}</font>" if crate else "")
        lines.append(f'    "{value}" [fillcolor="{fills[crate]}", label=<{name}<br/>{remark}>];')
    for source, target, _, call in MADE:
        name = f"{target}::new" if call == "new" else call
        lines.append(f'    "{source}" -> "{target}" [label=" {name}"];')
    lines.append("}")
    return "\n".join(lines)


def missing():
    """What the picture of the data names, and its crate doesn't have."""
    asked = [(crate, rf"^pub (?:struct|enum) {value}\b", value) for value, (crate, _) in VALUES.items() if crate]
    asked += [(crate, rf"\bfn {call}\b", call) for _, _, crate, call in MADE]
    for crate, pattern, name in asked:
        sources = files(ROOT / "crates" / crate / "src")
        if not any(re.search(pattern, path.read_text(encoding="utf-8"), re.M) for path in sources):
            yield f"{crate} has no {name}, which docs/pictures/data.svg shows"
    roomless = {name for name in crates() if shown(name)} ^ {name for _, names in ROOMS.values() for name in names}
    yield from (f"{name}: crates.txt and the rooms of scripts/docs/pictures.py differ" for name in sorted(roomless))


# The small document: `a`, a member, has an optional dependency on `b`. Each fact has the number of its rule.
EXAMPLE_FACTS = [
    ("crate_a", "crate a", "1", []),
    ("feature_b", "feature b of a", "1", []),
    ("feature_w", "feature w of a", "1", []),
    ("kept", "kept a → b", "4", ["feature_b"]),
    ("toggled", "toggled j of b by a", "7", ["feature_w", "kept"]),
    ("crate_b", "crate b", "5", ["kept"]),
    ("feature_j", "feature j of b", "7", ["toggled"]),
]

EXAMPLE_NODES = ["0: a", "1: b", "2: feature b of a", "3: feature w of a", "4: feature j of b"]

EXAMPLE_EDGES = [
    (0, 1, "Dep"), (0, 4, "Feature"), (2, 0, "Feature"), (2, 1, "Feature"), (3, 0, "Feature"), (3, 4, "Feature"),
    (4, 1, "Feature"),
]

EXAMPLE_DOCUMENT = (
    "a needs b, optional\\la declares b = [\\\"dep:b\\\"], w = [\\\"b?/j\\\"]\\la's node lists both features\\l"
    "b declares j = []\\lb's node lists it\\l"
)


def example_picture():
    """The text of the picture of the small document."""
    lines = ["digraph example {", STYLE, "    rankdir=TB; compound=true; ranksep=0.5;"]
    lines.append('    subgraph cluster_document { label="the document"; color="#c5ccd3"; style=rounded;')
    lines.append(f'        document [shape=note, style=filled, fillcolor="#e8f1fb", label="{EXAMPLE_DOCUMENT}"]; }}')
    title = "what is derivable, each fact by a rule"
    lines.append(f'    subgraph cluster_facts {{ label="{title}"; color="#c5ccd3"; style=rounded;')
    for name, text, rule, _ in EXAMPLE_FACTS:
        lines.append(f'        {name} [fillcolor="#fdf3d8", label="{text}\\nrule {rule}"];')
    lines.append("        {rank=same; crate_a -> feature_b -> feature_w [style=invis];}")
    lines.append("    }")
    for name, _, _, uses in EXAMPLE_FACTS:
        lines.extend(f"    {use} -> {name};" for use in uses)
    title = "the graph that is drawn, by number"
    lines.append(f'    subgraph cluster_graph {{ label="{title}"; color="#c5ccd3"; style=rounded;')
    for number, text in enumerate(EXAMPLE_NODES):
        fill = "#e9f7ec" if "feature" not in text else "#e6f6f6"
        lines.append(f'        node_{number} [shape=ellipse, style=filled, fillcolor="{fill}", label="{text}"];')
    lines.append("        {rank=same; node_2 -> node_3 [style=invis];}")
    lines.append("    }")
    for number, (source, target, kind) in enumerate(EXAMPLE_EDGES):
        lines.append(f'    node_{source} -> node_{target} [label=" {number} {kind}"];')
    lines.append("    document -> feature_b [style=dashed, lhead=cluster_facts, ltail=cluster_document];")
    lines.append("    feature_j -> node_3 [style=dashed, lhead=cluster_graph, ltail=cluster_facts, minlen=2];")
    lines.append("}")
    return "\n".join(lines)


LAYERS = [
    ("read", "to be read", [
        ("definitions", "definitions\\nspecs/ of each crate\\ndocs/HEADLINE.md lists those of the headline"),
        ("contracts", "contracts\\nabove each function, in words of the definitions"),
    ]),
    ("checked", "checked by machine", [
        ("bodies", "bodies\\nsrc/"),
        ("proofs", "proofs\\nproofs/, under the function's path"),
    ]),
    ("shown", "what shows that the contracts say enough", [
        ("rows", "worked examples\\ncrates ending in _tests"),
        ("edits", "wrong bodies that the prover refuses\\nmust-fail/, wrong-bodies/"),
        ("corpus", "real documents, lists and graphs\\nscripts/compare.py"),
    ]),
    ("trusted", "trusted", [
        ("kit", "the toolchain and its logic, the C library,\\nthe statements of serde_json, json, fast_float,"
                "\\nsemver and percent_encoding"),
    ]),
]

# What each box does with another, and whether it is drawn above it.
BETWEEN_LAYERS = [
    ("definitions", "contracts", "give the words of", True),
    ("contracts", "bodies", "are met by", True),
    ("bodies", "proofs", "are proved by", True),
    ("proofs", "kit", "are checked by", True),
    ("rows", "contracts", "try", False),
    ("edits", "contracts", "break", False),
    ("corpus", "contracts", "agree with", False),
]


def proof_picture():
    """The text of the picture of what is read, checked, shown and trusted."""
    lines = ["digraph proof {", STYLE, "    rankdir=TB; ranksep=0.6; nodesep=0.4;"]
    fills = {"read": "#fdf3d8", "checked": "#e9f7ec", "shown": "#e8f1fb", "trusted": "#fdeaea"}
    for name, title, boxes in LAYERS:
        lines.append(f'    subgraph cluster_{name} {{ label="{title}"; labeljust=l; color="#c5ccd3"; style=rounded;')
        lines.extend(f'        {box} [fillcolor="{fills[name]}", label="{text}"];' for box, text in boxes)
        lines.append("    }")
    for source, target, text, above in BETWEEN_LAYERS:
        lines.append(f'    {source} -> {target} [label=" {text}", constraint={"true" if above else "false"}];')
    lines.append("    rows -> edits -> corpus [style=invis];")
    lines.append("}")
    return "\n".join(lines)


def answer_picture():
    """The text of the picture that the guide shows as an answer of `cargo krates graph`."""
    guide = (ROOT / "docs" / "GUIDE.md").read_text(encoding="utf-8")
    return re.search(r"^\$ cargo krates graph .*?^(digraph crates \{.*?^\})$", guide, re.M | re.S)[1]


PICTURES = {
    "answer": answer_picture,
    "crates": crates_picture,
    "data": data_picture,
    "example": example_picture,
    "proof": proof_picture,
}


def mark(text, picture):
    """The last line of a picture that is drawn from the text."""
    sums = [hashlib.sha256(one.encode()).hexdigest() for one in (text, picture)]
    return f"<!-- SHA-256 of the text that it is drawn from: {sums[0]}; of the lines above: {sums[1]} -->\n"


def is_stale(name, text):
    """Whether a picture, or the text that is committed beside it, is of something else, or was changed by hand."""
    source, picture = (FOLDER / f"{name}.{kind}" for kind in ("dot", "svg"))
    if not source.exists() or not picture.exists() or source.read_text(encoding="utf-8") != text:
        return True
    *drawn, last = picture.read_text(encoding="utf-8").splitlines(keepends=True)
    return last != mark(text, "".join(drawn))


def draw(name, text):
    """Draws a picture, with the text that it is drawn from beside it."""
    source, picture = FOLDER / f"{name}.dot", FOLDER / f"{name}.svg"
    source.write_text(text, encoding="utf-8")
    ran = subprocess.run(["dot", "-Tsvg", str(source)], check=True, stdout=subprocess.PIPE, encoding="utf-8")
    picture.write_text(ran.stdout + mark(text, ran.stdout), encoding="utf-8")


def check():
    """Whether each picture is up to date, and what it names is in the sources; prints what isn't."""
    wrong = list(missing())
    for name, text in PICTURES.items():
        if is_stale(name, text() + "\n"):
            wrong.append(f"docs/pictures/{name}.svg isn't what scripts/docs.py pictures draws")
    for line in wrong:
        print(line, file=sys.stderr)
    return not wrong


def write():
    """Draws all pictures."""
    FOLDER.mkdir(exist_ok=True)
    for name, text in PICTURES.items():
        draw(name, text() + "\n")
