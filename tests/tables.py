"""Table files in Burmeister's layout, and the published examples that the runs and the comparison use."""


def table(rows, properties, marks, end="\n", title=""):
    """A table file: names, then a line of marks for each row."""
    lines = ["B", title, str(len(rows)), str(len(properties)), ""] + list(rows) + list(properties) + list(marks)
    return "".join(line + end for line in lines).encode()


def numbered(n, marks):
    """Rows and properties named by their numbers, from 0 on."""
    return table([str(i) for i in range(len(marks))], [str(i) for i in range(n)], marks)


def costly(n):
    """n rows, row i lacking only property i: no rule holds, and every set is visited."""
    return numbered(n, ["".join("." if j == i else "X" for j in range(n)) for i in range(n)])


def from_sets(properties, rows):
    """rows: a name and the properties it has."""
    marks = ["".join("X" if p in has else "." for p in properties) for _, has in rows]
    return table([name for name, _ in rows], properties, marks)


EXAMPLE_ROWS = ["XX.", ".X.", ".XX", "..."]


def example(end="\n"):
    """The scope document's example."""
    return table(["1", "2", "3", "4"], ["a", "b", "c"], EXAMPLE_ROWS, end)


# Report 001, Example 2.24: the complete table over m1 to m4, and the rules it ends in.
REPORT = (
    ["m1", "m2", "m3", "m4"],
    [("o1", "m1 m2 m3".split()), ("o2", "m1 m3".split()), ("o3", "m1 m3 m4".split()), ("o4", "m1 m2".split())],
    ["-> m1", "m1 m4 -> m3"],
)

# The planets, with the base published with the R package fcaR.
PLANETS = (
    "small medium large near far moon no_moon".split(),
    [
        ("Mercury", "small near no_moon".split()),
        ("Venus", "small near no_moon".split()),
        ("Earth", "small near moon".split()),
        ("Mars", "small near moon".split()),
        ("Jupiter", "large far moon".split()),
        ("Saturn", "large far moon".split()),
        ("Uranus", "medium far moon".split()),
        ("Neptune", "medium far moon".split()),
        ("Pluto", "small far moon".split()),
    ],
    [
        "no_moon -> small near",
        "far -> moon",
        "near -> small",
        "large -> far moon",
        "medium -> far moon",
        "medium large far moon -> small near no_moon",
        "small near moon no_moon -> medium large far",
        "small near far moon -> medium large no_moon",
        "small large far moon -> medium near no_moon",
        "small medium far moon -> large near no_moon",
    ],
)

# Living beings and water (Ganter and Wille), over a to i.
LIVING = (
    list("abcdefghi"),
    [
        ("leech", list("abg")),
        ("bream", list("abgh")),
        ("frog", list("abcgh")),
        ("dog", list("acghi")),
        ("spike-weed", list("abdf")),
        ("reed", list("abcdf")),
        ("bean", list("acde")),
        ("maize", list("acdf")),
    ],
    [
        "-> a",
        "a i -> c g h",
        "a h -> g",
        "a f -> d",
        "a e -> c d",
        "a d g -> b c e f h i",
        "a c g -> h",
        "a c d e f -> b g h i",
        "a b d -> f",
        "a b c g h i -> d e f",
    ],
)

PUBLISHED = {"report-2-24": REPORT, "planets": PLANETS, "living-beings": LIVING}
