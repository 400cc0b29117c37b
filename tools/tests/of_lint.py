"""Tests of tools/lint."""
import os
import re
import sys
import tempfile

from base import EXAMPLES, NDC, ROOT, TOOLS, all_cases, call, cases_of, holds, read, refused, same, tool

sys.path.insert(0, TOOLS)
from batch_texts import Wrong, batch_in  # noqa: E402
from dump_faults import Batch, check_batch, dump_fault  # noqa: E402
from faults import text_of  # noqa: E402
from script_faults import ACTIONS, COMMANDS, OTHERS, script_faults  # noqa: E402

HEAD = "ndc 1\nincrement 10\nshards 2\nlimit 100\ncluster A 1\ncluster B 2\n"
# Lines after that header: the line, the column of the word, the cause, and what is told of it.
BODY = [
    ("singal A alpha w1 p x", 1, "BadLine", "the nearest is `signal`"),
    ("SETTLE", 1, "BadLine", "the nearest is `settle`"),
    ("signal A alpha w1 p", 20, "BadLine", "INPUT is missing"),
    ("signal A alpha w1 p x y", 23, "BadLine", "`y` is a word too many"),
    ('signal A alpha w1 p "x y"', 24, "BadLine", "there are no quotes"),
    ("signal A alpha w1 p x # late", 23, "BadLine", "it has a line of its own"),
    ("cancel A alpha caf\xc3\xa9", 19, "BadLine", "U+00E9 LATIN SMALL LETTER E WITH ACUTE"),
    ("cancel A\talpha w1", 9, "BadLine", "a tab"),
    ("cancel A alpha w1\r", 18, "BadLine", "carriage return"),
    ("# \x01", 3, "BadLine", "the byte 0x01"),
    ("cancel A alpha " + "w" * 201, 16, "BadLine", "201 bytes"),
    ("A signal alpha w1 p x", 1, "BadLine", "`A` is a cluster"),
    ("timer t A", 1, "BadLine", "an action of `respond`"),
    ("shards 3", 1, "BadLine", "a line of the header"),
    ("end", 1, "BadLine", "after a `burst` alone"),
    ("9 ok 1.1", 1, "BadLine", "a report's has"),
    ("levels A B 2", 12, "BadLine", "SHARD is 0 to 1"),
    ("pull A B 0 1000001", 12, "BadLine", "COUNT is 0 to 1,000,000"),
    ("pull A B 0", 11, "BadLine", "COUNT is missing"),
    ("reset A alpha w1 0", 18, "BadLine", "EVENT is 1 to 1,000,000"),
    ("reset A alpha w1 -4", 18, "BadLine", "has a sign"),
    ("lose A B 0 01", 12, "BadLine", "a leading zero"),
    ("lose A B 0 1.0", 12, "BadLine", "is no number"),
    ("retain A alpha 1001", 16, "BadLine", "DAYS is 1 to 1,000"),
    ("pull A A", 8, "BadLine", "READER and SOURCE differ"),
    ("domains B B", 11, "BadLine", "TO and FROM differ"),
    ("handover A alpha A", 18, "BadLine", "C and TARGET differ"),
    ("register A alpha A 7 A B A", 26, "BadLine", "listed twice"),
    ("respond A alpha w1 timr t", 20, "BadLine", "the nearest is `timer`"),
    ("respond A alpha w1 activity a", 30, "BadLine", "TYPE of the action `activity` is missing"),
    ("respond A alpha w1 complete ok timer t", 32, "BadLine", "closes the run"),
    ("pull A C", 8, "UnknownName", "the header has no cluster `C`"),
    ("gaps b", 6, "UnknownName", "the nearest is `B`"),
    ("pull C C", 8, "BadLine", "READER and SOURCE differ"),
    ("burst A\nreset A alpha w1 4\nend", 1, "BadLine", "a burst holds nothing else"),
    ("burst A\ncancel B alpha w1\nend", 8, "BadLine", "the burst is at `A`"),
    ("burst A\ncancel C alpha w1\nend", 8, "BadLine", "the burst is at `A`"),
    ("burst A\nend A", 5, "BadLine", "a word too many"),
]
# Headers: the text, the line and column, the cause, and what is told of it.
HEADERS = [
    ("", "1", "BadHeader", "the input is empty"),
    ("\xef\xbb\xbfndc 1\n", "1:1", "BadHeader", "a byte-order mark"),
    ("\xff\xfen\0d\0", "1:1", "BadHeader", "UTF-16"),
    ("ndc 1\r\nincrement 10\r\n", "1:6", "BadHeader", "carriage return"),
    ("dump 2 alpha w1\n", "1:1", "BadHeader", "this is a dump"),
    ("7 ok 1\n", "1:1", "BadHeader", "this is a report"),
    ("ndc 2\n", "1:5", "BadHeader", "the number 1, and not 2"),
    ("ndc 1\nincremnt 10\n", "2:1", "BadHeader", "the nearest is `increment`"),
    ("ndc 1\nincrement 0\n", "2:11", "IncrementLimit", "1 to 1,000,000,000,000"),
    ("ndc 1\nincrement 01\n", "2:11", "BadHeader", "a leading zero"),
    (HEAD.replace("shards 2", "shards 65"), "3:8", "BadHeader", "S is 1 to 64"),
    (HEAD.replace("limit 100", "limit 9"), "4:7", "BadHeader", "L is 10 to 204,800"),
    (HEAD.replace("limit 100\n", ""), "4:1", "BadHeader", "goes on with `limit L`"),
    (HEAD.split("cluster")[0], "5", "NoClusters", "has no cluster"),
    (HEAD.split("cluster")[0] + "clutser A 1\n", "5:1", "NoClusters", "the nearest is `cluster`"),
    (HEAD.replace("B 2", "A 2"), "6:9", "SameName", "the name of a cluster above"),
    (HEAD.replace("B 2", "B 1"), "6:11", "SameInitial", "the initial version of A"),
    (HEAD.replace("B 2", "B 10"), "6:11", "NotBelowIncrement", "below the increment, which is 10"),
    (HEAD + "".join(f"cluster N{it} {it}\n" for it in range(3, 10)), "13:9", "TooMany", "at most 8"),
    (HEAD + "burst A\n", "8", "BadLine", "has no `end`"),
    (HEAD + "\n" * 99_995, "100001", "LineLimit", "100,000 are the most"),
]
RUN = "00000000-0000-0001-0000-000000000001"
# Changes of the dump of examples/conflict.ndc: what is replaced by what, the place, the cause, and what is told of it.
DUMPS = [
    ("dump 2", "dump 3", "1:1: BadFrame", "the forms 1 and 2"),
    ("dump 2 ", "dump 2  ", "1:1: BadFrame", "single spaces"),
    ("dump 2", "ndc 2", "1:1: BadFrame", "this is a script"),
    ('"task":1,"version":1,"workflow"', '"tsk":1,"version":1,"workflow"', "2:239: MissingKey", "it has a key `tsk`"),
    ('"workflowType"', '"typed":1,"workflowType"', "2:93: ExtraKey", "the key `typed`"),
    ('"version":1,"workflow":"w1"}\n{', '"version":1.0,"workflow":"w1"}\n{', "2: WrongKind", "the number 1.0"),
    ("WorkflowExecutionStarted", "WorkflowStarted", "2: Range", "the nearest is `WorkflowExecutionStarted`"),
    ('{"domain"', '{ "domain"', "2:2: NotCanonical", "written otherwise"),
    ('"order"', "order", "2:108: NotJson", "no JSON from here"),
    ('"order"', '"\\ud800"', "2: NotJson", "half of a pair"),
    ('"order"', '"\xff"', "2:109: NotJson", "UTF-8"),
    ('"task":1,"version":1,"workflow"', '"task":1e999,"version":1,"workflow"', "2: NotJson", "greater than a float"),
    ('"task":1,"version":1,"workflow"', '"task":NaN,"version":1,"workflow"', "2: NotJson", "no value of JSON"),
    ('"task":1,"version":1,"workflow"', '"task":1,"task":1,"version":1,"workflow"', "2:249: NotCanonical", "the key `task` stands twice"),
    ('"eventId":2,', '"eventId":3,', "2: IdsNotConsecutive", "after event 1 comes 3"),
    ('"parent":null', '"parent":{"task":1,"version":1}', "2: BadFirst", "its first event is not event 1"),
    ('"eventId":2,"eventType":"DecisionTaskScheduled","version":1', '"eventId":2,"eventType":"DecisionTaskScheduled","version":2', "2: MixedVersions", "event 2 has version 2"),
    ('"workflow":"w1"', '"workflow":"w2"', "2: Foreign", "alpha w2"),
    ('"parent":{"task":1,"version":1},"run":"' + RUN + '","task":2,"version":2', '"parent":{"task":1,"version":0},"run":"' + RUN + '","task":2,"version":2', "4: batch 2.2: MissingParent", "its parent 0.1 is not in the dump"),
    ('"eventId":4', '"eventId":5', "5: batch 2.3: NotWellFormed", "ends with event 3, and it begins with event 5"),
    ('"input":"x","origin"', '"input":"z","origin"', "5: batch 2.3: OriginUnfit", "whose `input` is x, and not z"),
    ('"origin":{"event":3,"run":"' + RUN + '","version":1}', '"origin":{"event":3,"run":"' + RUN + '","version":2}', "5: batch 2.3: OriginTwice", "event 3 of batch 2.2"),
    ('"eventType":"WorkflowExecutionSignaled","input":"y","signalName":"b1"', '"eventType":"TimerFired","timerId":"t"', "4: batch 2.2: BadReplay", "event 3, TimerFired: no timer t is pending"),
    ("signals=2", "signals=3", "10:58: BadView", "wanted: state next=5 decision=2 activities=- timers=- children=- signals=2 cancel=no"),
    (" open current", " open", "6:47: BadView", f"wanted: run {RUN} open current"),
    ("branch 1.2 3@1\n", "", "7:1: BadView", "wanted: branch 1.2 3@1"),
    ("end\n", "end", "11:4: BadView", "no line end"),
    ("end\n", "", "11: BadView", "wanted: end"),
    ("end\n", "end\nmore\n", "12:1: BadView", "after the line `end`"),
]


def dump_of_conflict():
    report = call(NDC, "run", given=read(f"{ROOT}/examples/conflict.ndc") + "dump A alpha w1\n")
    return report[report.index("dump 2 ") :]


def linted(text, *words, status):
    """What lint tells of a text with bytes as characters."""
    with tempfile.TemporaryDirectory() as room:
        with open(f"{room}/it", "w", encoding="latin-1", newline="") as it:
            it.write(text)
        return tool("lint", *words, f"{room}/it", status=status).replace(f"{room}/it", "it")


def test_lint_agrees_with_the_program_on_every_transcript():
    kinds = {"run": ("script", 3, lambda text: next(script_faults(text), None)), "rebuild": ("dump", 7, dump_fault), "inspect": ("dump", 7, dump_fault)}
    bad, good = {"script": 0, "dump": 0}, 0
    for case in all_cases():
        word = case.words[1] if case.words[:1] == ["ndc"] and len(case.words) > 1 else None
        if word not in kinds or case.status not in (0, kinds[word][1]):
            continue
        what, _, first = kinds[word]
        fault = first(case.given)
        same((case.name, f"ndc: {what} {fault.told}" if fault else ""), (case.name, case.told))
        if fault:
            # (that it is told whole, whatever bytes there are)
            assert fault.cause in text_of("it", fault, case.given.split("\n")), case.name
        bad[what], good = bad[what] + (fault is not None), good + (fault is None)
    assert bad["script"] >= 340 and bad["dump"] >= 200 and good >= 200, (bad, good)


def cause_of_batch(line, form):
    """Why a line is the text of no batch, as the transcripts of batches tell it; nothing where it is one."""
    try:
        check_batch(Batch(batch_in(line, form), 1))
    except Wrong as wrong:
        return wrong.cause
    return ""


def test_lint_agrees_with_the_program_on_every_batch():
    cases = list(cases_of(f"{ROOT}/crates/ndc_cases/data/batches.cases"))
    for case in cases:
        told = case.told.removeprefix("Check(").removesuffix(")")
        same((case.name, cause_of_batch(case.given, 2 if case.words == ["batch"] else 1)), (case.name, told))
    assert len(cases) >= 115 and sum(it.told != "" for it in cases) >= 80


def test_lint_of_lines():
    for line, column, cause, part in BODY:
        number = 7 + ("\n" in line)
        told = linted(HEAD + line + "\n", status=3)
        holds(part, told)
        same(told.split(": ")[:2], [f"it:{number}:{column}", cause])


def test_lint_of_headers():
    for text, place, cause, part in HEADERS:
        told = linted(text, "--script", status=3)
        holds(part, told)
        same(told.split(": ")[:2], [f"it:{place}", cause])


def test_lint_of_dumps():
    whole = dump_of_conflict()
    for before, after, place, part in DUMPS:
        assert before in whole, before
        told = linted(whole.replace(before, after, 1), "--dump", status=7)
        holds(part, told)
        assert told.startswith(f"it:{place}: "), f"{place}: {told}"


def test_lint_marks_the_word():
    same(linted(HEAD + "pull A  C\n", status=3), "it:7:9: UnknownName: the header has no cluster `C`\n    pull A  C\n            ^\n    wanted: one of A, B\n")


def test_lint_as_the_page_shows_it():
    page = read(f"{ROOT}/docs/tools.md")
    lines = linted(HEAD + "singal A alpha w1 ping x\n", status=3)
    dump = linted(dump_of_conflict().replace("signals=2", "signals=3"), status=7)
    for told, name in ((lines, "case.ndc"), (dump, "w1.dump")):
        holds("```\n" + told.replace("it:", f"{name}:", 1) + "```\n", page)


def test_lint_tells_of_every_line():
    told = linted(HEAD + "pull A A\nsettle\nwork C\nend\n", "--all", status=3)
    same(re.findall(r"^it:(\d+):\d+: (\w+)", told, re.M), [("7", "BadLine"), ("9", "UnknownName"), ("10", "BadLine")])


def test_lint_knows_a_dump_from_a_script():
    whole = dump_of_conflict()
    same(linted(whole, status=0), "")
    holds("this is a dump", linted(whole, "--script", status=3))
    holds("this is a script", linted(HEAD, "--dump", status=7))
    holds("BadFrame", linted(whole.split("\n", 1)[1], status=7))


def test_lint_finds_nothing_in_examples():
    for name in EXAMPLES:
        same(tool("lint", name), "")


def test_lint_of_what_cannot_be_read():
    holds("lint: nowhere: No such file or directory", refused("lint", "nowhere"))
    holds("usage: lint", refused("lint"))
    assert os.path.isdir(ROOT) and "directory" in refused("lint", ROOT)
    holds("input limit", refused("lint", "-", given="#" * 16_777_217, status=6))


def test_lint_knows_the_lines_of_the_page():
    """The words and operands of each line stand in the operators' page as lint has them."""
    page = read(f"{ROOT}/docs/operators.md")
    lines = re.search(r"^## The lines\n(.*?)^## ", page, re.M | re.S)[1]
    cells = {part.strip("`").split(",")[0] for cell in re.findall(r"^\| (`[^|]*) \|", lines, re.M) for part in re.findall(r"`[^`]+`", cell)}
    known = {**COMMANDS, **OTHERS, **ACTIONS}
    wanted = {f"{word} {form}".strip() for word, form in known.items()} - {"burst C"} | {"pull READER SOURCE SHARD COUNT"}
    missing = wanted - cells - {it for it in wanted if f"`{it}" in page}
    assert not missing, sorted(missing)
