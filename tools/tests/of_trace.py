"""Tests of tools/trace, and of what tools/listing tells beside its lines."""
import os
import re
import subprocess
import tempfile
import time
import xml.dom.minidom

from base import EXAMPLES, HERE, NDC, ROOT, TOOLS, holds, read, refused, same, tool

CONFLICT, LOSS = f"{ROOT}/examples/conflict.ndc", f"{ROOT}/examples/loss.ndc"
HEAD = "ndc 1\nincrement 10\nshards 1\nlimit 100\ncluster A 1\ncluster B 2\nregister A alpha A 7\ndomains B A\nstart A alpha w1 order\n"


def traced(text, *words, status=0):
    return tool("trace", *words, "-", "alpha", "w1", given=HEAD + text, status=status)


def test_trace():
    same(tool("trace", CONFLICT, "alpha", "w1"), read(f"{HERE}/conflict.trace"))
    same(tool("trace", LOSS, "alpha", "w1"), read(f"{HERE}/loss.trace"))


def test_trace_as_the_page_shows_it():
    holds("```\n" + read(f"{HERE}/conflict.trace") + "```\n", read(f"{ROOT}/docs/tools.md"))


def test_trace_goes_on_where_a_run_continues():
    told = traced("decide A alpha w1\nrespond A alpha w1 continue order\npull B A\nwork B\n")
    holds("+1.3 +1.4 -> 1.4 run 1.4", told)
    assert " was " not in told, told


def test_trace_tells_of_a_switch():
    """A reset writes the batch that closes the run, and one that begins another run with no carrier."""
    holds("+1.4 +1.5 -> 1.5 was 1.3 run 1.5", traced("decide A alpha w1\nrespond A alpha w1\nreset A alpha w1 4\n"))


def test_trace_has_rows_of_faults_and_of_who_writes():
    lines = "signal A alpha w1 p x\npull B A\nrepeat B A 0 0\nmove B A 0 0 1\ndamage B A 0 2 10\ndamage B A 0 0 100000\nlose B A 0 0\nlose B A 0 5\nfailover B alpha B\nfailover A beta A\nhandover A alpha B\ncomplete B alpha\npurge B\nmergeletters B\n"
    rows = dict(re.findall(r"^(\d+) .*?  +(\S.*)$", traced(lines, "--width", "200"), re.M))
    wanted = {12: "repeated", 13: "moved", 14: "damaged: aside", 15: "damaged: whole", 16: "lost", 17: "refused NoSuchPlace", 18: "version 2", 20: "version 2", 21: "refused Overtaken 2", 22: "purged 1", 23: "merged: arrived 0 learned 0"}
    same({it: rows.get(str(it)) for it in range(11, 24)}, {11: None, 19: None, **wanted})


def test_trace_names_a_burst():
    holds("13 burst A .. end          +1.2 -> 1.2", traced("burst A\nsignal A alpha w1 p x\n\nend\n", status=0))


def test_trace_fits_a_page():
    for most in (60, 80, 120):
        for name in EXAMPLES:
            domain, workflow = re.search(r"^start \S+ (\S+) (\S+)", read(name), re.M).groups()
            rows = tool("trace", "--width", str(most), name, domain, workflow).splitlines()
            assert max(map(len, rows)) <= most and len(rows) > 2, (name, most)
    names = ["A" * 50, *"BCDEFGH"]
    many = "ndc 1\nincrement 10\nshards 1\nlimit 100\n" + "".join(f"cluster {name} {at}\n" for at, name in enumerate(names))
    many += f"register {names[0]} alpha {names[0]} 7\nstart {names[0]} alpha w1 order\ndomains B {names[0]}\nfailover B alpha B\nsettle\n"
    rows = tool("trace", "--width", "103", "-", "alpha", "w1", given=many).splitlines()
    assert max(map(len, rows)) <= 103 and sum(it.count("A") for it in rows if "register" not in it) >= 100, rows
    holds("at least 103 characters", refused("trace", "--width", "102", "-", "alpha", "w1", given=many))
    whole = "".join(tool("trace", "--width", "60", LOSS, "alpha", "w1").split())
    assert all("".join(it.split()) in whole for it in ("waits 1.4 for 1.1", "+1.1 +1.2 +1.3 +1.4"))


def test_trace_of_no_workflow():
    holds("learns anything of alpha w9; the script's commands go to: alpha w1, alpha w2", refused("trace", CONFLICT, "alpha", "w9", status=1))
    holds("--width wants a number", refused("trace", "--width", "5", CONFLICT, "alpha", "w1"))
    holds("script line 1: BadHeader", refused("trace", "-", "alpha", "w1", given="ndc 2\n", status=3))


def test_pictures_of_traces_are_documents():
    for name in EXAMPLES:
        domain, workflow = re.search(r"^start \S+ (\S+) (\S+)", read(name), re.M).groups()
        told = tool("trace", "--picture", name, domain, workflow)
        document = xml.dom.minidom.parseString(told).documentElement
        assert float(document.getAttribute("width")) <= 1000, name
        boxes = [it for it in document.getElementsByTagName("rect") if it.getAttribute("class") != "back"]
        assert all(float(it.getAttribute("x")) + float(it.getAttribute("width")) <= 1000 for it in boxes)
        holds("the current branch is another one (was)", told)
        apart([[float(it.getAttribute(at)) for at in ("x", "y", "width", "height")] for it in boxes])


def apart(boxes):
    """That no box lies over another."""
    for place, (x, y, width, height) in enumerate(boxes):
        for other in boxes[:place]:
            assert x >= other[0] + other[2] or other[0] >= x + width or y >= other[1] + other[3] or other[1] >= y + height, (x, y)


def test_listing_of_lines_outside_the_script():
    holds("none is to be shown: the lines of the body are 7 to 25", refused("listing", "--lines", "26-30", CONFLICT))
    holds("the lines of the body are 7 to 25", refused("listing", "--lines", "1-6", CONFLICT))
    holds("the greater one last", refused("listing", "--lines", "9-8", CONFLICT))
    same(tool("listing", "--lines", "25-99", CONFLICT), "25 start A alpha w2 order   refused NotActive 2\n")


def test_a_notice_comes_through_at_once():
    with tempfile.TemporaryDirectory() as room:
        slow, notice = f"{room}/slow", "ndc: not built: this is a checked, unproved run"
        with open(slow, "w") as it:
            it.write(f"#!/bin/sh\necho '{notice}' >&2\nsleep 3\nexec {NDC} \"$@\"\n")
        os.chmod(slow, 0o755)
        begun = time.monotonic()
        with subprocess.Popen([f"{TOOLS}/listing", CONFLICT], env={**os.environ, "NDC": slow}, stdout=subprocess.PIPE, stderr=subprocess.PIPE, text=True) as run:
            same(run.stderr.readline(), notice + "\n")
            seen = time.monotonic() - begun
            holds("9 start A alpha w1 order   ok 1.1", run.stdout.read())
        assert run.returncode == 0 and time.monotonic() - begun > 3 and time.monotonic() - begun - seen > 1, seen
