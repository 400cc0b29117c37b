"""Tests of tools/explore."""
import re

from base import EXAMPLES, HERE, NDC, ROOT, call, holds, read, refused, same, tool

FAILOVER = f"{ROOT}/examples/failover.ndc"


def is_within(few, many):
    """Whether lines stand among others in their order."""
    rest = iter(many)
    return all(it in rest for it in few)


def test_explore_finds_nothing():
    same(tool("explore", "1", "200"), "explore: 200 scripts, no fault\n")


def test_explore_makes_the_same_scripts():
    same(tool("explore", "--show", "a", "3"), tool("explore", "--show", "a", "3"))


def test_explore_finds_a_wrong_comparison():
    told = tool("explore", "1", "200", "--against", f"{HERE}/wrong_adapter", status=1)
    head, _, least = told.partition("\n")
    assert head.startswith("explore: seed 1, script"), told
    assert len(least.splitlines()) <= 20, least
    assert call(f"{HERE}/wrong_adapter", given=least) != call(NDC, "run", given=least)


def test_explore_around_a_script_keeps_its_lines():
    for name in EXAMPLES:
        own = [it for it in read(name).splitlines() if it and not it.startswith("#")]
        made = [tool("explore", "--around", name, "--show", "a", str(place)).splitlines() for place in range(3)]
        assert all(is_within(own, it) for it in made), name
        if sum(it.startswith("cluster ") for it in own) > 1:
            assert all(len(it) > len(own) for it in made) and made[0] != made[1], name
            holds("\nsettle\n", "\n".join(made[0]))
        same(tool("explore", "--around", name, "a", "5"), "explore: 5 scripts, no fault\n")


def test_explore_around_a_script_finds_a_wrong_comparison():
    """As it stands the script has one branch at a time; a fault that is put between its lines makes two."""
    told = tool("explore", "--around", FAILOVER, "1", "200", "--against", f"{HERE}/wrong_adapter", status=1)
    assert re.match(r"explore: seed 1, script \d+: line \d+ of the report", told), told
    least = told.partition("\n")[2]
    assert call(f"{HERE}/wrong_adapter", given=least) != call(NDC, "run", given=least)
    holds("as it stands: line", tool("explore", "--around", f"{ROOT}/examples/conflict.ndc", "1", "1", "--against", f"{HERE}/wrong_adapter", status=1))


def test_explore_judges_a_script():
    same(tool("explore", "--judge", FAILOVER, status=1), "")
    holds("line", tool("explore", "--judge", f"{ROOT}/examples/conflict.ndc", "--against", f"{HERE}/wrong_adapter", status=0))


def test_explore_of_what_is_no_script():
    same(refused("explore", "--judge", "-", given="ndc 2\n", status=3), "ndc: script line 1: BadHeader\n")
    same(refused("explore", "--around", "-", "1", "2", given="ndc 2\n", status=3), "ndc: script line 1: BadHeader\n")
    holds("explore: /nowhere is no program", refused("explore", "1", "1", "--against", "/nowhere"))
    holds("explore: nowhere: No such file", refused("explore", "--around", "nowhere", "1", "1"))
    holds("a seed and a count are wanted", refused("explore", "--around", FAILOVER))
