"""The package in pytest: a cluster for each test, and the run of each test that fails.

The wheel brings the plugin. Without it, write `pytest_plugins = ["linsim.pytest_plugin"]` in
conftest.py.
"""
from __future__ import annotations

import hashlib
import os
import re
import shlex
import subprocess
from collections import Counter
from typing import Any, Callable, Dict, Generator, Iterator, List, Optional, Set

import pytest

from .cluster import Cluster
from .errors import LinsimError
from .node import Signal
from .process import command, path_of

__tracebackhide__ = True

MADE = pytest.StashKey[List[Cluster]]()
SHARED = pytest.StashKey[Set[str]]()    # names of files that several tests would have
FORMS = ("log", "html")                 # what `play` makes of the script of a failed test
SECONDS = 60                            # at most, for each of them
LONGEST = 200                           # of a file's name, without its suffix


def pytest_addoption(parser: pytest.Parser) -> None:
    parser.addini("linsim_ldf", "LDF file of the fixture bus, from the configuration's folder")
    parser.addini("linsim_table", "first schedule table of the fixture bus")
    parser.addini("linsim_artifacts", "folder for the runs of failed tests",
                  default="linsim-failed")


def pytest_configure(config: pytest.Config) -> None:
    config.addinivalue_line("markers", "linsim(ldf, table, **options): arguments of "
                                       "linsim.Cluster for the fixture bus")


@pytest.hookimpl(tryfirst=True)         # type: ignore[misc]
def pytest_collection_modifyitems(config: pytest.Config, items: List[pytest.Item]) -> None:
    """Finds the names of files that several tests would have. Each process of xdist collects all
    tests, so each finds the same."""
    counts = Counter(plain_name(it.nodeid) for it in items)
    config.stash[SHARED] = {name for name, count in counts.items() if count > 1}


@pytest.fixture
def new_bus(request: pytest.FixtureRequest) -> Iterator[Callable[..., Cluster]]:
    """Makes clusters, with the arguments of `linsim.Cluster`. They end with the test."""
    made: List[Cluster] = []
    request.node.stash[MADE] = made         # also in place of those of an earlier try of the test

    def make(*arguments: Any, **options: Any) -> Cluster:
        cluster = Cluster(*arguments, **options)
        made.append(cluster)
        return cluster
    yield make
    for cluster in made:
        cluster.live.kill()


@pytest.fixture
def bus(request: pytest.FixtureRequest, new_bus: Callable[..., Cluster]) -> Cluster:
    """A cluster with the arguments of the marks `linsim`, or of `linsim_ldf` and `linsim_table`."""
    config = request.config
    arguments: Dict[str, Any] = {}
    if config.getini("linsim_ldf"):
        path = os.path.join(folder_of(config), config.getini("linsim_ldf"))
        arguments["ldf"] = os.path.relpath(path)
    if config.getini("linsim_table"):
        arguments["table"] = config.getini("linsim_table")
    for mark in reversed(list(request.node.iter_markers("linsim"))):    # the nearest one last
        if len(mark.args) > 2:
            raise pytest.UsageError("the mark linsim takes an LDF and a table, and then options by "
                                    f"their names, not {mark.args[2:]}")
        arguments.update(zip(("ldf", "table"), mark.args))
        arguments.update(mark.kwargs)
    if "ldf" not in arguments:
        raise pytest.UsageError("the fixture bus needs an LDF: mark the test with linsim(ldf), or "
                                "set linsim_ldf in the configuration")
    return new_bus(**arguments)


@pytest.hookimpl(hookwrapper=True)  # type: ignore[misc]
def pytest_runtest_makereport(item: pytest.Item) -> Generator[None, Any, None]:
    """Adds a section to the report of a failed test: where its runs are, and their files."""
    report = (yield).get_result()
    clusters: List[Cluster] = item.stash.get(MADE, [])
    if report.failed and clusters:
        lines: List[str] = []
        shared: Set[str] = item.config.stash.get(SHARED, set())
        for number, cluster in enumerate(clusters, 1):
            name = name_of(item.nodeid, shared) + (f"-{number}" if len(clusters) > 1 else "")
            lines += [cluster.place(), *kept(item.config, cluster, name)]
        report.sections.append(("linsim", "\n".join(lines)))


def folder_of(config: pytest.Config) -> str:
    """Returns the folder of the configuration file, or else the root folder of the tests."""
    return str(config.inipath.parent if config.inipath else config.rootpath)


def plain_name(test: str) -> str:
    """Returns the test's name, in which parts are joined by `_`."""
    return test.replace("::", "_").replace("/", "_")


def name_of(test: str, shared: Set[str]) -> str:
    """Returns the test's name as a file's name. If that could be the name of another test too, it
    ends with a hash."""
    plain = plain_name(test)
    name = re.sub(r"[^A-Za-z0-9.\-_\[\]]", "_", plain)
    if name == plain and len(name) <= LONGEST and plain not in shared:
        return name
    return f"{name[:LONGEST]}-{hashlib.sha256(test.encode()).hexdigest()[:8]}"


def kept(config: pytest.Config, cluster: Cluster, name: str) -> Iterator[str]:
    """Writes the run of a cluster: its bench script, its log and its page. Yields the files, as
    seen from where pytest was started."""
    start = str(config.invocation_params.dir)
    base = os.path.join(folder_of(config), config.getini("linsim_artifacts"), name)
    shown = os.path.relpath(base, start)
    words = ["play", path_of(os.path.relpath(cluster.path, start)), *cluster.options,
             path_of(shown + ".bench")]
    try:
        os.makedirs(os.path.dirname(base), exist_ok=True)
        with open(base + ".bench", "w", encoding="utf-8") as file:
            file.write(f"# {' '.join(map(shlex.quote, ['linsim', *words]))}\n{cluster.script}")
        yield shown + ".bench"
        for form in FORMS:
            with open(f"{base}.{form}", "wb") as out:
                subprocess.run([*command(cluster.program), *words, "--to", form], cwd=start,
                               stdin=subprocess.DEVNULL, stdout=out, stderr=subprocess.DEVNULL,
                               timeout=SECONDS, check=False)
            yield f"{shown}.{form}"
    except (OSError, ValueError, subprocess.SubprocessError) as why:
        yield f"not written: {why}"


def pytest_assertrepr_compare(op: str, left: object, right: object) -> Optional[List[str]]:
    """Explains a comparison with signals: what their nodes see, and where the run is."""
    signals = [it for it in (left, right) if isinstance(it, Signal)]
    if not signals:
        return None
    lines = [f"{said(left)} {op} {said(right)}"]
    for it in signals:
        try:
            text = f" ({it.text})" if it.text else ""
            lines.append(f"{it.node.name} sees {it.name} as {it.raw!r}{text}")
        except LinsimError as why:
            lines.append(str(why))
    return lines + sorted({it.node.cluster.place() for it in signals})


def said(it: object) -> str:
    return f"{it.name} of {it.node.name}" if isinstance(it, Signal) else repr(it)
