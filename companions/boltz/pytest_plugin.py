"""A pytest plug-in that saves what the program printed for a failing example of `boltz.hypothesis`.

Use it by `pytest -p boltz.pytest_plugin`, or by `pytest_plugins = ["boltz.pytest_plugin"]` in
conftest.py.
"""
from __future__ import annotations

import os
import re
import shlex
import sys

import pytest


def pytest_addoption(parser) -> None:
    """Where certificates are saved."""
    parser.addoption(
        "--boltz-failures",
        default=".boltz-failures",
        metavar="DIR",
        help="where certificates of failing examples are saved",
    )


def recorder():
    """The strategies' recorder, None where no test has loaded them."""
    module = sys.modules.get("boltz.hypothesis")
    return module.RECORDER if module else None


def pytest_runtest_setup(item) -> None:
    """Another test begins."""
    if recorder():
        recorder().clear()


@pytest.hookimpl(hookwrapper=True)
def pytest_runtest_makereport(item, call):
    """After a failure: the drawings of the last example, which is the shrunk one, are saved."""
    outcome = yield
    report = outcome.get_result()
    if call.when == "call" and report.failed and recorder() and recorder().drawings:
        folder = os.path.join(
            item.config.getoption("--boltz-failures"), re.sub(r"[^A-Za-z0-9_.-]+", "-", item.nodeid)
        )
        lines = [
            save(drawing, folder, number) for number, drawing in enumerate(recorder().drawings, 1)
        ]
        report.sections.append(("boltz", "\n".join(lines)))


def save(drawing, folder: str, number: int) -> str:
    """Writes one drawing; a line that says where it is."""
    place = os.path.join(folder, str(number))
    os.makedirs(place, exist_ok=True)
    words = "boltz %s\n" % shlex.join(drawing.words)
    for name, content in (
        ("spec", drawing.spec),
        ("tape", drawing.tape),
        ("certificate", drawing.certificate),
        ("words", words.encode()),
    ):
        with open(os.path.join(place, name), "wb") as file:
            file.write(content)
    return "object %s\ncertificate %s" % (drawing.tree.text(), os.path.join(place, "certificate"))
