"""pytest: `nuzolged_step`, a transaction that is rolled back after each test.

All tests of a session share a tree, which is made once. With `nuzolged_seed = FOLDER` in the
configuration of pytest, it begins as that folder of the disk. A relative FOLDER is next to the file
of the configuration.
"""
from __future__ import annotations

from pathlib import Path
from typing import Iterator

import pytest

from ._disk import copy_in
from ._transaction import Transaction
from ._tree import Tree


def pytest_addoption(parser: pytest.Parser) -> None:
    parser.addini("nuzolged_seed", "a directory of the disk that each test begins with")


@pytest.fixture(scope="session")
def nuzolged_job(request: pytest.FixtureRequest) -> Iterator[Transaction]:
    """The transaction with which all tests begin."""
    with Tree() as tree:
        job = tree.begin()
        seed = request.config.getini("nuzolged_seed")
        if seed:
            copy_in(job, _folder(request.config) / seed)
        yield job
        job.abort()


@pytest.fixture
def nuzolged_step(nuzolged_job: Transaction) -> Iterator[Transaction]:
    """The transaction of one test, in a step around it, to which the test may commit."""
    around = nuzolged_job.begin()
    yield around.begin()
    around.abort()


def _folder(config: pytest.Config) -> Path:
    """The folder of the configuration."""
    return config.inipath.parent if config.inipath else config.rootpath
