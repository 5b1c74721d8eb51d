"""Fixtures of the tests of pages."""

from __future__ import annotations

import pytest
from browsing import Browser


@pytest.fixture(scope="session")
def browser():
    """A browser for all tests."""
    it = Browser()
    yield it
    it.close()
