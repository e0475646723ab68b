"""How much longer an answer may take on a busy machine."""
from __future__ import annotations

import os

import pytest
import strain


def factor(monkeypatch: pytest.MonkeyPatch, processes: float, stolen: int, seconds: float = strain.REFERENCE) -> float:
    """Return the factor for so many processes on each of two processors, while the host gave so much of 100 to others,
    and a calculation took so many seconds."""
    monkeypatch.setattr(strain, "_seconds", lambda: seconds)
    monkeypatch.setattr(os, "cpu_count", lambda: 2)
    monkeypatch.setattr(os, "getloadavg", lambda: (2 * processes, 0.0, 0.0))
    monkeypatch.setattr(strain, "times", lambda: (0, 0))
    measured = strain.Strain()
    monkeypatch.setattr(strain, "times", lambda: (100 - stolen, stolen))
    return measured.factor()


def test_an_idle_machine_has_no_more_time(monkeypatch: pytest.MonkeyPatch) -> None:
    assert factor(monkeypatch, 0.5, 0) == 1


def test_a_busy_machine_has_more_time(monkeypatch: pytest.MonkeyPatch) -> None:
    assert factor(monkeypatch, 2, 0) == 2
    assert factor(monkeypatch, 2, 50) == 4


def test_a_slow_machine_has_more_time_and_a_fast_one_no_less(monkeypatch: pytest.MonkeyPatch) -> None:
    assert factor(monkeypatch, 0.5, 0, 2 * strain.REFERENCE) == 2
    assert factor(monkeypatch, 0.5, 0, strain.REFERENCE / 2) == 1
    assert factor(monkeypatch, 2, 0, 1.5 * strain.REFERENCE) == 3


def test_the_fastest_run_counts(monkeypatch: pytest.MonkeyPatch) -> None:
    seconds = iter([9.0] * (strain.RUNS - 1) + [3 * strain.REFERENCE])
    monkeypatch.setattr(strain, "_seconds", lambda: next(seconds))
    assert strain.slowness() == pytest.approx(3)


def test_the_time_does_not_grow_without_end(monkeypatch: pytest.MonkeyPatch) -> None:
    assert factor(monkeypatch, 100, 0) == strain.MOST
    assert factor(monkeypatch, 2, 95) == strain.MOST
    assert factor(monkeypatch, 1, 0, 100 * strain.REFERENCE) == strain.MOST
