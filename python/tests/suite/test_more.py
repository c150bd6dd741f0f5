"""Marks, names and failures of other kinds, for tests/test_plugin.py."""
import os

import pytest

import linsim

pytestmark = pytest.mark.linsim("door_zone.ldf", "Diag")


class TestMarks:
    pytestmark = pytest.mark.linsim(table="Mixed", capacity=2)

    def test_of_the_class(self, bus):
        assert (bus.table, bus.options) == ("Mixed", ["--table", "Mixed", "--capacity", "2"])

    @pytest.mark.linsim(capacity=3)
    def test_of_the_test(self, bus):
        assert bus.options == ["--table", "Mixed", "--capacity", "3"]


def test_of_the_module(bus):
    assert bus.table == "Diag"


@pytest.mark.parametrize("text", ["a b", "a_b", "ä/b"])
def test_fails(bus, text):
    bus.expect("asleep")


def test_fails_elsewhere(new_bus, tmp_path, monkeypatch, pytestconfig):
    """With two clusters, in another folder."""
    first = new_bus("door_zone.ldf")
    monkeypatch.chdir(tmp_path)
    second = new_bus(os.path.join(str(pytestconfig.rootpath), "door_zone.ldf"), capacity=1)
    first.run(slots=2)
    second.run(slots=1)
    assert first["DCU"]["WinTemp"] != second["DCU"]["WinTemp"]


class TestOne:
    class TestTwo:
        def test_fails(self, bus):
            bus.expect("asleep")


class TestOne_TestTwo:
    def test_fails(self, bus):
        """It has the name of the test before, with `_` for `::`."""
        bus.expect("asleep")


def test_fails_in_a_hook(bus):
    @bus.after()
    def hook(slot):
        pytest.fail("in the hook")
    bus.run(slots=1)


def test_raises(bus):
    bus["DCU"]["WinTarget"] = 256


def test_signal_alone(bus):
    assert bus["DCU"]["WinPos"]


@pytest.mark.xfail
def test_expected_to_fail(bus):
    assert bus["DCU"]["WinPos"] == 1


def test_ended(bus):
    bus.live.kill()
    with pytest.raises(linsim.LinsimError):
        bus.run(slots=1)
    assert bus["DCU"]["WinPos"] == 1
