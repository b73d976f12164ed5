"""The RTL with two faults: the checks name the fields, and the values say which bits."""

import pytest

import regrun
from conftest import simulator


def test_the_faults_are_found(wrong_bench, regrun_description):
    with regrun.Session(regrun_description, simulator(wrong_bench)) as s:
        with pytest.raises(regrun.Difference) as level:
            s.seq("hw-reset", "uart")
        with pytest.raises(regrun.Difference) as divider:
            s.seq("bit-bash", "uart")
    assert [(it.name, it.expected, it.read) for it in level.value.fields] == [("level", 8, 9)]
    field = divider.value.fields[0]
    assert (field.name, field.expected ^ field.read) == ("divider", 1 << 5)
