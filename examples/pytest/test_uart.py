"""Bringing up the UART: what a driver does, and what the hardware answers."""

import pytest

import regrun


def test_registers_begin_with_their_reset_values(regrun_session):
    assert regrun_session.seq("hw-reset", "uart").steps == 6


def test_each_bit_can_be_driven_both_ways(uart, regrun_session):
    regrun_session.seq("bit-bash", "uart")


def test_settings_go_out_in_one_write(uart):
    sent = uart.ctrl.update(enable=1, parity="odd", stop="two")
    assert sent.value == 0x80D
    assert uart.ctrl.parity.named() == "odd"
    uart.ctrl.check()


@pytest.mark.parametrize("level", [0, 1, 7, 15])
def test_a_level_is_kept(uart, level):
    uart.ctrl.level = level
    assert int(uart.ctrl.level) == level
    uart.ctrl.check()


def test_a_byte_that_is_sent_raises_an_event(uart):
    uart.data.write(0x41)
    uart.events.sent.hw(1)
    uart.events.wait(mask=0x1, timeout=0.5)
    uart.events.sent = 1
    uart.events.expect(0x0, mask=0xF)


def test_errors_are_counted_and_read_once(uart):
    uart.errors.count.hw(3)
    seen = int(uart.errors.count)
    if seen:
        uart.errors.expect(0)
    assert seen == 3


def test_a_write_only_register_is_not_read(uart):
    with pytest.raises(regrun.Refused, match="no right"):
        uart.data.read()
