"""Transfers from the program to the program, and what they have to come to."""

import contextlib

from support.claims import claim_of_receive, claim_of_send, wants_true
from support.program import file_lines, folders, free_port, running, stored, wants_same, write_files
from support.relay import Relay
from support.serial_line import SerialLine


class Carried:
    """How both ends have ended, and which files are stored then."""

    def __init__(self, sent, received, kept):
        self.sent, self.received, self.kept = sent, received, kept


def carried(files, relay_to, flags=(), there_is=(), tools=((), ())):
    """Sends files through the relay that this makes to a port; the tools are words before those of
    the sender and of the receiver."""
    send_flags = [it for it in flags if it == "--short"]
    receive_flags = [it for it in flags if it == "--single"]
    with folders() as (here, there):
        paths = write_files(here, files)
        write_files(there, there_is)
        port = free_port()
        relay = relay_to(port)
        relay.start()
        with contextlib.ExitStack() as children:
            receive = children.enter_context(
                running("receive", "--port", port, *receive_flags, there, before=tools[1])
            )
            relay.due.wait()
            send = children.enter_context(
                running("send", "--port", relay.port, *send_flags, *paths, before=tools[0])
            )
            received, sent = receive.ended(), send.ended()
        relay.join()
        assert not relay.fault, "the relay: %r; send told %r, receive told %r" % (
            relay.fault,
            sent.out,
            received.out,
        )
        return Carried(sent, received, stored(there))


class Told:
    """What a transfer has to come to."""

    def __init__(
        self, send=(0, "finished"), receive=(0, "finished"), done=None, files=None, err=("", "")
    ):
        self.send, self.receive, self.done, self.files, self.err = send, receive, done, files, err


FINISHED = Told()


def transfer(files, line, flags=(), told=FINISHED, there_is=()):
    """Sends files through a line. What is committed are the first files of the batch, each exact,
    and nothing else stands in the folder but what was there."""
    ends = carried(files, lambda port: Relay(line, port), flags, there_is)
    count = len(files) if told.files is None else told.files
    done = len(files) if told.done is None else told.done
    ends.sent.wants(told.send[0], "sender done %d %s\n" % (done, told.send[1]), told.err[0])
    out = file_lines(files[:count]) + "receiver files %d %s\n" % (count, told.receive[1])
    ends.received.wants(told.receive[0], out, told.err[1])
    wants_same(ends.kept, dict([*files[:count], *there_is]))


def over_serial_line(files, line, baud, flags=(), asked=0, wants_finished=True):
    """Sends files over a serial line, at which the receiver has asked so many times when the sender
    starts. What both claim is so, and where that is wanted they have finished."""
    ends = carried(files, lambda port: SerialLine(line, port, baud, asked), flags)
    wants_true(
        files,
        ends.kept,
        [claim_of_send(ends.sent), claim_of_receive(ends.received, files)],
        wants_finished,
    )
