"""Threads that share one port, and one controller: every call returns what it should, and the journals are lawful. Without the lock of `Owner`
a call finds no port in its place while another has taken it out, or the interpreter ends by a signal."""
import gc
import threading
from typing import Callable, List

import ahci
from ahci import Event, Port, Refused, Status
from ahci.hba import Hba

THREADS, ROUNDS = 8, 400


def together(work: Callable[[int], None]) -> None:
    """Runs `work` in each thread at once, and raises the first fault of one."""
    faults: List[BaseException] = []
    begin = threading.Barrier(THREADS)

    def one(place: int) -> None:
        try:
            begin.wait()
            work(place)
        except BaseException as why:  # pylint: disable=broad-except
            faults.append(why)

    threads = [threading.Thread(target=one, args=(place,)) for place in range(THREADS)]
    for it in threads:
        it.start()
    for it in threads:
        it.join()
    if faults:
        raise faults[0]


def one_tag_each() -> None:
    """Each thread writes and reads its own sector by its own tag; the journal that comes of it is lawful and complete."""
    with Port.zeros(sectors=THREADS, depth=THREADS) as port:

        def work(place: int) -> None:
            for turn in range(ROUNDS):
                data = bytes([place, turn % 256]) * 256
                number = port.write(place, place, bytearray(data))
                port.accept(place)
                port.serve([place])
                reply, _ = port.collect(place, number)
                assert reply.number == number
                number = port.read(place, place, 1)
                port.accept(place)
                port.serve([place])
                assert port.collect(place, number)[1] == data
                port.state()

        together(work)
        count = port.state().next
        assert count == THREADS * ROUNDS * 8
        events = [port.entry(number) for number in range(count)]
        assert ahci.journal_check(THREADS, THREADS, events) is None
        assert sum(it.kind is Event.WRITE for it in events) == THREADS * ROUNDS


def one_tag_for_all() -> None:
    """Threads fight for one slot: each call is taken or refused by name, and nothing else comes."""
    with Port.zeros(sectors=8, depth=1) as port:

        def work(place: int) -> None:
            for turn in range(ROUNDS):
                for call in (lambda: port.write(0, place, bytes(512)), lambda: port.accept(0), lambda: port.serve([0]), lambda: port.collect(0, turn), port.flush):
                    try:
                        call()
                    except Refused as why:
                        assert why.status in (Status.SLOT_OWNED, Status.NOT_ISSUED, Status.NOT_ACCEPTED, Status.STRANGER, Status.NOT_YET, Status.QUEUE_BUSY)

        together(work)
        assert ahci.journal_check(8, 1, [port.entry(number) for number in range(port.state().next)]) is None


def free_while_called() -> None:
    """One thread frees the port that the others call: they learn that there is none."""
    for _ in range(20):
        port = Port.zeros(sectors=8, depth=4)

        def work(place: int) -> None:
            for _ in range(50):
                try:
                    (port.free if place == 0 else port.state)()
                except Refused as why:
                    assert why.status is Status.NO_PORT

        together(work)
        del port
    gc.collect()


def one_controller() -> None:
    """Each thread writes and reads a register of its own, and runs the controller over one memory."""
    memory = bytearray(1 << 16)
    with Hba(bytes(512 * 8), depth=32) as hba:
        hba.write(ahci.Register.PXFB, 0x400)
        hba.write(ahci.Register.PXCMD, 0x10)

        def work(place: int) -> None:
            for _ in range(ROUNDS):
                hba.write(ahci.Register.PXIS, 1 << place)
                assert hba.read(ahci.Register.VS) == 0x00010301
                hba.run(memory)

        together(work)
        assert hba.read(ahci.Register.PXSIG) == 0x101


for part in (one_tag_each, one_tag_for_all, free_while_called, one_controller):
    part()
print(f"{THREADS} threads over one port and one controller: every call answered, and the journals are lawful")
