"""Two writes of one sector, served in the opposite order: the sector has the bytes of the one that was completed last."""
import ahci

with ahci.Port.zeros(sectors=64, depth=32) as port:
    numbers = [port.write(tag, 5, bytes([fill]) * 512) for tag, fill in enumerate((0xAA, 0xBB))]
    print(f"PxSACT {port.register(0x134):08x}")
    for tag in (0, 1):
        port.accept(tag)
    done = port.serve([1, 0])
    print(f"entries {done.first} and {done.first + 1} complete tags 1 and 0")
    for tag in (0, 1):
        port.collect(tag, numbers[tag])
    number = port.read(2, 5, 1)
    port.accept(2)
    port.serve([2])
    reply, data = port.collect(2, number)
    print(f"read {reply.bytes} bytes of {data[511]:02x} by entry {reply.entry}")
