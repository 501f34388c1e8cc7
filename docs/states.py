"""Writes three states, of a space, of one with tickets and of many heaps, into the folder that it is run in: STATES.md has the form."""
import struct

def with_checksum(numbers, bits, factor):
    total = 0
    for number in numbers:
        total = (total * factor + number) % 2**bits
    return struct.pack(f"<{len(numbers) + 1}{'I' if bits == 32 else 'Q'}", *numbers, total)

def size_class(size):
    high = size.bit_length() - 1
    return size if size < 8 else 8 * (high - 2) + (size >> high - 3) % 8

def space(limit, sizes, live):  # from the start of the space; a block has the number of its place as its name
    names = range(len(sizes))
    free = sorted(set(names) - live, key=lambda name: size_class(sizes[name]))
    blocks = [it for name in reversed(names) for it in (name, sizes[name])]
    head = [1414742351, 1, sum(sizes), limit, len(sizes), len(free), 0]
    return with_checksum(head + blocks + free, 32, 16777619)

def tickets(serials, realm, space):
    return with_checksum([1263812943, 2, len(serials), max(serials), realm, 1, *serials], 64, 1099511628211) + space

def heaps(size, limit, realm, states):  # all usual ones, of one size
    places = [sum(map(len, states[:number])) for number in range(len(states) + 1)]
    head = [1397244239, 3, size, size, limit, limit, len(states), 0, len(states), realm, *places]
    return with_checksum(head, 64, 1099511628211) + b"".join(states)

one = space(16, [300, 20, 100, 580], {0, 2})
two = tickets([7, 0, 9], 1, one)
for name, state in {"one": one, "two": two, "three": heaps(1000, 16, 5, [two, b""])}.items():
    open(f"{name}.state", "wb").write(state)
