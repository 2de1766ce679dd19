"""Makes the files that the benches measure."""
import struct

U, I, A, X, Y, F, LIST, PAIRS, LITERAL, TYPED = 0, 1, 2, 3, 4, 5, 0x17, 0x37, 0x47, 0x57


def form(path, chunks):
    """Writes the form of these chunks, each an id and a payload, with zeros as padding."""
    body = b"".join(id + struct.pack(">I", len(payload)) + payload + bytes(-len(payload) % 4) for id, payload in chunks)
    with open(path, "wb") as file:
        file.write(b"FOR1" + struct.pack(">I", 4 + len(body)) + b"BEAM" + body)


def many_chunks(path, size=16 * 1024 * 1024):
    """Writes a form of this size with 256 chunks, of which ten are kept in stripped files and have most of the bytes."""
    kept = (b"Atom", b"StrT", b"ImpT", b"ExpT", b"FunT", b"LitT", b"Meta", b"Line", b"Type")
    chunks = [(b"AtU8", b"\0\0\0\x01\x01m")] + [(b"C%03d" % n, bytes(8192)) for n in range(246)]
    rest = size - 12 - 16 - 246 * 8200 - len(kept) * 8
    each = rest // len(kept) // 4 * 4
    chunks += [(id, bytes(each)) for id in kept[1:]] + [(kept[0], bytes(rest - (len(kept) - 1) * each))]
    form(path, chunks)
    return len(chunks)


def number(tag, n):
    """A number with a tag in the shortest form."""
    if 0 <= n < 16:
        return bytes([n << 4 | tag])
    if 0 <= n < 2048:
        return bytes([n >> 8 << 5 | 8 | tag, n & 255])
    size = max(2, (n.bit_length() + 8) // 8)
    return bytes([size - 2 << 5 | 24 | tag]) + n.to_bytes(size, "big", signed=True)


def typed(x, kind):
    return bytes([TYPED]) + number(X, x) + number(U, kind)


def members(*of):
    return bytes([LIST]) + number(U, len(of)) + b"".join(of)


def head(n, label, arity=2):
    """A label, a line and the head of a function."""
    atom = n % 300 + 1
    return b"".join((
        b"\x01" + number(U, label),                                            # label
        b"\x99" + number(U, n % 2000),                                         # line
        b"\x02" + number(A, atom) + number(A, atom + 1) + number(U, arity),    # func_info
    ))


def body(n, label):
    """Mixed instructions that name this label."""
    atom = n % 300 + 1
    return b"".join((
        b"\x40" + number(X, 3) + number(Y, 1),                                 # move
        b"\x40" + number(I, -n * 77_777) + number(X, 1),
        b"\x40" + bytes([LITERAL]) + number(U, n % 500) + number(X, 0),
        b"\x42" + typed(2, n % 40) + number(U, 1) + number(X, 4),              # get_tuple_element
        b"\x3b" + number(X, 0) + number(F, label)                              # select_val
        + members(number(A, atom), number(F, 7), number(A, atom + 2), number(F, label)),
        b"\x2b" + number(F, label) + number(X, 0) + number(A, atom),           # is_eq_exact
        b"\x10" + bytes([PAIRS]) + number(U, 2) + number(U, 0) + number(U, 9)  # test_heap
        + number(U, 2) + number(U, 1) + number(U, 3),
        b"\x07" + number(U, 2) + number(U, n % 900),                           # call_ext
        b"\x12" + number(U, 2),                                                # deallocate
        b"\x13",                                                               # return
    ))


def block(n):
    label = n % 60_000 + 1
    return head(n, label) + body(n, label)


def function(n):
    """A function of mixed instructions, whose labels are those behind the ones of the function before."""
    label = 2 * n + 1
    return head(n, label) + b"\x01" + number(U, label + 1) + body(n, label + 1)


def judged(n, instructions):
    """A function of so many instructions with calls, tests and a loop, with which nothing is wrong."""
    own, entry, loop = (3 * n + k for k in (1, 2, 3))
    label = lambda number_of: b"\x01" + number(U, number_of)
    move = b"\x40" + number(Y, 0) + number(X, 0)
    start = head(n, own, 1) + label(entry) + b"\x0c" + number(U, 1) + number(U, 1) + b"\x40" + number(X, 0) + number(Y, 0) + label(loop)
    part = b"\x2b" + number(F, loop) + number(X, 0) + number(Y, 0) + move + b"\x04" + number(U, 1) + number(F, entry)  # is_eq_exact, move, call
    end = b"\x34" + number(F, loop) + number(X, 0) + b"\x12" + number(U, 1) + b"\x13"                          # is_nil, deallocate, return
    parts, rest = divmod(instructions - 10, 3)
    return start + part * parts + move * rest + end


def names(atoms, imports):
    """The chunks of an atom table and an import table with so many entries."""
    texts = [b"atom_%d" % n for n in range(1, atoms + 1)]
    entries = [struct.pack(">3I", n % atoms + 1, n * 7 % atoms + 1, n % 20) for n in range(imports)]
    return [
        (b"AtU8", struct.pack(">I", atoms) + b"".join(bytes([len(t)]) + t for t in texts)),
        (b"ImpT", struct.pack(">I", imports) + b"".join(entries)),
    ]


def code(instructions, functions, labels=60_001):
    """The payload of a chunk of code."""
    return struct.pack(">5I", 16, 0, 182, labels, functions) + instructions + b"\x03"


def up_to(size, part):
    """Parts, numbered from 0, until there are so many bytes of them."""
    parts, total = [], 0
    while total < size:
        parts.append(part(len(parts)))
        total += len(parts[-1])
    return parts


def mixed_code(size):
    """The payload of a chunk of code with so many bytes of mixed instructions."""
    blocks = up_to(size, block)
    return code(b"".join(blocks), len(blocks))


def functions(size):
    """The payload of a chunk of code with so many bytes of functions."""
    all = up_to(size, function)
    return code(b"".join(all), len(all), 2 * len(all) + 1)


def judged_code(count, instructions):
    """The payload of a chunk of code with so many functions of so many instructions, with which nothing is wrong."""
    return code(b"".join(judged(n, instructions) for n in range(count)), count, 3 * count + 1)
