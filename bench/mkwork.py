#!/usr/bin/env python3
"""mkwork.py DIR: writes the sessions of bench.sh, the same bytes every time."""
import os, sys

TABLE = ("RO RW RC RS WRC WRS WC WS WSRC WCRS W1C W1S W1T W0C W0S W0T "
         "W1SRC W1CRS W0SRC W0CRS WO WOC WOS W1 WO1").split()


class Draw:
    def __init__(self, seed):
        self.x = seed

    def __call__(self, m):
        self.x = (self.x * 6364136223846793005 + 1442695040888963407) % 2**64
        return (self.x >> 33) % m

    def bits(self, width):
        return (self(2**31) << 40 ^ self(2**31) << 20 ^ self(2**31)) % 2**width


def table(kind, **keys):
    text = f"[[{kind}]]\n"
    for key, value in keys.items():
        if value is True:
            value = "true"
        text += f'{key} = "{value}"\n' if isinstance(value, str) and value != "true" else f"{key} = {value}\n"
    return text


def fields(draw, size):
    """Cuts a register of `size` bytes into fields; answers text and list."""
    text, found, at = "", [], 0
    while at < 8 * size:
        width = min(1 + draw(16), 8 * size - at)
        if draw(8) == 0:
            at += width
            continue
        policy = TABLE[draw(25)]
        name = f"f{at}"
        extra = ""
        if draw(2):
            extra += f"reset = {draw.bits(width):#x}\n"
        if draw(3) == 0:
            extra += "alone = true\n"
        text += (f'[[reg.field]]\nname = "{name}"\nlsb = {at}\nwidth = {width}\n'
                 f'policy = "{policy}"\n{extra}')
        found.append((name, width))
        at += width
    return text, found


# Name, bytes, the other keys of the six maps of two trees of three levels.
MAPS = [
    ("apb0", 4, dict(adapter="apb", base=0x40000000)),
    ("apbm", 8, dict(parent="apb0", offset=0x1000, endian="big")),
    ("apbl", 2, dict(parent="apbm", offset=0x10000, addressing="word")),
    ("bus0", 8, dict(base=0x10)),
    ("busm", 4, dict(parent="bus0", offset=0x8000, endian="big")),
    ("busl", 1, dict(parent="busm", offset=0x20000)),
]


def device(draw, **root):
    """256 registers on the maps, each root with these further keys: the text, the registers, and the maps of each."""
    text = ""
    for n in range(8):
        text += table("block", name=f"blk{n}")
    regs = []
    for n in range(256):
        size = (4, 4, 2, 8, 1, 3, 4, 6)[n % 8]
        path = f"blk{n % 8}.reg{n}"
        text += table("reg", name=f"reg{n}", of=f"blk{n % 8}", bytes=size)
        more, found = fields(draw, size)
        text += more
        regs.append((path, size, found))
    for name, size, keys in MAPS:
        text += table("map", name=name, bytes=size, **keys, **({} if "parent" in keys else root))
    placed = {}
    for n, (path, _, _) in enumerate(regs):
        where = [MAPS[n % 6][0]]
        if n % 3 == 0:
            where.append(MAPS[(n + 3) % 6][0])
        placed[path] = where
        for name in where:
            # A word-addressed map counts in words of two bytes.
            step = 8 if name == "apbl" else 16
            text += table("place", map=name, item=path, offset=step * n)
    return text + "---\n", regs, placed


def mixed():
    draw = Draw(2017)
    text, regs, placed = device(draw)
    out = []
    for _ in range(100000):
        path, size, found = regs[draw(256)]
        at = f" @{placed[path][draw(len(placed[path]))]}" if draw(2) else ""
        c = draw(16)
        v = f"{draw.bits(8 * size):#x}"
        field = found[draw(len(found))] if found else None
        if c >= 12 and field is None:
            c = 0
        if c <= 3:
            out.append(f"write {path} {v}{at}")
        elif c <= 5:
            out.append(f"read {path}{at}")
        elif c <= 7:
            out.append(f"check {path}{at}")
        elif c == 8:
            out.append(f"update {path}{at}")
        elif c == 9:
            out.append(f"mirror {path}{at}")
        elif c == 10:
            out.append(f"peek {path}")
        elif c == 11:
            out.append(f"back-write {path} {v}")
        elif c == 12:
            out.append(f"set {path}.{field[0]} {draw.bits(field[1]):#x}")
        elif c == 13:
            out.append(f"field-read {path}.{field[0]}{at}")
        else:
            out.append(f"field-write {path}.{field[0]} {draw.bits(field[1]):#x}{at}")
    return text + "\n".join(out) + "\n"


def woven():
    """Groups of 1 to 64 masters' accesses, each to a register of its own: some 100,000 words."""
    draw = Draw(1997)
    text, regs, placed = device(draw, predict="explicit")
    out = []
    for _ in range(1780):
        group = {draw(256) for _ in range(1 + draw(64))}
        for n in sorted(group, key=lambda n: (n * 167) % 256):
            path, size, _ = regs[n]
            at = f" @{placed[path][draw(len(placed[path]))]}" if draw(2) else ""
            out.append(f"other-read {path}{at}" if draw(2) else f"other-write {path} {draw.bits(8 * size):#x}{at}")
        out.append("")
    return text + "\n".join(out) + "\n"


def memwalk():
    text = ""
    for n in range(64):
        text += table("mem", name=f"ram{n}", bytes=(1, 2, 4, 8)[n % 4], size=1024)
    text += table("map", name="bus", bytes=4)
    for n in range(64):
        text += table("place", map="bus", item=f"ram{n}", offset=n * 0x2000)
    return text + "---\nseq mem-walk *\n"


SMALLEST = ('[[reg]]\nname = "a"\nbytes = 4\n'
        'field = [{name = "v", lsb = 0, width = 32, policy = "RW"}]\n'
        '[[map]]\nname = "bus"\nbytes = 4\n[[place]]\nmap = "bus"\nitem = "a"\n---\n')


def places():
    text = ""
    for n in range(1024):
        text += table("reg", name=f"reg{n}", bytes=4)
        text += (f'field = [{{name = "lo", lsb = 0, width = 16, policy = "RW", reset = {n}}}, '
                 f'{{name = "hi", lsb = 16, width = 16, policy = "{TABLE[n % 25]}"}}]\n')
    for name, size, keys in (("p", 4, {}), ("q", 2, dict(endian="big", base=0x1000)),
                             ("r", 4, dict(adapter="apb")), ("s", 1, dict(parent="p", offset=0x100000))):
        text += table("map", name=name, bytes=size, **keys)
    for name in "pqrs":
        for n in range(1024):
            text += table("place", map=name, item=f"reg{n}", offset=4 * n)
    return text + "---\n"


def largest():
    """As many words as a description may have: 65,536 locations of 8 bytes on two buses of one byte."""
    text = ""
    for n in range(64):
        text += table("mem", name=f"ram{n}", bytes=8, size=1024)
    for bus in "pq":
        text += table("map", name=bus, bytes=1)
    for bus in "pq":
        for n in range(64):
            text += table("place", map=bus, item=f"ram{n}", offset=n * 0x2000)
    return text + "---\nmem-write ram63 1023 0x1122334455667788 @q\nmem-read ram63 1023 @p\n"


def register(name, size, cuts, policy="RW", **keys):
    """A register of fields of one policy, cut at these bits."""
    text = table("reg", name=name, bytes=size, **keys)
    for low, high in zip(cuts, cuts[1:]):
        text += f'[[reg.field]]\nname = "f{low}"\nlsb = {low}\nwidth = {high - low}\npolicy = "{policy}"\n'
    return text


def fifo():
    """Registers of 8 bytes, each through the one address of a FIFO map of a byte, predicted by what is seen on the bus."""
    draw = Draw(1800)
    text = "".join(register(f"reg{n}", 8, [0, 64]) for n in range(64))
    text += table("map", name="bus", bytes=1, endian="little-fifo", predict="explicit")
    text += "".join(table("place", map="bus", item=f"reg{n}", offset=64 * n) for n in range(64))
    out = [f"write reg{draw(64)} {draw.bits(64):#x}" if draw(2) else f"check reg{draw(64)}" for _ in range(20000)]
    return text + "---\n" + "\n".join(out) + "\n"


def narrow():
    """Fields of 4 bits over APB, written and read alone where the bus can."""
    draw = Draw(24)
    text = "".join(register(f"reg{n}", 4, list(range(0, 33, 4))) for n in range(64))
    text += table("map", name="apb", bytes=4, adapter="apb")
    text += "".join(table("place", map="apb", item=f"reg{n}", offset=64 * n) for n in range(64))
    out = []
    for _ in range(50000):
        name = f"reg{draw(64)}.f{4 * draw(8)}"
        out.append(f"field-write {name} {draw(16):#x}" if draw(2) else f"field-read {name}")
    return text + "---\n" + "\n".join(out) + "\n"


def bursts():
    """Bursts over 256 locations."""
    draw = Draw(256)
    text = table("mem", name="ram", bytes=4, size=1024)
    text += table("map", name="bus", bytes=4) + table("place", map="bus", item="ram", offset=0)
    out = []
    for _ in range(200):
        first = draw(768)
        out.append(f"burst-write ram {first} " + " ".join(f"{draw.bits(32):#x}" for _ in range(256)))
        out.append(f"burst-read ram {first} 256")
    return text + "---\n" + "\n".join(out) + "\n"


def bash():
    """A bit bash of 1,024 registers."""
    text = "".join(register(f"reg{n}", 4, [0, 16, 32]) for n in range(1024))
    text += table("map", name="bus", bytes=4)
    text += "".join(table("place", map="bus", item=f"reg{n}", offset=4 * n) for n in range(1024))
    return text + "---\nseq bit-bash *\n"


def tree():
    """Paths of 8 names, the last of them a field's."""
    draw = Draw(8)
    text, path = "", []
    for depth in range(6):
        name = f"a_block_with_a_long_name_{depth}"
        text += table("block", name=name, **({"of": ".".join(path)} if path else {}))
        path.append(name)
    where = ".".join(path)
    text += "".join(register(f"register_{n}", 4, [0, 8, 16, 32], of=where) for n in range(256))
    text += table("map", name="bus", bytes=4)
    text += "".join(table("place", map="bus", item=f"{where}.register_{n}", offset=4 * n) for n in range(256))
    out = []
    for _ in range(50000):
        item = f"{where}.register_{draw(256)}"
        out.append((f"write {item} {draw.bits(32):#x}", f"read {item}", f"field-write {item}.f8 0x5a")[draw(3)])
    return text + "---\n" + "\n".join(out) + "\n"


def start():
    """A session of 20 lines, which is started 1,000 times."""
    return SMALLEST + "write a 0x12345678\ncheck a\n" * 10


def main():
    where = sys.argv[1]
    os.makedirs(where, exist_ok=True)
    for name, text in (("mixed", mixed()), ("woven", woven()), ("memwalk", memwalk()),
                       ("blank", SMALLEST + "\n" * 1000000), ("places", places()), ("largest", largest()),
                       ("fifo", fifo()), ("narrow", narrow()), ("bursts", bursts()), ("bash", bash()),
                       ("tree", tree()), ("start", start())):
        with open(os.path.join(where, name + ".session"), "w") as f:
            f.write(text)


main()
