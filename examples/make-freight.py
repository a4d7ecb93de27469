#!/usr/bin/env python3
"""Writes the two example images, the listing of the larger one, and the line that run5500 prints for each.

    python3 make-freight.py      writes sample.img, sample.out, freight.img, freight.lst and freight.out beside itself

freight.img prices a consignment of parcels by a tariff of zones and weights. The program is assembled from the lines
below, and run by the few instructions that `run` knows, to tell what run5500 will print.
"""

import os

# The tariff, in cents: for each zone the price up to each of the weights.
WEIGHTS = [10, 25, 50, 255]
TARIFF = [
    [450, 720, 1190, 1980],
    [1250, 2480, 4390, 8120],
    [3675, 7940, 14850, 29900],
    [18900, 41250, 88400, 176000],
]

# The consignment: the zone and the weight of each parcel.
PARCELS = [(1, 27), (3, 60), (2, 50), (0, 3)]

# Sector 0 is page 3 and may be written, sector 1 is page 5 and may not: the tariff is safe there.
TABLE = [60, 84] + [0] * 13

PARCELS_AT = 0o400
PRICE_AT = 0o600
TOTAL_AT = 0o610
TARIFF_AT = 0o10000

# A label, the bytes (a text is the address of a label), the mnemonic and what it is for.
PROGRAM = [
    ("START", [0o036, 0o001], "LD 001", "DE is the first parcel, at 000400"),
    ("", [0o046, 0o000], "LE 000", ""),
    ("NEXT", [0o174, 0o307], "LAM DE", "A is the zone, or 377 behind the last parcel"),
    ("", [0o074, 0o377], "CP 377", ""),
    ("", [0o150, "DONE"], "JTZ DONE", ""),
    ("", [0o310], "LBA", "B is the zone"),
    ("", [0o174, 0o004, 0o001], "ADE 1", ""),
    ("", [0o174, 0o327], "LCM DE", "C is the weight"),
    ("", [0o174, 0o004, 0o001], "ADE 1", "DE is the next parcel,"),
    ("", [0o174, 0o070], "PUSH DE", "kept on the stack"),
    ("", [0o056, 0o020], "LH 020", "HL is the first weight of the tariff, at 010000"),
    ("", [0o066, 0o000], "LL 000", ""),
    ("BAND", [0o307], "LAM", "up to this weight?"),
    ("", [0o272], "CPC", "carry if it is below that of the parcel"),
    ("", [0o100, "FOUND"], "JFC FOUND", ""),
    ("", [0o176, 0o004, 0o001], "ADL 1", "no: the next weight"),
    ("", [0o104, "BAND"], "JMP BAND", ""),
    ("FOUND", [0o306], "LAL", "L is the number of the weight, and A is"),
    ("", [0o002], "SLC", "2 * L"),
    ("", [0o206], "ADL", "3 * L"),
    ("", [0o004, 0o020], "AD 020", "16 + 3 * L: its price in zone 0"),
    ("ZONE", [0o111, 0o024, 0o001], "SUB 1", "12 bytes further for each zone"),
    ("", [0o140, "PRICE"], "JTC PRICE", "carry once B was 0"),
    ("", [0o004, 0o014], "AD 014", ""),
    ("", [0o104, "ZONE"], "JMP ZONE", ""),
    ("PRICE", [0o360], "LLA", "HL is the price in the tariff"),
    ("", [0o036, 0o001], "LD 001", "DE is the work field, at 000600"),
    ("", [0o046, 0o200], "LE 200", ""),
    ("", [0o006, 0o000], "LA 000", "nothing is added to a byte, none ends the move,"),
    ("", [0o016, 0o000], "LB 000", ""),
    ("", [0o026, 0o003], "LC 003", "and there are three"),
    ("", [0o021], "BT", "the price goes to the work field"),
    ("", [0o056, 0o001], "LH 001", "HL is the right byte of the work field, 000602"),
    ("", [0o066, 0o202], "LL 202", ""),
    ("", [0o046, 0o212], "LE 212", "DE is the right byte of the total, 000612"),
    ("", [0o026, 0o003], "LC 003", ""),
    ("", [0o240], "NDA", "carry is clear"),
    ("", [0o011], "BFAC", "the price is added to the total, three bytes wide"),
    ("", [0o174, 0o060], "POP DE", "back to the parcels"),
    ("", [0o104, "NEXT"], "JMP NEXT", ""),
    ("DONE", [0o056, 0o001], "LH 001", "HL is the left byte of the total, 000610"),
    ("", [0o066, 0o210], "LL 210", ""),
    ("", [0o307], "LAM", "A is the check: the sum of the three bytes"),
    ("", [0o176, 0o004, 0o001], "ADL 1", ""),
    ("", [0o207], "ADM", ""),
    ("", [0o176, 0o004, 0o001], "ADL 1", ""),
    ("", [0o207], "ADM", ""),
    ("", [0o000], "HALT", ""),
]


def width(code):
    """The bytes of a line: an address has two."""
    return sum(2 if isinstance(b, str) else 1 for b in code)


def assemble(lines):
    """The address and the bytes of each line."""
    labels, at = {}, 0
    for label, code, _, _ in lines:
        if label:
            labels[label] = at
        at += width(code)
    done, at = [], 0
    for label, code, mnemonic, why in lines:
        out = []
        for b in code:
            # an address is low byte first
            out += [labels[b] % 256, labels[b] // 256] if isinstance(b, str) else [b]
        done.append((at, label, out, mnemonic, why))
        at += len(out)
    return done


def three(cents):
    """An amount in three bytes, high byte first."""
    return list(cents.to_bytes(3, "big"))


def image(table, start, blocks):
    """An image file: every number of 16 bits is high byte first."""
    out = [ord("D"), ord("P"), ord("J"), 0, 1] + table + list(start.to_bytes(2, "big"))
    for at, bytes_ in blocks:
        out += list(at.to_bytes(2, "big")) + list(len(bytes_).to_bytes(2, "big")) + bytes_
    return bytes(out)


def run(blocks, limit=65535):
    """The stop, the steps and A: the instructions that the two programs are made of, over sectors 0 and 1."""
    memory = [0] * 8192
    for at, bytes_ in blocks:
        memory[at : at + len(bytes_)] = bytes_
    names = "ABCDEHLX"
    r = dict.fromkeys(names, 0)
    carry, zero, p, stack = False, False, 0, []
    selecting = {0o111: "B", 0o062: "C", 0o113: "D", 0o174: "E", 0o115: "H", 0o176: "L", 0o022: "X"}

    def put(at, b):
        assert at < 4096, "sector 1 may not be written"
        memory[at] = b

    for steps in range(1, limit + 1):
        op = memory[p]
        to = selecting.get(op)
        if to:
            p, op = p + 1, memory[p + 1]
        p += 1
        one = memory[p]
        two = memory[p] + 256 * memory[p + 1]
        hl, de = 256 * r["H"] + r["L"], 256 * r["D"] + r["E"]
        a = to or "A"
        high, middle, low = op // 64, op // 8 % 8, op % 8
        if op == 0o000:
            return 2, steps, r["A"], memory
        elif op == 0o002:
            carry = r[a] >= 128
            r[a] = (2 * r[a] + carry) % 256
        elif op == 0o011:
            for _ in range(r["C"] % 16 or 16):
                all_ = memory[de] + memory[hl] + carry
                put(de, all_ % 256)
                carry, zero = all_ > 255, all_ % 256 == 0
                hl, de = hl - 1, de - 1
            r["H"], r["L"], r["D"], r["E"] = hl // 256, hl % 256, de // 256, de % 256
        elif op == 0o021:
            assert r["B"] == 0
            for _ in range(r["C"] or 256):
                b = (memory[hl] + r["A"]) % 256
                put(de, b)
                hl, de = hl + 1, de + 1
            carry, zero = False, b == 0
            r["H"], r["L"], r["D"], r["E"], r["C"] = hl // 256, hl % 256, de // 256, de % 256, 0
        elif op == 0o060 and to == "E":
            de = stack.pop()
            r["D"], r["E"] = de // 256, de % 256
        elif op == 0o070 and to == "E":
            stack.append(de)
        elif high == 0 and low == 6:
            r[names[middle]] = one
            p += 1
        elif op == 0o104:
            p = two
        elif op == 0o100:
            p = p + 2 if carry else two
        elif op == 0o140:
            p = two if carry else p + 2
        elif op == 0o150:
            p = two if zero else p + 2
        elif high == 3 and low == 7 and to in (None, "E"):
            r[names[middle]] = memory[de if to else hl]
        elif high == 3 and middle < 7 and low < 7:
            r[names[middle]] = r[names[low]]
        elif high == 2 or (high == 0 and low == 4):
            if high == 0:
                p += 1
            v = one if high == 0 else memory[hl] if low == 7 else r[names[low]]
            x = {0: r[a] + v, 2: r[a] - v, 4: r[a] & v, 7: r[a] - v}[middle]
            carry, zero = not 0 <= x <= 255, x % 256 == 0
            if middle != 7:
                r[a] = x % 256
        else:
            raise ValueError("%03o is not known here" % op)
    return 1, limit, r["A"], memory


def write(name, content):
    path = os.path.join(os.path.dirname(os.path.abspath(__file__)), name)
    with open(path, "wb") as f:
        f.write(content if isinstance(content, bytes) else content.encode())


def octal(bytes_):
    return " ".join("%03o" % b for b in bytes_)


def make_sample():
    blocks = [(0, [0o006, 0o005, 0o004, 0o003, 0o000])]
    stop, steps, a, _ = run(blocks)
    write("sample.img", image(TABLE, 0, blocks))
    write("sample.out", "stop %d steps %d a %d\n" % (stop, steps, a))


def make_freight():
    lines = assemble(PROGRAM)
    code = [b for line in lines for b in line[2]]
    parcels = [b for parcel in PARCELS for b in parcel] + [0o377]
    tariff = WEIGHTS + [0] * 12 + [b for zone in TARIFF for price in zone for b in three(price)]
    blocks = [(0, code), (PARCELS_AT, parcels), (TARIFF_AT, tariff)]
    stop, steps, a, memory = run(blocks)

    # the same by hand
    prices = [TARIFF[zone][[w >= weight for w in WEIGHTS].index(True)] for zone, weight in PARCELS]
    total = sum(prices)
    assert memory[TOTAL_AT : TOTAL_AT + 3] == three(total)
    assert memory[PRICE_AT : PRICE_AT + 3] == three(prices[-1])
    assert a == sum(three(total)) % 256
    told = "stop %d steps %d a %d\n" % (stop, steps, a)

    out = [
        "A consignment of parcels, priced by a tariff. Addresses and bytes are octal; the rest is decimal.",
        "",
        "For each parcel the program looks up the first weight of the tariff that is not below the parcel's own, takes the",
        "price under it in the row of the parcel's zone, moves it to a work field (BT) and adds it to the total (BFAC).",
        "Amounts are in cents and three bytes wide, high byte first. The tariff lies in sector 1, which may be read alone.",
        "At the end A is a check of the whole total: the sum of its three bytes, modulo 256.",
        "",
        "    run5500 < freight.img    prints    %s" % told.strip(),
        "",
        "PROGRAM, at 000000",
        "",
    ]
    for at, label, bytes_, mnemonic, why in lines:
        out.append(("%06o  %-12s %-6s %-10s %s" % (at, octal(bytes_), label, mnemonic, why)).rstrip())
    out += ["", "PARCELS, at %06o: zone, weight" % PARCELS_AT, ""]
    at = PARCELS_AT
    for (zone, weight), price in zip(PARCELS, prices):
        out.append("%06o  %-12s zone %d, weight %d: %d" % (at, octal([zone, weight]), zone, weight, price))
        at += 2
    out.append("%06o  %-12s the end" % (at, octal([0o377])))
    out += ["", "FIELDS, zero at first", ""]
    out.append("%06o  %-12s the price of the last parcel, at the end: %d" % (PRICE_AT, octal(three(prices[-1])), prices[-1]))
    out.append(
        "%06o  %-12s the total, at the end: %s = %d; the check is %s = %d, modulo 256 %d"
        % (TOTAL_AT, octal(three(total)), " + ".join(map(str, prices)), total, " + ".join(map(str, three(total))), sum(three(total)), a)
    )
    out += ["", "TARIFF, at %06o in sector 1: four weights, twelve zeros, and a row of four prices for each zone" % TARIFF_AT, ""]
    out.append("%06o  %-12s %s" % (TARIFF_AT, octal(WEIGHTS), ", ".join("up to %d" % w for w in WEIGHTS)))
    at = TARIFF_AT + 16
    for number, zone in enumerate(TARIFF):
        for weight, price in zip(WEIGHTS, zone):
            out.append("%06o  %-12s zone %d up to %d: %d" % (at, octal(three(price)), number, weight, price))
            at += 3
    write("freight.img", image(TABLE, 0, blocks))
    write("freight.lst", "\n".join(out) + "\n")
    write("freight.out", told)


if __name__ == "__main__":
    make_sample()
    make_freight()
