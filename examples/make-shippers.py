#!/usr/bin/env python3
"""Writes what the program `freight` runs: two shippers' pricing programs, the tariff, the shipments and the trespasses.

    python3 make-shippers.py      writes shippers.lst beside itself and crates/freight/src/listings.rt, and holds
                                  crates/freight/stdout to the charges that it works out itself

The assembler, the tariff's weights and its prices are those of make-freight.py; taking them from there writes that
script's own files again, with the same content.
"""

import importlib.util
import os

HERE = os.path.dirname(os.path.abspath(__file__))
FREIGHT = os.path.join(HERE, "..", "crates", "freight")

spec = importlib.util.spec_from_file_location("make_freight", os.path.join(HERE, "make-freight.py"))
base = importlib.util.module_from_spec(spec)
spec.loader.exec_module(base)

# What the tariff has beside the weights and prices: a percentage, a weight, and amounts in cents.
FUEL = 14
HEAVY = 100
MINIMUM = 600
RATES = [19, 47, 138, 655]

# The zone and the weight of each shipment.
SHIPMENTS = [
    (0, 3),
    (1, 27),
    (3, 60),
    (2, 50),
    (0, 10),
    (1, 99),
    (2, 11),
    (3, 255),
    (1, 100),
    (0, 186),
    (2, 25),
    (3, 1),
]

# Both programs: the three bytes at HL go to DE, with nothing added (A) and no byte that ends the move (B).
MOVE = [
    ("MOVE", [0o006, 0o000], "LA 000", "three bytes from HL to DE: nothing is added,"),
    ("", [0o016, 0o000], "LB 000", "no byte ends the move,"),
    ("", [0o026, 0o003], "LC 003", "and there are three"),
    ("", [0o021], "BT", ""),
    ("", [0o007], "RET", ""),
]

# Both programs: the first question, and its answer.
ASK = [
    ("START", [0o006, 0o001], "LA 001", "1: the next shipment?"),
    ("", [0o067], "SC", "B is the zone, C the weight"),
    ("", [0o301], "LAB", ""),
    ("", [0o074, 0o377], "CP 377", "377: there is none"),
    ("", [0o150, "DONE"], "JTZ DONE", ""),
]

# Both programs: the charge stands at 000410, and is delivered.
TELL = [
    ("TELL", [0o056, 0o001], "LH 001", "HL is the charge, high byte first"),
    ("", [0o066, 0o010], "LL 010", ""),
    ("", [0o317], "LBM", ""),
    ("", [0o176, 0o004, 0o001], "ADL 1", ""),
    ("", [0o327], "LCM", ""),
    ("", [0o176, 0o004, 0o001], "ADL 1", ""),
    ("", [0o337], "LDM", ""),
    ("", [0o006, 0o002], "LA 002", "2: B, C and D are the charge"),
    ("", [0o067], "SC", ""),
    ("", [0o104, "START"], "JMP START", ""),
    ("DONE", [0o000], "HALT", ""),
]

# A label, the bytes (a text is the address of a label), the mnemonic and what it is for, as in make-freight.py.
ALDER = (
    ASK
    + [
        ("", [0o056, 0o020], "LH 020", "HL is the first weight of the tariff"),
        ("", [0o066, 0o000], "LL 000", ""),
        ("BAND", [0o307], "LAM", "up to this weight?"),
        ("", [0o272], "CPC", "carry if it is below that of the shipment"),
        ("", [0o100, "FOUND"], "JFC FOUND", ""),
        ("", [0o176, 0o004, 0o001], "ADL 1", "no: the next weight"),
        ("", [0o104, "BAND"], "JMP BAND", ""),
        ("FOUND", [0o306], "LAL", "L is the number of the weight, and A is"),
        ("", [0o002], "SLC", "2 * L"),
        ("", [0o206], "ADL", "3 * L"),
        ("", [0o004, 0o020], "AD 020", "16 + 3 * L: its price in zone 0"),
        ("ZONE", [0o111, 0o024, 0o001], "SUB 1", "12 bytes further for each zone"),
        ("", [0o140, "PRICE"], "JTC PRICE", "carry once B was 0"),
        ("", [0o004, 0o014], "AD 014", ""),
        ("", [0o104, "ZONE"], "JMP ZONE", ""),
        ("PRICE", [0o360], "LLA", "HL is the price in the tariff,"),
        ("", [0o036, 0o001], "LD 001", "which goes to the charge"),
        ("", [0o046, 0o010], "LE 010", ""),
        ("", [0o106, "MOVE"], "CALL MOVE", ""),
        ("", [0o056, 0o001], "LH 001", "the product is 50 at first, so that"),
        ("", [0o066, 0o020], "LL 020", "its hundredth is rounded"),
        ("", [0o006, 0o000], "LA 000", ""),
        ("", [0o370], "LMA", ""),
        ("", [0o176, 0o004, 0o001], "ADL 1", ""),
        ("", [0o370], "LMA", ""),
        ("", [0o176, 0o004, 0o001], "ADL 1", ""),
        ("", [0o006, 0o062], "LA 062", ""),
        ("", [0o370], "LMA", ""),
        ("", [0o056, 0o020], "LH 020", "B is the fuel surcharge, in per cent"),
        ("", [0o066, 0o004], "LL 004", ""),
        ("", [0o317], "LBM", ""),
        ("TIMES", [0o056, 0o001], "LH 001", "the price is added to the product, B times"),
        ("", [0o066, 0o012], "LL 012", ""),
        ("", [0o036, 0o001], "LD 001", ""),
        ("", [0o046, 0o022], "LE 022", ""),
        ("", [0o026, 0o003], "LC 003", ""),
        ("", [0o240], "NDA", "carry is clear"),
        ("", [0o011], "BFAC", ""),
        ("", [0o111, 0o024, 0o001], "SUB 1", ""),
        ("", [0o110, "TIMES"], "JFZ TIMES", ""),
        ("", [0o056, 0o001], "LH 001", "C, D and E are the product"),
        ("", [0o066, 0o020], "LL 020", ""),
        ("", [0o327], "LCM", ""),
        ("", [0o176, 0o004, 0o001], "ADL 1", ""),
        ("", [0o337], "LDM", ""),
        ("", [0o176, 0o004, 0o001], "ADL 1", ""),
        ("", [0o347], "LEM", ""),
        ("", [0o006, 0o000], "LA 000", "divided by 100, bit by bit: A is the rest,"),
        ("", [0o066, 0o030], "LL 030", "L counts the 24 bits"),
        ("BIT", [0o174, 0o204], "ADE E", "the next bit of C, D and E goes to A,"),
        ("", [0o113, 0o213], "ACD D", ""),
        ("", [0o062, 0o212], "ACC C", ""),
        ("", [0o210], "ACA", ""),
        ("", [0o074, 0o144], "CP 144", "and 100 leaves it where it is in it:"),
        ("", [0o140, "LESS"], "JTC LESS", ""),
        ("", [0o024, 0o144], "SU 144", ""),
        ("", [0o174, 0o004, 0o001], "ADE 1", "a 1 in the quotient, in C, D and E too"),
        ("LESS", [0o176, 0o024, 0o001], "SUL 1", ""),
        ("", [0o110, "BIT"], "JFZ BIT", ""),
        ("", [0o066, 0o022], "LL 022", "the quotient is the surcharge,"),
        ("", [0o374], "LME", ""),
        ("", [0o176, 0o024, 0o001], "SUL 1", ""),
        ("", [0o373], "LMD", ""),
        ("", [0o176, 0o024, 0o001], "SUL 1", ""),
        ("", [0o372], "LMC", ""),
        ("", [0o066, 0o022], "LL 022", "which is added to the charge"),
        ("", [0o036, 0o001], "LD 001", ""),
        ("", [0o046, 0o012], "LE 012", ""),
        ("", [0o026, 0o003], "LC 003", ""),
        ("", [0o240], "NDA", ""),
        ("", [0o011], "BFAC", ""),
        ("", [0o056, 0o020], "LH 020", "the minimum goes to the work field,"),
        ("", [0o066, 0o006], "LL 006", ""),
        ("", [0o046, 0o030], "LE 030", ""),
        ("", [0o106, "MOVE"], "CALL MOVE", ""),
        ("", [0o056, 0o001], "LH 001", "less the charge:"),
        ("", [0o066, 0o012], "LL 012", ""),
        ("", [0o046, 0o032], "LE 032", ""),
        ("", [0o026, 0o003], "LC 003", ""),
        ("", [0o240], "NDA", ""),
        ("", [0o031], "BFSB", ""),
        ("", [0o140, "TELL"], "JTC TELL", "carry if the minimum is below the charge,"),
        ("", [0o056, 0o020], "LH 020", "else it is the charge"),
        ("", [0o066, 0o006], "LL 006", ""),
        ("", [0o046, 0o010], "LE 010", ""),
        ("", [0o106, "MOVE"], "CALL MOVE", ""),
    ]
    + TELL
    + MOVE
)

BIRCH = (
    ASK
    + [
        ("", [0o056, 0o001], "LH 001", "the weight is kept at 000440"),
        ("", [0o066, 0o040], "LL 040", ""),
        ("", [0o372], "LMC", ""),
        ("", [0o002], "SLC", "2 * zone"),
        ("", [0o201], "ADB", "3 * zone"),
        ("", [0o176, 0o004, 0o001], "ADL 1", "is kept behind it"),
        ("", [0o370], "LMA", ""),
        ("", [0o360], "LLA", "HL is the rate of the zone,"),
        ("", [0o176, 0o004, 0o100], "ADL 100", ""),
        ("", [0o056, 0o020], "LH 020", ""),
        ("", [0o036, 0o001], "LD 001", "which goes to the rate field"),
        ("", [0o046, 0o020], "LE 020", ""),
        ("", [0o106, "MOVE"], "CALL MOVE", ""),
        ("", [0o056, 0o001], "LH 001", ""),
        ("", [0o066, 0o041], "LL 041", ""),
        ("", [0o307], "LAM", "3 * zone"),
        ("", [0o002], "SLC", "6 * zone"),
        ("", [0o002], "SLC", "12 * zone"),
        ("", [0o004, 0o020], "AD 020", ""),
        ("", [0o360], "LLA", "HL is the zone's price up to the first weight,"),
        ("", [0o056, 0o020], "LH 020", ""),
        ("", [0o046, 0o010], "LE 010", "which goes to the charge"),
        ("", [0o106, "MOVE"], "CALL MOVE", ""),
        ("", [0o056, 0o001], "LH 001", ""),
        ("", [0o066, 0o040], "LL 040", ""),
        ("", [0o307], "LAM", "the weight"),
        ("", [0o056, 0o020], "LH 020", ""),
        ("", [0o066, 0o000], "LL 000", ""),
        ("", [0o227], "SUM", "less the first weight of the tariff"),
        ("", [0o140, "WHOLE"], "JTC WHOLE", "not more than that:"),
        ("", [0o150, "WHOLE"], "JTZ WHOLE", "there are no steps"),
        ("", [0o310], "LBA", "B is the weight beyond it"),
        ("STEP", [0o056, 0o001], "LH 001", "the rate is added to the charge"),
        ("", [0o066, 0o022], "LL 022", ""),
        ("", [0o046, 0o012], "LE 012", ""),
        ("", [0o026, 0o003], "LC 003", ""),
        ("", [0o240], "NDA", "carry is clear"),
        ("", [0o011], "BFAC", ""),
        ("", [0o111, 0o024, 0o002], "SUB 2", "for each 2 of B, and for the last 1"),
        ("", [0o140, "WHOLE"], "JTC WHOLE", ""),
        ("", [0o110, "STEP"], "JFZ STEP", ""),
        ("WHOLE", [0o056, 0o001], "LH 001", ""),
        ("", [0o066, 0o040], "LL 040", ""),
        ("", [0o307], "LAM", "the weight"),
        ("", [0o056, 0o020], "LH 020", ""),
        ("", [0o066, 0o005], "LL 005", ""),
        ("", [0o277], "CPM", "carry if it is below that of heavy shipments"),
        ("", [0o140, "TELL"], "JTC TELL", ""),
        ("", [0o056, 0o001], "LH 001", "C, D and E are the charge"),
        ("", [0o066, 0o010], "LL 010", ""),
        ("", [0o327], "LCM", ""),
        ("", [0o176, 0o004, 0o001], "ADL 1", ""),
        ("", [0o337], "LDM", ""),
        ("", [0o176, 0o004, 0o001], "ADL 1", ""),
        ("", [0o347], "LEM", ""),
        ("", [0o066, 0o004], "LL 004", "four places to the right: a sixteenth of it"),
        ("RIGHT", [0o240], "NDA", "carry is clear"),
        ("", [0o062, 0o032], "SRE C", ""),
        ("", [0o113, 0o032], "SRE D", ""),
        ("", [0o174, 0o032], "SRE E", ""),
        ("", [0o176, 0o024, 0o001], "SUL 1", ""),
        ("", [0o110, "RIGHT"], "JFZ RIGHT", ""),
        ("", [0o066, 0o032], "LL 032", "goes to the work field"),
        ("", [0o374], "LME", ""),
        ("", [0o176, 0o024, 0o001], "SUL 1", ""),
        ("", [0o373], "LMD", ""),
        ("", [0o176, 0o024, 0o001], "SUL 1", ""),
        ("", [0o372], "LMC", ""),
        ("", [0o066, 0o032], "LL 032", "and off the charge"),
        ("", [0o036, 0o001], "LD 001", ""),
        ("", [0o046, 0o012], "LE 012", ""),
        ("", [0o026, 0o003], "LC 003", ""),
        ("", [0o240], "NDA", ""),
        ("", [0o031], "BFSB", ""),
    ]
    + TELL
    + MOVE
)

# What the trespasser tries.
WRITES_TARIFF = [
    ("", [0o056, 0o020], "LH 020", "HL is the first weight of the tariff,"),
    ("", [0o066, 0o000], "LL 000", ""),
    ("", [0o006, 0o000], "LA 000", ""),
    ("", [0o370], "LMA", "which may only be read"),
    ("", [0o000], "HALT", ""),
]

MOVES_INTO_TARIFF = [
    ("", [0o056, 0o000], "LH 000", "HL is its own code,"),
    ("", [0o066, 0o000], "LL 000", ""),
    ("", [0o036, 0o017], "LD 017", "DE is the last byte of its own page,"),
    ("", [0o046, 0o377], "LE 377", ""),
    ("", [0o026, 0o002], "LC 002", "and there are two"),
    ("", [0o021], "BT", "so the second goes to the tariff"),
    ("", [0o000], "HALT", ""),
]

READS_BEYOND = [
    ("", [0o056, 0o040], "LH 040", "HL is in sector 2, which gives no access"),
    ("", [0o066, 0o000], "LL 000", ""),
    ("", [0o307], "LAM", ""),
    ("", [0o000], "HALT", ""),
]

JUMPS_BEYOND = [
    ("", [0o104, 0o000, 0o040], "JMP 020000", "sector 2 gives no access"),
]

LOADS_TABLE = [
    ("", [0o056, 0o000], "LH 000", "HL is a table of its own making"),
    ("", [0o066, 0o006], "LL 006", ""),
    ("", [0o077], "STL", "the sector table is the host's to load"),
    ("", [0o000], "HALT", ""),
    ("", [0o074, 0o114, 0o124], "", "the table, with the pages of both shippers"),
]

# The name in listings.rt, the lines, and a headline.
LISTINGS = [
    ("ALDER", ALDER, "Alder Freight: the price of zone and weight, a fuel surcharge, and a minimum"),
    ("BIRCH", BIRCH, "Birch Parcel: the first price of the zone, steps of weight, and a sixteenth off for heavy shipments"),
    ("WRITES_TARIFF", WRITES_TARIFF, "The trespasser stores into the tariff: stop 7"),
    ("MOVES_INTO_TARIFF", MOVES_INTO_TARIFF, "The trespasser moves a block into the tariff: stop 7"),
    ("READS_BEYOND", READS_BEYOND, "The trespasser reads beyond its table: stop 6"),
    ("JUMPS_BEYOND", JUMPS_BEYOND, "The trespasser jumps beyond its table: stop 6"),
    ("LOADS_TABLE", LOADS_TABLE, "The trespasser loads a sector table: stop 5"),
]


def tariff():
    """The bytes of the tariff, row by row, and what each row is."""
    rows = [
        (base.WEIGHTS, ", ".join("up to %d" % w for w in base.WEIGHTS)),
        ([FUEL], "fuel surcharge: %d per cent" % FUEL),
        ([HEAVY], "heavy from %d on" % HEAVY),
        (base.three(MINIMUM), "minimum: %d" % MINIMUM),
        ([0] * 7, ""),
    ]
    for zone, prices in enumerate(base.TARIFF):
        for weight, price in zip(base.WEIGHTS, prices):
            rows.append((base.three(price), "zone %d up to %d: %d" % (zone, weight, price)))
    for zone, rate in enumerate(RATES):
        rows.append((base.three(rate), "zone %d, each started 2 beyond %d: %d" % (zone, base.WEIGHTS[0], rate)))
    return rows


def alder(zone, weight):
    price = base.TARIFF[zone][[w >= weight for w in base.WEIGHTS].index(True)]
    return max(price + (price * FUEL + 50) // 100, MINIMUM)


def birch(zone, weight):
    steps = max(0, weight - base.WEIGHTS[0] + 1) // 2
    charge = base.TARIFF[zone][0] + steps * RATES[zone]
    return charge - (charge // 16 if weight >= HEAVY else 0)


def money(cents):
    return "%d.%02d" % (cents // 100, cents % 100)


def make_listing():
    out = [
        "Two shippers' pricing programs over one tariff, and what a trespasser tries. The program freight runs them.",
        "Addresses and bytes are octal, and so are the numbers in an instruction; the rest is decimal.",
        "",
        "A shipper asks the host by SC with 1 in A, and has the zone in B (377: no more) and the weight in C from the reply.",
        "It delivers the charge by SC with 2 in A: cents, three bytes in B, C and D, high byte first.",
        "Sector 0 is its own page, sector 1 the tariff, which may be read alone.",
        "Its fields are three bytes wide: 000410 the charge, 000420 the product or the rate, 000430 a work field.",
    ]
    for _, lines, headline in LISTINGS:
        out += ["", headline, ""]
        for at, label, bytes_, mnemonic, why in base.assemble(lines):
            out.append(("%06o  %-12s %-6s %-10s %s" % (at, base.octal(bytes_), label, mnemonic, why)).rstrip())
    out += ["", "TARIFF, at 010000 in sector 1", ""]
    at = base.TARIFF_AT
    for bytes_, what in tariff():
        out.append(("%06o  %-12s %s" % (at, base.octal(bytes_) if any(bytes_) else "", what or "zeros")).rstrip())
        at += len(bytes_)
    out += ["", "SHIPMENTS, and the charges in cents", ""]
    out += ["zone %d, weight %3d: Alder %6d, Birch %6d" % (z, w, alder(z, w), birch(z, w)) for z, w in SHIPMENTS]
    base.write("shippers.lst", "\n".join(out) + "\n")


def constant(name, rows, headline):
    """A constant of bytes: a row to a line, with what it is behind it."""
    out = ["// %s." % headline, "#[rattlefmt::skip]", "pub const %s: [u8; %d] = [" % (name, sum(len(bytes_) for bytes_, _ in rows))]
    for bytes_, what in rows:
        out.append(("    %-22s // %s" % (" ".join("0o%03o," % b for b in bytes_), what)).rstrip(" /"))
    return out + ["];", ""]


def make_source():
    out = ["// The bytes that the shippers and the trespasser run and read. Written by examples/make-shippers.py.", "use office::question::Shipment;", ""]
    for name, lines, headline in LISTINGS:
        rows = [(bytes_, ("%-6s %-10s %s" % (label, mnemonic, why)).rstrip()) for _, label, bytes_, mnemonic, why in base.assemble(lines)]
        out += constant(name, rows, headline)
    out += constant("TARIFF", tariff(), "The tariff, as it stands at the start of its page")
    out += ["// What both shippers price.", "#[rattlefmt::skip]", "pub const SHIPMENTS: [Shipment; %d] = [" % len(SHIPMENTS)]
    out += ["    Shipment { zone: %d, weight: %d }," % shipment for shipment in SHIPMENTS] + ["];", ""]
    with open(os.path.join(FREIGHT, "src", "listings.rt"), "w") as f:
        f.write("\n".join(out[:-1]) + "\n")


def check_output():
    """Every charge that freight prints, alone and interleaved, is the one that is worked out here."""
    with open(os.path.join(FREIGHT, "stdout")) as f:
        rows = [line.split() for line in f]
    printed = [tuple(row) for row in rows if len(row) == 4 and row[0].isdigit()]
    expected = [(str(z), str(w), money(c), money(c)) for price in (alder, birch) for z, w, c in [(z, w, price(z, w)) for z, w in SHIPMENTS]]
    assert printed == expected, "crates/freight/stdout has other charges"
    print("crates/freight/stdout: all %d charges are as worked out here" % len(expected))


if __name__ == "__main__":
    make_listing()
    make_source()
    check_output()
