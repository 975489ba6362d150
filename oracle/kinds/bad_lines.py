"""Lines that are no commands, made from lines that are. A few come out as good ones, which does no harm: leading zeros
are allowed, and a field may be dropped from a `load`."""

# Names that no part will ever use.
NAMES = ["frob", "bytes", "wor", "State", "BYTE", "putww", "new0", "tables,", "load1", "?", "ok", "-", "~", "\tbyte"]


def bad_line(rng, line):
    return rng.choice(WAYS)(rng, line)


def missing(rng, line):
    fields = line.split(" ")
    if len(fields) > 1:
        del fields[rng.randrange(1, len(fields))]
    return " ".join(fields)


def surplus(rng, line):
    fields = line.split(" ")
    fields.insert(rng.randrange(1, len(fields) + 1), rng.choice(["0", "1", "65535", "-", "x"]))
    return " ".join(fields)


def out_of_range(rng, line):
    """One past a bound of the language, or far past it."""
    bounds = [2, 256, 1_101, 32_801, 65_536, 65_601, 65_793, 94_301]
    return replaced(rng, line, str(rng.choice(bounds + [4_294_967_295, 4_294_967_296, 18_446_744_073_709_551_616])))


def no_digits(rng, line):
    words = ["x", "-1", "+1", "0x10", "1.0", "1,0", "1_0", "ten", "1e3", "٣", "é", "'1'", "0b1", "1h", ":", "/"]
    return replaced(rng, line, rng.choice(words))


def very_long(rng, line):
    """Many digits: a large number, or a small one behind zeros."""
    digits = rng.choice(["9", "1", "0"]) * rng.choice([19, 20, 21, 64, 300]) + str(rng.randrange(10))
    return replaced(rng, line, digits)


def replaced(rng, line, by):
    fields = line.split(" ")
    if len(fields) > 1:
        fields[rng.randrange(1, len(fields))] = by
    else:
        fields.append(by)
    return " ".join(fields)


def spaces(rng, line):
    """A space too many somewhere, a tab for a space, or something at the end of the line."""
    fields = line.split(" ")
    at = rng.randrange(len(fields) + 1)
    doubled = " ".join(fields[:at] + [""] + fields[at:])
    return rng.choice([doubled, " " + line, line + " ", line.replace(" ", "\t", 1), line + "\r", line + "\0", line + "  "])


def wrong_name(rng, line):
    fields = line.split(" ")
    fields[0] = rng.choice(NAMES + [fields[0].upper(), fields[0] + "x", fields[0][:-1]])
    return " ".join(fields)


def bad_text(rng, line):
    text = rng.choice(["0", "abc", "0g", "AB", "aB", "--", "-00", "00-", "0x", "é0", "a5 ", "00 00", "0 0", ""])
    return f"poke {rng.choice(['memory', 'device', 'journal', 'Memory', 'mem', ''])} {rng.choice([0, 1, 5])} {text}"


def bad_poke(rng, line):
    return f"poke {rng.choice(['memory', 'device', 'journal', 'registers', 'memory,'])} {rng.choice([0, 90, 94_300, 94_301, 65_792])} 00"


def bad_entry(rng, line):
    """A label entry with a number missing, left over, out of range or badly parted."""
    entries = ["1,2", "1,2,3,4", ",1,2", "1,,2", "1,2,", ",", "1;2;3", "1.2,3", "-1,0,0", "1,2,x"]
    entry = rng.choice(entries + ["1,2,65536", "4294967296,1,1", "1,4294967296,1"])
    return f"line 524554 41 {rng.choice(['', '0,1,2 '])}{entry}{rng.choice(['', ' 0,1,2'])}"


def bad_rules(rng, line):
    rules = rng.choice(["strict", "Plain", "strictly", "", "0"])
    return f"{rng.choice(['asm', 'asmn'])} {rules} 1 1 {rng.choice(['', '2', 'RET'])} 524554"


def empty(rng, line):
    return rng.choice(["", " ", "  ", "\t", "\r"])


WAYS = [missing, surplus, out_of_range, no_digits, very_long, spaces, wrong_name]
WAYS += [bad_text, bad_poke, bad_entry, bad_rules, empty]
