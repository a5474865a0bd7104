"""Width tables: right ones made up for given fonts, and every way to be wrong."""

import collections

from dvi import GREATEST_SCALE, big

# A form of records: how many bytes one has, its name, and the key that rises from one to the next.
Form = collections.namedtuple("Form", "size name key")
NEW, OLD = Form(32, 16, 25), Form(16, 0, 9)
RECORD, NAME = NEW.size, NEW.name
ANY = bytes(NAME)  # in the place of a name, for fonts of any
LONGEST_TABLE = 65_536  # that the desk holds
MOST_RECORDS = LONGEST_TABLE // RECORD


def record(check_sum, scale, code, escapement, width, zero=0, name=b""):
    """One of the new form; a name that is shorter than it may be has zeros behind it."""
    return big(check_sum, 4) + big(scale, 4) + name.ljust(NAME, b"\0") + bytes([code, zero]) + big(escapement, 2) + width


def old_record(check_sum, scale, code, escapement, width, zero=0):
    """One of the form that had no names."""
    return big(check_sum, 4) + big(scale, 4) + bytes([code, zero]) + big(escapement, 2) + width


def sayable(name):
    """Whether a record can have this name."""
    return len(name) <= NAME and 0 not in name


def records_of(table, form=NEW):
    return [table[at : at + form.size] for at in range(0, len(table), form.size)]


def made_up_width(rng):
    """A fix word: mostly between 0 and one em, now and then negative or at an edge."""
    kind = rng.random()
    if kind < 0.8:
        return big(rng.randrange(1 << 20), 4)
    if kind < 0.9:
        return big(-rng.randrange(1, 1 << 20), 4)
    return bytes([rng.choice([0, 255]), *(rng.choice([0, 1, 127, 128, 255, rng.randrange(256)]) for _ in range(3))])


def made_up_escapement(rng, width, scale, unit):
    """Near the true pixels, so that the drift comes into play, and now and then anything that two bytes hold."""
    if rng.random() < 0.1:
        return rng.choice([-32768, -32767, -1, 0, 1, 32767, rng.randrange(-32768, 32768)])
    fix = int.from_bytes(width, "big", signed=True)
    pixels = round(float(unit) * fix * scale / (1 << 20)) + rng.choice([-3, -2, -1, -1, 0, 0, 0, 1, 1, 2, 3])
    return max(-32768, min(32767, pixels))


def table_for(rng, fonts, unit, share=1.0):
    """Records for all these fonts, codes 0 to 255, as many as a table holds: each for any name or for the font's own, some for both where there is room.
    With a share below 1 some are left out."""
    fonts = [font for font in fonts if 1 <= font.scale <= GREATEST_SCALE]
    codes_each = min(256, MOST_RECORDS // len(fonts)) if fonts else 0
    both = 0.2 if 2 * codes_each * len(fonts) <= MOST_RECORDS else 0
    keys = set()
    for font in fonts:
        names = [b"", font.name] if sayable(font.name) else [b""]
        for code in rng.sample(range(256), codes_each):
            if share == 1 or rng.random() < share:
                keys |= {(font.check_sum, font.scale, name, code) for name in (names if rng.random() < both else [rng.choice(names)])}
    rows = []
    for check_sum, scale, name, code in sorted(keys):
        width = made_up_width(rng)
        rows.append(record(check_sum, scale, code, made_up_escapement(rng, width, scale, unit), width, name=name))
    return b"".join(rows)


def wrong_tables(rng, table, form=NEW):
    """Tables that are wrong at one record each, and beside them right ones that look alike."""
    count, zero, first, name = len(table) // form.size, form.key, form.size - 4, 8 + form.name
    for index in sorted({0, min(1, count - 1), count // 2, count - 1, rng.randrange(count)}):
        at = index * form.size
        before, row, after = table[:at], table[at : at + form.size], table[at + form.size :]
        for scale in (0, 1, GREATEST_SCALE, GREATEST_SCALE + 1, 0xFFFFFFFF, 0x80000000):
            yield before + row[:4] + big(scale, 4) + row[8:] + after
        for byte in (1, 128, 255):
            yield before + row[:zero] + bytes([byte]) + row[zero + 1 :] + after
        for byte in (1, 127, 128, 254, 255, 0):
            yield before + row[:first] + bytes([byte]) + row[first + 1 :] + after
        for byte in range(8, name):  # zeros and others in each place of the name
            for other in (0, 1, 255):
                yield before + row[:byte] + bytes([other]) + row[byte + 1 :] + after
        yield before + row + row + after  # equal keys
        yield before + row + row[: form.key] + bytes(3) + bytes(4) + after  # equal keys, another width
        yield before + after  # a record left out is right
        if index:
            earlier = before[-form.size :]
            yield before[: -form.size] + row + earlier + after  # falling keys
            for byte in range(form.key):  # one byte of the key made less than the record before
                if earlier[byte]:
                    key = earlier[:byte] + bytes([earlier[byte] - 1]) + row[byte + 1 : form.key]
                    yield before + key + row[form.key :] + after
        for byte in range(form.key):
            yield before + row[:byte] + bytes([row[byte] ^ 1 << rng.randrange(8)]) + row[byte + 1 :] + after
        for left in (1, 8, form.key - 1, form.key, first, form.size // 2, form.size - 1):
            yield before + row + after + row[:left]
            yield before + row[:left]
