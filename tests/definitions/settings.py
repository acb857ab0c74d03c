"""Closed instances about the settings record: random and mutated records read, and geometries written, as the independent program does."""
import subprocess

HEAD = """-- Printed by tests/definitions/compare.py.
use Rattle.std.specs.Prelude.{◌≡◌, refl, List, [], ◌∷◌}
use Rattle.scope.specs.Geometry.{accepted}
use Rattle.settings.specs.Fields.{next, number, fields_read, whole_fields, bytes_of, fields_written, bytes_in}
use Rattle.settings.specs.Settings.{answered, tf_settings_read, tf_settings_write, read, write, written, version_of, last_tag}

"""
READ = "tf_settings_read read next number fields_read whole_fields version_of last_tag accepted"
WRITE = "write written fields_written bytes_of bytes_in accepted"
LIMITS = (64, 512, 1022, 1022, 65406, 4096)
WIDTHS = (2, 2, 2, 2, 4, 2)
# One in so many is written, has other than six words or 36 bytes lent, another version, a long field to skip.
WRITTEN, OTHER_LENT, OTHER_VERSION, LONG = 4, 12, 12, 20


def geometry(rng):
    """Mostly accepted, often at a limit; else with a number changed."""
    d, t = rng.choice([(2, 2), (2, 1022), (1022, 2), (512, 512), (rng.randint(2, 500), rng.randint(2, 524))])
    p, w, c = (rng.choice([2, most, rng.randint(2, most)]) for most in (64, 512, 4096))
    most = min((d - 1) * p - 1, ((t - 1) * p - 1) * w)
    numbers = [p, w, d, t, rng.choice([1, most, rng.randint(1, most)]), c]
    if rng.random() < 0.3:
        i = rng.randrange(6)
        numbers[i] = rng.choice([0, 1, LIMITS[i] + 1, numbers[i] + 1, 65535, rng.randrange(65536)])
    return numbers


def field(tag, value):
    return [tag, *len(value).to_bytes(2, "big"), *value]


def record(rng):
    """The fields of a geometry, in most records some of higher tags, and then up to three changes."""
    fields = [field(1, [1 if rng.randrange(OTHER_VERSION) else rng.choice([0, 2, 255])])]
    fields += [field(2 + i, list((x % 256**n).to_bytes(n, "big"))) for i, (x, n) in enumerate(zip(geometry(rng), WIDTHS))]
    for _ in range(rng.choice([0, 0, 1, 2, 3])):
        length = rng.choice([255, 256, 300]) if rng.randrange(LONG) == 0 else rng.randint(0, 4)
        fields.append(field(rng.choice([8, 9, 255, rng.randint(8, 255), 7]), [rng.randrange(256) for _ in range(length)]))
    if rng.random() < 0.1:
        a, b = rng.sample(range(len(fields)), 2)
        fields[a], fields[b] = fields[b], fields[a]
    record = [byte for one in fields for byte in one]
    for _ in range(rng.choice([0, 0, 1, 1, 2, 3])):
        at = rng.randrange(len(record) + 1)
        record = rng.choice([
            record[:at] + [rng.randrange(256)] + record[at + 1:], record[:at] + [rng.randrange(4)] + record[at + 1:],
            record[:at], record[:-1], record + [rng.randrange(256)], record[:at] + record[at + 1:]])
    return record


def case(rng):
    """A line for the driver: the call, how much is lent, and the record or the geometry."""
    if rng.randrange(WRITTEN) == 0:
        wide = [x + 65536 * (rng.randrange(20) == 0) for x in geometry(rng)]
        return ["W", rng.randint(34, 38) if rng.randrange(OTHER_LENT) == 0 else 36, *wide]
    return ["R", rng.randint(0, 8) if rng.randrange(OTHER_LENT) == 0 else 6, *record(rng)]


def as_list(items):
    return "(" + "".join(f"{x} ∷ " for x in items) + "[])"


def instance(number, line, given):
    """The statement that the definitions give what the independent program gave."""
    call, lent, *rest = line
    answer, *left = given.split()
    asked = f"tf_settings_read {as_list(rest)}"
    if call == "W":
        asked = "tf_settings_write (record { " + "; ".join(f"{k} = {v}" for k, v in zip("PWDTLC", rest)) + " })"
    return (f"case_{number} : answered {answer} {as_list(left)}\n    ≡ {asked} {as_list([7] * lent)}\n"
            f"unfolding {READ if call == 'R' else WRITE}\ncase_{number} = refl\n\n")


def instances(rng, driver, cases):
    """The whole file, and how often each answer is in it."""
    lines = [case(rng) for _ in range(cases)]
    given = subprocess.run([driver], input="".join(" ".join(map(str, line)) + "\n" for line in lines), text=True, capture_output=True,
                           check=True).stdout.splitlines()
    text = HEAD + "".join(instance(i, line, g) for i, (line, g) in enumerate(zip(lines, given, strict=True)))
    answers = [g.split()[0] for g in given]
    return text, ", ".join(f"{answers.count(a)} of answer {a}" for a in sorted(set(answers)))
