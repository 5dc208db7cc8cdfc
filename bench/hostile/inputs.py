"""Hostile inputs, each with a harmless like of the same size: a name, the reader, and the two texts.

A hostile text is one that could cost more than its size: by nesting, by names that collide, by one thing that is very
long, or by very many that are very short. Its like has as many bytes, and the same things in common amounts: brackets
that nest five deep, names that do not collide, and so on.
"""
import itertools
import string

SIZE = 4_000_000
DEEP = 250


def pairs():
    yield from terms()
    yield from apps()
    yield from releases()
    yield from upgrades()
    names = list(itertools.islice(colliding(), 100_000))
    yield "modules whose names collide", "modules", lines(names), lines(map(apart, names))


def terms():
    def pair(name, hostile, harmless):
        return name, "terms", hostile, harmless

    yield pair("lists, 250 deep", row("[" * DEEP + "]" * DEEP), row("[[[[[]]]]]"))
    yield pair("tuples, 250 deep", row("{" * DEEP + "}" * DEEP), row("{{{{{}}}}}"))
    yield pair("lists in tuples in lists", row("[{" * 125 + "}]" * 125), row("[{[{[]}]}]"))
    yield pair("one element a tail, 250 tails", row("[a|" * DEEP + "[]" + "]" * DEEP), row("[a|[]]"))
    long = ",".join(["1"] * (SIZE // (2 * DEEP)))
    yield pair("long rows with tails, 250 tails", f"[{long}|" * DEEP + "[]" + "]" * DEEP + ".\n", row("1"))
    short = "[1|" * DEEP + '"' + "x" * SIZE + '"' + "]" * DEEP + ".\n"
    yield pair("a long string behind 250 tails", short, one_string("x"))
    half = '[1|[2,"' + "x" * (SIZE // 2) + '"|"' + "y" * (SIZE // 2) + '"]].\n'
    yield pair("strings in and behind tails", half, one_string("x"))
    yield pair("strings behind one another", " ".join(['"a"'] * (SIZE // 4)) + ".\n", row('"a"'))
    joined = '"' + "x" * (SIZE // 2) + '"' + ' "a"' * (SIZE // 8) + ".\n"
    yield pair("short strings behind a long one", joined, one_string("x"))
    yield pair("empty strings behind one another", '""  ' * (SIZE // 4) + ".\n", row('"" '))
    yield pair("a string of wide characters", one_string("\U0001f600"), one_string("abcd"))
    yield pair("one escape with many zeros", '"\\x{' + "0" * SIZE + '41}".\n', one_string("x"))
    yield pair("escapes", one_string("\\x{1f600}"), one_string("abcdefghi"))
    yield pair("octal escapes", one_string("\\101"), one_string("abcd"))
    yield pair("control escapes", one_string("\\^a"), one_string("abc"))
    yield pair("quoted atoms, all different", row_of(f"'{n:07}'" for n in itertools.count()), row_of(f"a{n:08}" for n in itertools.count()))
    yield pair("quoted atoms of escapes", row("'\\x{61}\\x{62}'"), row("'abcdefghijkl'"))
    yield pair("atoms of 255 wide characters", row("'" + "\U0001f600" * 255 + "'"), row("'" + "abcd" * 63 + "'"))
    yield pair("an atom that is too long", "'" + "a" * SIZE + "'.\n", one_string("a"))
    yield pair("a name that is too long", "a" * SIZE + ".\n", row("abcdefg"))
    one, other = itertools.islice(same_place(), 2)
    yield pair("atoms that displace one another", row(f"{one},{other}"), row(f"{one},{one[:-1]}_"))
    yield pair("atoms, each kept at one place", row_of(same_place()), row_of(f"a{n:07}" for n in itertools.count()))
    yield pair("one number of many digits", "9" * SIZE + ".\n", row("999999"))
    yield pair("one number with many underscores", "1" + "_0" * (SIZE // 2) + ".\n", row("1_0"))
    yield pair("one number of many zeros", "0" * SIZE + "1.\n", row("0001"))
    yield pair("one number in base 36", "36#" + "z" * SIZE + ".\n", row("36#z"))
    yield pair("underscored zeros in base 2", "2#" + "0_" * (SIZE // 2) + "1.\n", row("2#01"))
    yield pair("one float", "1." + "5" * SIZE + "e10.\n", row("15"))
    yield pair("one comment", "%" * SIZE + "\na.\n", " " * SIZE + "\na.\n")
    yield pair("short comments", "%\n" * (SIZE // 2) + "a.\n", " \n" * (SIZE // 2) + "a.\n")
    yield pair("wide blanks", "\u00a0" * (SIZE // 2) + "a.\n", "  " * (SIZE // 2) + "a.\n")
    yield pair("characters", row("$\\x{41}"), row("1234567"))
    yield pair("signs", row("-1"), row("11"))
    yield pair("many terms", "a.\n" * (SIZE // 3), row("aa"))
    yield pair("empty tuples, lists and strings", row('{},[],""'), row("11,22,33"))
    yield pair("a string that does not end", '"' + "a" * SIZE, one_string("a"))
    yield pair("a list that does not end", "[" + "a," * (SIZE // 2), row("a"))
    yield pair("a list that ends with a fault", "[" + "a," * (SIZE // 2) + "].\n", row("a"))
    yield pair("brackets that do not end, 250 deep", "[" + ("[" * DEEP + "]" * DEEP + ",") * (SIZE // (2 * DEEP + 1)), row("[[[[[]]]]]"))
    yield pair("dots", "a" + "." * SIZE, row("a"))
    yield "bytes that are no text at the end", "terms", ("[" + "a," * (SIZE // 2)).encode() + b"\xff", row("a")


def apps():
    def file(properties):
        return "{application,a,[{vsn,\"1\"}," + properties + "]}.\n"

    def pair(name, hostile, harmless):
        return name, "app", file(hostile), file(harmless)

    ignored = bare_row_of(f"{{k{n:06},[]}}" for n in itertools.count())
    yield pair("one key that is ignored", bare_row("{kxxxxxx,[]}"), ignored)
    yield pair("one key that stands twice", bare_row('{vsn,"12345"}'), bare_row('{abc,"12345"}'))
    yield pair("a key of lists, many times", bare_row("{modules,[a]}"), bare_row("{modulex,[a]}"))
    modules = (f"m{n:07}" for n in itertools.count())
    yield pair("one module named often", "{modules,[" + bare_row("m1234567") + "]}", "{modules,[" + bare_row_of(modules) + "]}")
    yield pair("modules behind tails", "{modules," + tails("m1", 250) + "}", "{modules,[" + bare_row("m1") + "]}")
    ones = "1" * SIZE
    yield pair("a long version elsewhere", f'{{env,"{ones}"}}', "{env,[" + bare_row("1") + "]}")
    version = f'{{application,a,[{{vsn,"{ones}"}}]}}.\n'
    yield "a long version", "app", version, file(f'{{env,"{ones}"}}')
    yield pair("an argument that is deep", "{mod,{m,[" + bare_row("[" * 200 + "]" * 200) + "]}}", "{mod,{m,[" + bare_row("[[[[[]]]]]") + "]}}")


def releases():
    def file(apps):
        return '{release,{"r","1"},{erts,"1"},[' + ",".join(apps) + "]}.\n"

    def pair(name, hostile, harmless):
        hostile, harmless = ([f'{{{it},"1"}}' for it in names] for names in (hostile, harmless))
        return name, "rel", file(hostile), file(harmless)

    names = list(itertools.islice(colliding(), SIZE // 39))
    yield pair("applications whose names collide", names, map(apart, names))
    yield pair("applications in order", sorted(names), map(apart, names))
    yield pair("applications against the order", sorted(names, reverse=True), map(apart, names))
    alike = [f"{'a' * 240}{n:05}" for n in range(SIZE // 252)]
    unlike = [f"a{n:05}{'a' * 239}" for n in range(SIZE // 252)]
    yield pair("long names that differ at their ends", alike, unlike)
    wide = "\U0001f600" * 250
    wides = [f"'{wide}{n:05}'" for n in range(SIZE // 1014)]
    narrow = "abcd" * 62
    yield pair("names of 255 wide characters", wides, [f"a{n:05}{narrow}" for n in range(SIZE // 262)])
    yield pair("one application, always", names[:1] * len(names), map(apart, names))
    yield pair("an application twice at the end", names + names[-1:], map(apart, names))
    some = names[: len(names) // 2]
    yield "applications that include others", "rel", file(f'{{{it},"1",[{it},{it[:8]}]}}' for it in some), file(f'{{{it},"1",[{it},{it[:8]}]}}' for it in map(apart, some))
    one, other = ('{a,"1",[' + bare_row(name) + "]}" for name in ("b", "bbb"))
    yield "one application that includes many", "rel", file([one]), file([other])
    yield "short names", "rel", file(f'{{a{n:x},"1"}}' for n in range(SIZE // 12)), file(f'{{a{n:020},"1"}}' for n in range(SIZE // 28))
    long = "r" * SIZE
    yield "a long name of the release", "rel", f'{{release,{{"{long}","1"}},{{erts,"1"}},[]}}.\n', one_string("r")


def upgrades():
    def instructions(reader, script):
        entry = "{\"1\",[" + script + "]}" if reader == "appup" else "{\"1\",[],[" + script + "]}"
        return '{"2",[' + entry + "],[]}.\n"

    def entries(several):
        return '{"2",[' + several + "],[]}.\n"

    for reader, nothing in (("appup", "[]"), ("relup", "[],[]")):
        def pair(name, hostile, harmless):
            return f"{reader}: {name}", reader, hostile, harmless

        common = "{load,{module_1,brutal_purge,soft_purge}}"
        if reader == "appup":
            common = "{load_module,module_1,[module_2]}"
        common = instructions(reader, bare_row(common))
        yield pair("tiny instructions", instructions(reader, bare_row("{stop,[]}")), common)
        yield pair("a bad instruction at the end", instructions(reader, bare_row("{stop,[]}") + ",x"), common)
        yield pair("one instruction of many modules", instructions(reader, "{stop,[" + bare_row("m") + "]}"), common)
        yield pair("one module, purged often", instructions(reader, "{purge,[" + bare_row("m1") + "]}"), common)
        yield pair("modules behind tails", instructions(reader, "{purge," + tails("m1", 240) + "}"), common)
        deep, flat = ("{apply,{m,f,[" + it + "]}}" for it in ("[" * 200 + "]" * 200, ",".join(["[[[[[]]]]]"] * 36)))
        yield pair("arguments that are deep", instructions(reader, bare_row(deep)), instructions(reader, bare_row(flat)))
        yield pair("arguments of strings", instructions(reader, '{apply,{m,f,["' + "a" * SIZE + '"]}}'), common)
        several = bare_row_of(f'{{"{n:06}",{nothing}}}' for n in itertools.count())
        yield pair("entries of one version", entries(bare_row(f'{{"123456",{nothing}}}')), entries(several))
        yield pair("tiny entries", entries(bare_row(f'{{"1",{nothing}}}')), entries(several))
        ones = "1" * SIZE
        yield pair("an entry of a long version", entries(f'{{"{ones}",{nothing}}}'), entries(several))
    yield "relup: long descriptions", "relup", entries(bare_row('{"1","' + "d" * 1000 + '",[]}')), entries(bare_row('{"1","dddd",[]}'))


def row(item):
    """A list of one thing over and over."""
    return "[" + bare_row(item) + "].\n"


def bare_row(item):
    return ",".join([item] * (SIZE // (len(item.encode()) + 1)))


def row_of(items):
    return "[" + bare_row_of(items) + "].\n"


def bare_row_of(items):
    """As many of these, which are all of one length, as fill a text."""
    first = next(items)
    return ",".join([first, *itertools.islice(items, SIZE // (len(first) + 1) - 1)])


def one_string(unit):
    return '"' + unit * (SIZE // len(unit.encode())) + '".\n'


def tails(item, depth):
    """Lists of this, each the tail of the one around it."""
    part = ",".join([item] * (SIZE // (depth * (len(item) + 1))))
    return f"[{part}|" * depth + "[]" + "]" * depth


def lines(names):
    return "".join(f"{name}\n" for name in names)


def same_place():
    """Names of eight characters which erl_consult keeps at one place: 31 times the sum so far and the next byte, modulo
    512."""
    ends = {(31 * one + other) % 512: bytes([one, other]).decode() for one in PLAIN for other in PLAIN}
    for n in itertools.count():
        front = f"a{n:05}"
        total = 0
        for byte in front.encode():
            total = (31 * total + byte) % 512
        if (end := (7 - 31 * 31 * total) % 512) in ends:
            yield front + ends[end]


# A hasher of fixed seed, as the standard library's maps have it: names of 32 bytes are taken in two steps of 16 bytes, each
# of which multiplies two words and joins the halves of the product by xor.
SEED = 0x243F_6A88_85A3_08D3
MULTIPLIER = 0x9E37_79B9_7F4A_7C15
WORD = 2**64 - 1
PLAIN = set((string.ascii_letters + string.digits + "_@").encode())


def folded(one, other):
    product = one * other
    return (product & WORD) ^ (product >> 64)


def colliding():
    """Names of 32 characters with one hash: where the third word is what the first two came to, the product is 0, and so
    is the hash, whatever the fourth word is."""
    for n in itertools.count():
        front = f"a{n:015}".encode()
        words = (int.from_bytes(front[at : at + 8], "little") for at in (0, 8))
        came_to = folded(next(words) ^ (SEED + 32 & WORD), next(words) ^ MULTIPLIER).to_bytes(8, "little")
        if PLAIN.issuperset(came_to):
            break
    prefix = (front + came_to).decode()
    return (f"{prefix}{n:08}" for n in itertools.count())


def apart(name):
    """A name of the same characters, with those that differ in front."""
    return f"a{name[-8:]}{name[1:-8]}"
