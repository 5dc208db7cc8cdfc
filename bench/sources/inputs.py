"""Sources of modules: ordinary ones, wide ones that are read, and deep ones that are refused. A name, and the text."""
import itertools

MANY = 1_000_000
MEGABYTE = 1_000_000

FUNCTIONS = """\
-export([handle_{n}/3]).
% Gives out what is left, and counts down.
handle_{n}({{take, Key}}, From, {{state, N, Left}}) when is_integer(N), N > 0 ->
    Next = N - 1,
    case lookup_{n}(Key, Left) of
        {{found, Value}} ->
            gen_server:reply(From, {{ok, Value}}),
            {{noreply, {{state, Next, [Value | Left]}}}};
        none when Next < 10; Next == limit ->
            log ! {{none, Key, ?MODULE}},
            {{reply, {{error, "not there"}}, {{state, Next, Left ++ [Key]}}}};
        _ ->
            {{stop, 'no more', {{state, 0, []}}}}
    end;
handle_{n}(_Other, _From, State) -> {{noreply, State}}.

lookup_{n}(_, []) -> none;
lookup_{n}(Key, [{{Key, Value}} | _]) -> {{found, Value * 2 + {n} div 7}};
lookup_{n}(Key, [_ | Rest]) -> lookup_{n}(Key, Rest).

"""


def module(text):
    return "-module(m).\n" + text


def body(text):
    """The only function's body; X is bound in it."""
    return module(f"f(X) -> {text}.\n")


def ordinary():
    """Functions as they are written, of about so many bytes."""
    for size in (MEGABYTE, 10 * MEGABYTE):
        parts, length = [], 0
        for n in itertools.count():
            if length >= size:
                break
            parts.append(FUNCTIONS.format(n=n))
            length += len(parts[-1])
        yield f"functions, {size // MEGABYTE} MB", module("".join(parts))


def wide():
    """What could cost more than its size where there is very much of it."""
    count = 100_000
    yield "a list of integers", body("[" + ",".join(["17"] * 3 * count) + "]")
    yield "a list of tuples with a variable", body("[" + ",".join(["{a,X}"] * count) + "]")
    yield "a string", body('"' + "x" * MEGABYTE + '"')
    yield "strings behind one another", body(" ".join(['"abc"'] * 2 * count))
    yield "a body of many expressions", body(",".join(["id"] * 3 * count))
    yield "a body of many calls", body(",".join(["f(X)"] * 2 * count))
    yield "a body of many variables", body(",".join(f"V{n} = X" for n in range(count)))
    yield "a pattern of many variables", module("f({" + ",".join(f"V{n}" for n in range(count)) + "}) -> V0.\n")
    yield "a variable that is bound many times", body(",".join(["V = X"] * count))
    yield "a function of many clauses", module(";\n".join(f"f({n}) -> {n}" for n in range(count // 2)) + ".\n")
    yield "a case of many clauses", body("case X of " + "; ".join(f"{n} -> {n}" for n in range(count // 2)) + " end")
    yield "clauses that bind one variable", body("case X of " + "; ".join(["{V} -> V"] * (count // 2)) + " end")
    yield "a guard of many tests", module("f(X) when " + ", ".join(["X > 1"] * count) + " -> X.\n")
    yield "a guard of many alternatives", module("f(X) when " + "; ".join(["X > 1"] * count) + " -> X.\n")
    yield "many functions of one name", module("".join(f"f({','.join(['_'] * n)}) -> a.\n" for n in range(1_000)))
    yield "many functions", module("".join(f"f{n}() -> a.\n" for n in range(count // 2)))
    yield "many functions that call the last", module("".join(f"f{n}() -> g().\n" for n in range(count // 2)) + "g() -> a.\n")
    yield "many exports of one function", module("-export([" + ",".join(["f/1"] * 2 * count) + "]).\nf(X) -> X.\n")
    yield "many remote calls, each of a module of its own", body(",".join(f"m{n}:f()" for n in range(count)))
    yield "a skipped attribute", module("-spec(" + ",".join(["a"] * 3 * count) + ").\n")
    yield "many skipped attributes", module("-spec a.\n" * count)
    yield "comments", module("% " + "x" * 70 + "\n") + "% another line\n" * (count // 2)
    yield "quoted atoms of escapes", body("[" + ",".join(["'\\x{61}\\x{62}'"] * count) + "]")


def deep():
    """What nests deeper than may be, or has no end."""
    for word in ("(", "[", "{", "begin ", "case ", "f(", "m:f(", "hd(", "[a|", "{a,", "- ", "not ", "case X of a -> "):
        yield f"{word!r} again and again", body(word * MANY)
    for opened, inner, closed in (("(", "a", ")"), ("[", "", "]"), ("{", "", "}"), ("begin ", "a", " end"), ("f(", "a", ")")):
        yield f"{opened + closed!r} in one another", body(opened * MANY + inner + closed * MANY)
    for word in ("1+", "1-", "1*", "a!", "a=", "X=", "a++", "1==", "true andalso ", "true orelse ", "- -", "[]++"):
        yield f"{word!r} again and again", body(word * MANY + "a")
    for word in ("[", "{", "(", "[_|", "X="):
        yield f"{word!r} in a head", module(f"f({word * MANY}")
        yield f"{word!r} in a clause", body(f"case X of {word * MANY}")
    for word in ("(", "not ", "1+", "hd(", "{"):
        yield f"{word!r} in a guard", module(f"f(X) when {word * MANY}")
    for word in ("-export(", "-vsn(", "-spec ", "-module(m). ", "f(", "f() -> ", "f() -> a; ", ". "):
        yield f"{word!r} again and again, as forms", module(word * MANY)
    yield "brackets in -vsn", module("-vsn(" + "[" * MANY + "]" * MANY + ").\n")
    yield "an atom", body("a" * MANY)
    yield "a quoted atom", body("'" + "a" * MANY + "'")
    yield "an integer", body("9" * MANY)
    yield "a variable that is not bound", body("Y" * MANY)
