"""Random lines of all commands of the shell, broken ones among them, and what their answers have to be, as far as the manual
page, docs/COMMANDS.md, says it of any node."""
import re

LONGEST_LINE = 65_536
SOURCE = "lib/ctr_app-1/src/"

PID = r"<0\.\d+\.0>"
TERM_FAULT = r"\{(bad_char|unclosed|bad_escape|integer_range|unsupported|missing_dot|too_deep|atom_too_long|syntax),\d+\}"
VERSION_FAULT = r"\{no_such_release,.+\}"
INSTALL_FAULT = r"\{(already_installed|no_matching_relup|bad_script|old_processes),.+\}"
# What a line of a command may be answered by, but {error,bad_command}.
ANSWERS = {
    "load": r'\{module,.+\}|\{error,(\{file,.+\}|installing)\}',
    "delete": r"true|false|\{error,installing\}",
    "purge": r"true|false|\{error,installing\}",
    "soft_purge": r"true|false|\{error,installing\}",
    "modules": r"\[(\{[^,]+,(\d+|none),(\d+|none)\},?)*\]",
    "call": rf"\{{call,\d+\}}|\{{error,(no_proc|{TERM_FAULT})\}}",
    "cast": rf"ok|\{{error,(no_proc|{TERM_FAULT})\}}",
    "send": rf"ok|\{{error,(no_proc|{TERM_FAULT})\}}",
    "take": rf"\{{job,\d+,{PID}\}}|\{{error,(no_proc|suspended|running|idle)\}}",
    "retake": rf"\{{job,\d+,{PID}\}}|\{{error,(no_proc|not_running)\}}",
    "commit": r"\{committed,\[.*\]\}|\{error,(no_job|stale)\}",
    "replies": r"\[(\{(reply|down),0,\d+,.+\},?)*\]",
    "proc": rf"\{{proc,{PID},\{{(server|loop),.+\}},(idle|running|suspended),\d+,.+\}}|\{{error,no_proc\}}",
    "revive": rf"\{{revived,{PID}\}}|\{{error,(no_child|not_due|\{{start_failed,.+\}})\}}",
    "apps": r'\[(\{\w+,"\w+"\},?)*\]',
    "unpack": r'\{ok,".*"\}|\{error,\{(file,.+|exists,".*")\}\}',
    "remove": rf"ok|\{{error,(installing|{VERSION_FAULT}|\{{permanent,.+\}})\}}",
    "which": r'\[(\{".*",".*",\[.*\],(unpacked|current|permanent|old)\},?)+\]',
    "install": rf"\{{installing,.+,\d+\}}|\{{error,(installing|{VERSION_FAULT}|{INSTALL_FAULT})\}}",
    "step": rf"\{{(done|ok|recovered|restarted),.+\}}|\{{error,(not_installing|\{{busy,{PID}\}})\}}",
    "permanent": rf"ok|\{{error,(installing|{VERSION_FAULT}|\{{bad_status,.+\}})\}}",
    "reboot": rf"ok|\{{error,(installing|{VERSION_FAULT}|\{{bad_status,.+\}})\}}",
    "sweep": r"\{swept,\[.*\]\}",
    "mark": r"\{mark,\d+\}",
    "undo": r"\{undone,\d+,.+\}|\{error,(dead_mark|forgotten)\}",
    "forget": r"\{floor,\d+\}|\{error,(dead_mark|forgotten)\}",
    "relup": r'\{".+\}|\{error,.+\}',
}
ANSWERS = {command: re.compile(pattern) for command, pattern in ANSWERS.items()}
STEPS = {
    "load", "delete", "purge", "soft_purge", "call", "cast", "send", "take", "commit", "revive", "unpack", "remove", "install",
    "step", "permanent", "reboot", "sweep",
}

MODULES = ["ctr", "lp", "m", "ctr_app", "zz", "'m'", "M", "\u00e9", "a" * 255, "a" * 256]
NAMES = ["ctr"] * 8 + ["lp"] * 8 + ["nobody", "1", "two words", "\U0001f600"]
PROCESSES = ["ctr"] * 8 + ["lp"] * 8 + ["1", "2", "3", "007", "nobody", str(2**64 - 1), str(2**64)]
VERSIONS = ["A", "B", "C", "D", "E", "F", "Z", "Q", "B\u00e9", '"B"']
PATHS = [*(f"{SOURCE}{it}.erl" for it in ("ctr", "lp", "ctr_app")), "lib/ctr_app-2/src/ctr.erl", "a/m.erl", "a/n.erl", "x"]
CALLS = ["bump", "get", "bump", "get", "lower", "{", "'g'", "1.5", "[a|b]", "<<1>>", "get now", "get. now", '"a" "b"', "{set,1}"]
CASTS = ["{set,9}", "{set,[]}", '{set,"text"}', "{set,{a,[b]}}", f"{{set,{-2**63}}}", f"{{set,{2**63}}}", "{set,", "x"]
MESSAGES = ["{set,1}", "code_switch", "{set,[a]}", "{set,{}}", "code_switch", "x", "'", "{'$gen_call',me,get}"]
NUMBERS = ["0", "1", "00", str(2**64 - 1), str(2**64), "1x", "-1", "+1", "9" * 400]
# Words, and an end of a line, that are no words of a command.
BAD, TWO_TERMS = {"a" * 256, str(2**64), "1x", "-1", "+1", "9" * 400}, "get. now"


def near(chance, last):
    """The last number, or one of those before it, or one that is none."""
    return str(max(0, last - chance.randrange(4))) if chance.random() < 0.95 else chance.choice(NUMBERS)


# How often each line is drawn, and how it's made from chance and what the session has come to. Messages are taken and committed
# more often than they come, so mailboxes stay short.
DRAWN = [
    (90, lambda chance, session: f"call {chance.choice(NAMES)} {chance.choice(CALLS)}"),
    (60, lambda chance, session: f"cast {chance.choice(NAMES)} {chance.choice(CASTS)}"),
    (60, lambda chance, session: f"send lp {chance.choice(MESSAGES)}"),
    (240, lambda chance, session: f"take {chance.choice(PROCESSES)}"),
    (240, lambda chance, session: f"commit {near(chance, session.jobs + 1)}"),
    (20, lambda chance, session: f"retake {chance.choice(PROCESSES)}"),
    (10, lambda chance, session: f"load {chance.choice(MODULES)} {chance.choice(PATHS)}"),
    (6, lambda chance, session: f"load lp {SOURCE}lp.erl"),
    (6, lambda chance, session: f"load ctr {SOURCE}ctr.erl"),
    (4, lambda chance, session: f"delete {chance.choice(MODULES)}"),
    (8, lambda chance, session: f"purge {chance.choice(MODULES)}"),
    (8, lambda chance, session: f"soft_purge {chance.choice(MODULES)}"),
    (40, lambda chance, session: f"revive ctr_app {chance.choice(['ctr', 'lp', 'lp2', 'zz'])}"),
    (12, lambda chance, session: f"unpack {chance.choice(VERSIONS)}"),
    (12, lambda chance, session: f"remove {chance.choice(VERSIONS)}"),
    (20, lambda chance, session: f"install {chance.choice(VERSIONS)}"),
    (90, lambda chance, session: "step"),
    (20, lambda chance, session: "step give_up"),
    (6, lambda chance, session: f"permanent {chance.choice(VERSIONS)}"),
    (6, lambda chance, session: f"reboot {chance.choice(VERSIONS)}"),
    (10, lambda chance, session: "sweep"),
    (20, lambda chance, session: "mark"),
    (10, lambda chance, session: f"undo {near(chance, session.mark())}"),
    (2, lambda chance, session: f"forget {near(chance, session.mark())}"),
    (2, lambda chance, session: f"relup {chance.choice(VERSIONS)} {chance.choice(VERSIONS)}"),
    (20, lambda chance, session: f"proc {chance.choice(PROCESSES)}"),
    (10, lambda chance, session: "modules"),
    (5, lambda chance, session: "which"),
    (5, lambda chance, session: "apps"),
]
WEIGHTS, MAKERS = [it[0] for it in DRAWN], [it[1] for it in DRAWN]
# How a line is broken, by chance, its bytes and a place in it. No newline is put in.
BREAKS = [
    lambda chance, line, at: line[:at] + line[at + 1:],
    lambda chance, line, at: line[:at] + bytes([chance.choice([0, 9, 13, 32, 34, 39, 91, 123, 128, 195, 255])]) + line[at:],
    lambda chance, line, at: line[:at] + bytes([chance.choice([0, 32, 36, 37, 92, 93, 125, 240, 255])]) + line[at + 1:],
    lambda chance, line, at: line[:at],
    lambda chance, line, at: line[at:],
    lambda chance, line, at: line + b" " + line[at:],
    lambda chance, line, at: line[:at].upper() + line[at:],
    lambda chance, line, at: bytes(chance.choice(range(11, 256)) for _ in range(at)),
    lambda chance, line, at: b" " * at,
    lambda chance, line, at: line + b" " * 300 + line,
    lambda chance, line, at: b"%" + line,
]


def drawn(chance, session):
    """A random line, as bytes, and whether it may be a bad command: one in ten is broken, and one in a great many very long."""
    text = chance.choices(MAKERS, WEIGHTS)[0](chance, session)
    is_bad, line = not BAD.isdisjoint(text.split()) or text.endswith(TWO_TERMS), text.encode()
    if chance.random() < 0.1:
        is_bad, line = True, chance.choice(BREAKS)(chance, line, chance.randrange(len(line) + 1))
    if chance.random() < 0.000_05:
        length = chance.choice([LONGEST_LINE, LONGEST_LINE + 1, 200_000])
        is_bad, line = True, line + bytes([chance.choice([32, 57, 91, 120])]) * (length - len(line))
    return line, is_bad


def is_silent(line):
    """Whether a line has no answer."""
    return len(line) <= LONGEST_LINE and (not line.strip(b" ") or line.startswith(b"%"))


class Session:
    """What can be told of any session by its lines and answers: serials, marks, jobs and calls."""

    def __init__(self):
        self.last, self.floor, self.alive, self.jobs, self.calls, self.replies = 0, 0, [], 0, 0, 0

    def mark(self):
        return self.alive[-1] if self.alive else self.floor

    def follow(self, line, is_bad, answer):
        """Counts what a line did by its answer. Answers what is wrong with it, if anything is."""
        if len(line) > LONGEST_LINE:
            return None if answer == "{error,line_too_long}" else "the line is too long"
        command, *words = [it.decode(errors="replace") for it in line.split(b" ") if it]
        if answer == "{error,bad_command}":
            return None if is_bad else "it's a good command"
        if command not in ANSWERS or not ANSWERS[command].fullmatch(answer):
            return "no answer of this command"
        is_refused = answer.startswith("{error,") or (answer == "false" and command in ("delete", "soft_purge"))
        if command in STEPS and not is_refused:
            self.last += 1
            self.alive.append(self.last)
        if answer.startswith("{job,"):
            self.jobs += 1
            return None if answer.startswith(f"{{job,{self.jobs},") else f"it's job {self.jobs}"
        if command == "call" and (answer == "{error,no_proc}" or not is_refused):
            self.calls += 1
            return None if answer in ("{error,no_proc}", f"{{call,{self.calls}}}") else f"it's call {self.calls}"
        if command == "commit" and not is_refused:
            self.replies += answer.count("{reply,") + answer.count("{down,")
        if command in ("mark", "undo", "forget"):
            wanted = getattr(self, f"after_{command}")(*words)
            return None if re.fullmatch(wanted, answer) else f"it's {wanted}"
        return None

    def after_mark(self):
        return rf"\{{mark,{self.mark()}\}}"

    def stands(self, word):
        """Whether there is a station of this mark, else what is told."""
        mark = int(word)
        if mark < self.floor:
            return r"\{error,forgotten\}"
        return None if mark == self.floor or mark in self.alive[-5_000:] or mark in self.alive else r"\{error,dead_mark\}"

    def after_undo(self, word):
        told, count = self.stands(word), 0
        while not told and self.alive and self.alive[-1] > int(word):
            count += 1
            self.alive.pop()
        return told or rf"\{{undone,{count},.+\}}"

    def after_forget(self, word):
        told = self.stands(word)
        if not told:
            self.floor, self.alive = int(word), [it for it in self.alive if it > int(word)]
        return told or rf"\{{floor,{word}\}}"
