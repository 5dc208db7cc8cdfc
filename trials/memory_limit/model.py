"""A model of the node of release A of the example tree, by its manual page, docs/COMMANDS.md."""
import bisect
import collections
import re

LONGEST_LINE = 65_536
MEMORY = "{error,memory}"
BAD_COMMAND = "{error,bad_command}"

SOURCE = "lib/ctr_app-1/src/"
LOAD_CTR, LOAD_LP = f"load ctr {SOURCE}ctr.erl", f"load lp {SOURCE}lp.erl"
# The files that are loaded: the module that each is a source of.
FILES = {"a/m.erl": "m", f"{SOURCE}ctr.erl": "ctr", f"{SOURCE}lp.erl": "lp"}
FAULTY_FILES = {"releases/Z/z.rel": "{syntax,0}"}
# Terms that aren't read. All others that are sent here print as they stand.
FAULTY_TERMS = {
    "{": "{error,{syntax,1}}",
    "{set,": "{error,{syntax,5}}",
    "'set": "{error,{unclosed,0}}",
    "{set,9223372036854775808}": "{error,{integer_range,5}}",
    "% get": BAD_COMMAND,
    "get. now": BAD_COMMAND,
}
# How many words stand behind a command, and which of them are numbers below 2^64. TERM counts as a word.
SHAPES = {
    "load": (2, ""), "delete": (1, ""), "purge": (1, ""), "soft_purge": (1, ""), "modules": (0, ""), "call": (2, ""),
    "cast": (2, ""), "send": (2, ""), "take": (1, ""), "retake": (1, ""), "commit": (1, "0"), "replies": (0, ""),
    "proc": (1, ""), "revive": (2, ""), "apps": (0, ""), "mark": (0, ""), "undo": (1, "0"),
}
CHILDREN = {("ctr_app", "ctr"): 1, ("ctr_app", "lp"): 2}

Message = collections.namedtuple("Message", "kind term number")
Job = collections.namedtuple("Job", "pid turn place entry message code")
Step = collections.namedtuple("Step", "serial back replies arrivals")


def listed(texts):
    return f"[{','.join(texts)}]"


def text_of(message):
    """How a message prints."""
    if message.kind == "call":
        return f"{{'$gen_call',{{<0.0.0>,{message.number}}},{message.term}}}"
    return f"{{'$gen_cast',{message.term}}}" if message.kind == "cast" else message.term


class Process:
    """A process: ctr, a server with a number as its state, or lp, a loop with a term that rests in the code of a load serial."""

    def __init__(self, pid, name, place):
        self.pid, self.name, self.place = pid, name, place
        self.mailbox, self.calls, self.turn, self.job = collections.deque(), set(), 0, None

    def uses(self):
        """The load serials of the code that it uses."""
        if self.job:
            return self.job.code
        return () if self.name == "ctr" else (self.place[1],)

    def next_place(self):
        """Where the message stands in its mailbox that it takes next, if there is one."""
        for place, message in enumerate(self.mailbox):
            if self.name == "ctr" or is_taken_by_loop(message):
                return place
        return None

    def text(self):
        state, serial = self.place
        place = f"{{server,ctr,{state}}}" if self.name == "ctr" else f"{{loop,lp,loop,[{state}],{serial}}}"
        mailbox = listed(text_of(it) for it in self.mailbox)
        return f"{{proc,<0.{self.pid}.0>,{place},{'running' if self.job else 'idle'},{self.turn},{mailbox}}}"


def is_taken_by_loop(message):
    if message.kind == "info":
        return message.term == "code_switch" or message.term.startswith("{set,")
    return message.kind == "call" and message.term == "get"


def outcome(job, name):
    """What a job comes to: the term of its reply or nothing, and its new place, or the reason of its end."""
    (state, serial), (kind, term, _) = job.place, job.message
    value = term[5:-1] if term.startswith("{set,") else None
    if name == "lp":
        if term != "code_switch":
            return (state if term == "get" else None), (value or state, serial), None
        return (None, (state, job.code[-1]), None) if len(job.code) > 1 else (None, None, "undef")
    if not job.entry:
        return None, None, "undef"
    if kind == "info" or (kind == "cast" and value):
        return None, (value if kind == "cast" else state, None), None
    if kind == "call" and term in ("bump", "get"):
        number = str(int(state) + (term == "bump"))
        return number, (number, None), None
    return None, None, "function_clause"


class Model:
    """The node of release A, its journal, and what the shell holds beside it, by docs/COMMANDS.md and docs/RULES.md.

    What isn't a part of a process is never changed, but replaced: so a step that is taken back puts back what stood before.
    """

    PARTS = ("table", "children", "alive", "next_load", "next_pid")

    def __init__(self):
        self.table = (("ctr_app", 1, None), ("ctr", 2, None), ("lp", 3, None))
        self.children, self.next_load, self.next_pid = CHILDREN, 4, 3
        self.alive = {1: Process(1, "ctr", ("4", None)), 2: Process(2, "lp", ("0", 3))}
        self.steps, self.last, self.jobs, self.sent = [], 0, [], []
        # How many calls were tried.
        self.calls = 0

    def follow(self, line, answer):
        """Does what the line does by its answer. Answers what it should have been, where it is another one."""
        before = len(self.steps), self.last, len(self.jobs), len(self.sent), self.calls
        wanted, others = self.obey(line, answer)
        if answer == wanted:
            return None
        if answer not in others:
            return " or ".join([wanted, *others])
        while len(self.steps) > before[0]:
            self.steps.pop().back()
        _, self.last, jobs, replies, self.calls = before
        del self.jobs[jobs:]
        del self.sent[replies:]
        return None

    def obey(self, line, answer):
        """Does what the line says where there is memory: its answer then, and the answers where memory is refused."""
        if len(line.encode()) > LONGEST_LINE:
            return "{error,line_too_long}", []
        command, *words = line.split()
        count, numbers = SHAPES.get(command, (-1, ""))
        if command in ("call", "cast", "send") and len(words) > 1:
            words = [words[0], line.split(maxsplit=2)[2]]
        if len(words) != count or any(len(it) > 255 for it in words[:1]):
            return BAD_COMMAND, []
        if any(not re.fullmatch("[0-9]+", words[int(k)]) or int(words[int(k)]) >= 2**64 for k in numbers):
            return BAD_COMMAND, []
        if command in ("call", "cast", "send"):
            return self.arrive("info" if command == "send" else command, *words)
        if command == "undo":
            return self.undo(int(words[0]), answer)
        return getattr(self, command)(*words)

    def step(self, answer, back, replies=(), arrivals=()):
        """An event was accepted."""
        self.last += 1
        self.steps.append(Step(self.last, back, replies, arrivals))
        self.sent.extend(replies)
        return answer, [MEMORY]

    def putting_back(self):
        """What puts the parts of the node back that stand now."""
        parts = [(name, getattr(self, name)) for name in self.PARTS]

        def back():
            for name, value in parts:
                setattr(self, name, value)
        return back

    # Code

    def code_of(self, module):
        """The current and the old code of a module."""
        return next((row[1:] for row in self.table if row[0] == module), (None, None))

    def set_code(self, module, current, old):
        """A module gets this code. One that is left without leaves the table, and one that is new goes last."""
        row = (module, current, old)
        if all(it[0] != module for it in self.table):
            self.table += (row,)
        self.table = tuple(row if it[0] == module else it for it in self.table)
        self.table = tuple(it for it in self.table if it[1] or it[2])

    def purged(self, module):
        """The old code of a module is gone, and who used it. Answers what clients are told, and how many were killed."""
        current, old = self.code_of(module)
        users = [it for _, it in sorted(self.alive.items()) if old and old in it.uses()]
        told = [reply for it in users for reply in self.end(it, "killed")]
        if old:
            self.set_code(module, current, None)
        return told, len(users)

    def load(self, module, path):
        shown = f'{{error,{{file,"{path}",'
        if path in FAULTY_FILES:
            return f"{shown}{FAULTY_FILES[path]}}}}}", [MEMORY]
        if path not in FILES:
            return f"{shown}missing}}}}", []
        if FILES[path] != module:
            return f"{shown}wrong_module}}}}", [MEMORY]
        back = self.putting_back()
        told, _ = self.purged(module)
        self.set_code(module, self.next_load, self.code_of(module)[0])
        self.next_load += 1
        return self.step(f"{{module,{module}}}", back, told)

    def delete(self, module):
        current, old = self.code_of(module)
        if not current or old:
            return "false", []
        back = self.putting_back()
        self.set_code(module, None, current)
        return self.step("true", back)

    def purge(self, module):
        back = self.putting_back()
        told, count = self.purged(module)
        return self.step("true" if count else "false", back, told)

    def soft_purge(self, module):
        old = self.code_of(module)[1]
        if old and any(old in it.uses() for it in self.alive.values()):
            return "false", []
        back = self.putting_back()
        self.purged(module)
        return self.step("true", back)

    # Processes

    def named(self, word):
        """The process of a pid or a name."""
        if word.isdigit():
            return self.alive.get(int(word))
        return next((it for it in self.alive.values() if it.name == word), None)

    def end(self, process, reason):
        """A process ends, and its child is due. Answers what the clients of its open calls are told."""
        self.alive = {pid: it for pid, it in self.alive.items() if it is not process}
        self.children = {child: "due" if pid == process.pid else pid for child, pid in self.children.items()}
        return [f"{{down,0,{number},{reason}}}" for number in sorted(process.calls)]

    def arrive(self, kind, name, term):
        process = self.named(name) if not name.isdigit() else None
        if term in FAULTY_TERMS:
            return FAULTY_TERMS[term], [MEMORY]
        self.calls += kind == "call"
        if not process:
            return "{error,no_proc}", [MEMORY]
        message = Message(kind, term, self.calls if kind == "call" else None)
        process.mailbox.append(message)
        if kind == "call":
            process.calls.add(message.number)

        def back():
            process.mailbox.pop()
            process.calls.discard(message.number)
        told = f"{{call,{message.number}}}" if kind == "call" else "ok"
        return self.step(told, back, (), [f"{{{name},{text_of(message)}}}"])

    def take(self, word):
        process = self.named(word)
        if not process:
            return "{error,no_proc}", []
        place = process.next_place()
        if process.job or place is None:
            return f"{{error,{'running' if process.job else 'idle'}}}", []
        message = process.mailbox[place]
        del process.mailbox[place]
        current = self.code_of(process.name)[0]
        entry = process.place[1] or current
        # A loop can go on in the current code. It's listed behind the code in which the loop rests, also where they are the same.
        code = tuple(it for it in ((entry,) if process.name == "ctr" else (entry, current)) if it)
        process.job = Job(process.pid, process.turn, process.place, entry, message, code)

        def back():
            process.job = None
            process.mailbox.insert(place, message)
        return self.step(self.kept(process), back)

    def kept(self, process):
        """Keeps the job that a process runs."""
        self.jobs.append((process.job, process.name))
        return f"{{job,{len(self.jobs)},<0.{process.pid}.0>}}"

    def retake(self, word):
        process = self.named(word)
        if not process or not process.job:
            return f"{{error,{'not_running' if process else 'no_proc'}}}", []
        return self.kept(process), [MEMORY]

    def commit(self, word):
        number = int(word)
        if not 1 <= number <= len(self.jobs):
            return "{error,no_job}", []
        job, name = self.jobs[number - 1]
        process = self.alive.get(job.pid)
        if not process or process.job != job:
            return "{error,stale}", []
        back = self.putting_back()
        reply, place, reason = outcome(job, name)
        told, answered = [], None
        if reply is not None and job.message.number in process.calls:
            answered = job.message.number
            process.calls.remove(answered)
            told.append(f"{{reply,0,{answered},{reply}}}")
        if reason:
            told += self.end(process, reason)
        else:
            process.place, process.turn, process.job = place, process.turn + 1, None
        return self.step(f"{{committed,{listed(told)}}}", lambda: self.uncommit(process, job, answered, back), told)

    def uncommit(self, process, job, answered, back):
        back()
        process.place, process.turn, process.job = job.place, job.turn, job
        if answered is not None:
            process.calls.add(answered)

    def revive(self, app, child):
        if (app, child) not in self.children:
            return "{error,no_child}", []
        if self.children[app, child] != "due":
            return "{error,not_due}", []
        current, pid = self.code_of(child)[0], self.next_pid
        if not current:
            return f"{{error,{{start_failed,{child},undef}}}}", [MEMORY]
        back = self.putting_back()
        started = Process(pid, child, ("4", None) if child == "ctr" else ("0", current))
        self.alive, self.next_pid = {**self.alive, pid: started}, pid + 1
        self.children = {**self.children, (app, child): pid}
        return self.step(f"{{revived,<0.{pid}.0>}}", back)

    # Questions and undos

    def apps(self):
        return '[{kernel,"1"},{ctr_app,"1"}]', []

    def mark(self):
        return f"{{mark,{self.steps[-1].serial if self.steps else 0}}}", []

    def proc(self, word):
        process = self.named(word)
        return process.text() if process else "{error,no_proc}", []

    def replies(self):
        return listed(self.sent), []

    def modules(self):
        return listed(f"{{{name},{current or 'none'},{old or 'none'}}}" for name, current, old in self.table), []

    def is_alive(self, mark):
        place = bisect.bisect_left(self.steps, mark, key=lambda step: step.serial)
        return mark == 0 or (place < len(self.steps) and self.steps[place].serial == mark)

    def undo(self, mark, answer):
        if not self.is_alive(mark):
            return "{error,dead_mark}", []
        told = re.match(r"\{error,\{memory,(\d+),(\d+),", answer)
        if not told:
            return f"{{undone,{self.cut(mark)}}}", []
        reached = int(told[1])
        # It stands at the undo's own mark only where nothing was cut.
        is_right = reached >= mark and self.is_alive(reached) and (reached > mark or told[2] == "0")
        return f"{{error,{{memory,{reached},{self.cut(reached)}}}}}" if is_right else "a mark where it may stand", []

    def cut(self, mark):
        """Takes back the steps after a mark. Answers the report."""
        gone = []
        while self.steps and self.steps[-1].serial > mark:
            gone.append(self.steps.pop())
            gone[-1].back()
        replies = listed(it for step in reversed(gone) for it in step.replies)
        return f"{len(gone)},{replies},{listed(it for step in reversed(gone) for it in step.arrivals)}"

    def report_size(self):
        """How long the answer is at most that tells all steps as undone."""
        return 60 + sum(len(it) + 1 for step in self.steps for it in (*step.replies, *step.arrivals))

    def probe(self):
        """The model says of each line what stands against it."""

    def end_probing(self):
        """See probe."""

    def close(self):
        """Nothing is open."""
