"""The program itself without a limit of memory: what a session answers is compared with it, where no model says it."""
import collections
import re
import subprocess

from model import MEMORY

STEPS = "load delete purge soft_purge call cast send take commit revive unpack remove install step permanent reboot sweep".split()
# What may refuse a line and needs memory to be found: faults of a release and of what is read, and of what is evaluated. A line that
# reads a term, a source or a release asks for its refusals after that.
READING = {"call", "cast", "send", "load", "unpack"}
NEEDS_MEMORY = re.compile(r'\{error,\{(file,"(releases/|[^"]*",(?!missing))|start_failed,|syntax,).*')

Step = collections.namedtuple("Step", "serial size")


class Program:
    """The program, asked line by line."""

    def __init__(self, words, lines=()):
        self.program = subprocess.Popen(words, stdin=subprocess.PIPE, stdout=subprocess.PIPE)
        self.asked = []
        for line in lines:
            self.ask(line)

    def ask(self, line):
        self.asked.append(line)
        self.program.stdin.write(f"{line}\n".encode())
        self.program.stdin.flush()
        return self.program.stdout.readline().decode()[:-1]

    def close(self):
        self.program.kill()
        self.program.wait()
        self.program.stdin.close()
        self.program.stdout.close()


def is_refusal(line, answer):
    """Whether a line is refused. That a purge has killed nobody is none."""
    return answer.startswith("{error,") or (answer == "false" and not line.startswith("purge "))


class Twin:
    """What was accepted is told to the program without a limit, and so it has to be answered.

    A line that found no memory isn't told to it. At the limit a second program, which was told the same, says whether something
    stands against such a line: that has to be told then. What it accepts there it takes back.
    """

    def __init__(self, words):
        self.words, self.program, self.prober = words, Program(words), None
        self.steps, self.last, self.jobs = [], 0, []

    def probe(self):
        """From now on it's seen that want of memory hides no refusal."""
        self.prober = Program(self.words, self.program.asked)

    def end_probing(self):
        """See probe."""
        if self.prober:
            self.prober.close()
        self.prober = None

    def follow(self, line, answer):
        """Does what the line does by its answer. Answers what it should have been, where it is another one."""
        if answer == MEMORY:
            return self.hidden_refusal(line)
        stopped = re.fullmatch(r"\{error,\{memory,(\d+),(.*)\}\}", answer)
        if stopped:
            return self.follow_stopped(line, int(stopped[1]), stopped[2])
        wanted = self.program.ask(line)
        if wanted != answer:
            return wanted
        if self.prober:
            self.prober.ask(line)
        self.count(line, answer)
        return None

    def hidden_refusal(self, line):
        """What stands against a line that found no memory, and can be told without."""
        if line.split()[0] in READING:
            return None
        if line == "mark" or not self.prober:
            return "a mark" if line == "mark" else None
        mark = self.prober.ask("mark")[len("{mark,"):-1]
        told = self.prober.ask(line)
        self.prober.ask(f"undo {mark}")
        return told if is_refusal(line, told) and not NEEDS_MEMORY.fullmatch(told) else None

    def follow_stopped(self, line, reached, report):
        """An undo has stopped at a mark. It stands at the undo's own only where nothing was cut."""
        mark = int(line.split()[1])
        is_alive = reached == 0 or any(step.serial == reached for step in self.steps)
        if not is_alive or reached < mark or (reached == mark and report != "0,[],[]"):
            return "a mark where it may stand"
        told = self.program.ask(f"undo {reached}")
        self.count(f"undo {reached}", told)
        return None if told == f"{{undone,{report}}}" else told

    def count(self, line, answer):
        """Counts steps and jobs by what was answered."""
        command, *words = line.split()[:2] or [""]
        if command == "undo" and answer.startswith("{undone,"):
            while self.steps and self.steps[-1].serial > int(words[0]):
                self.steps.pop()
        elif command in STEPS and not is_refusal(line, answer):
            self.last += 1
            # A call is told as an arrival, and may be told as a reply.
            self.steps.append(Step(self.last, 2 * len(line) + len(answer) + 128))
        if answer.startswith("{job,"):
            self.jobs.append(answer)

    def obey(self, line, _answer):
        """How a question is answered."""
        return self.program.ask(line), []

    def report_size(self):
        """How long the answer is at most that tells all steps as undone."""
        return 60 + sum(step.size for step in self.steps)

    def close(self):
        self.program.close()
        self.end_probing()
