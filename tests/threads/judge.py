"""Judges a trace: is it a legal interleaving of a program and its main classes, whatever the bodies of its methods are? It runs
no code. docs/INITIALIZATION.md and docs/TRACES.md say what is asked (JLS SE 8 12.4.2, JVMS SE 8 5.5).

Each thread has a list of open procedures, the innermost last. A procedure looks at its class; behind step 6 it does what the
class needs; behind step 9 it is in the body; a thread's last one, without a class, is the body of `main`."""
import re

from classes import MACHINE_ERRORS, NO_CLASS, NO_MEMORY, RANGES, is_error, needs_of

LINE = re.compile(r"(0|[1-9][0-9]*) t(0|[1-9][0-9]*) (?:(step(?:2|3|4|5|6|9|10)) ([^ ]+)|(step(?:7|12)) ([^ ]+) ([^ ]+)"
                  r"|(get|put) ([^ ]+) ([^ ]+) ([^ ]+)|print (\".*\"))", re.DOTALL)
TEXT = re.compile(r'"(?:[^"\\\x00-\x1f\x7f]|\\["\\ntr]|\\u00(?:0[0-8bcef]|1[0-9a-f]|7f))*"')
NUMBER = re.compile(r"0|-?[1-9][0-9]*")
REFERENCE = re.compile(r"null|#(?:0|[1-9][0-9]*)")
LOOKS = {"step2", "step3", "step4", "step5", "step6"}


class Fault(Exception):
    """What is wrong with a line."""


class Open:
    """An open procedure: what it is doing, and with which class."""
    def __init__(self, name, doing, needs=()):
        self.name, self.doing, self.needs = name, doing, list(needs)
        # The class at which a step 2 was made, whose next look is to come.
        self.waits_for = None
        # The throwable by which step 7 or step 12 must end it next, and whether the machine ended it.
        self.throwable, self.by_machine = None, False
        # The class whose procedure was completed normally just now, within a body.
        self.usable = None


class Judge:
    """What stands after the lines that were read."""
    def __init__(self, program, mains, may_end):
        self.program, self.may_end = program, may_end
        self.needs = {name: needs_of(program, name) for name in program}
        # By class: the thread by which it is in progress, "initialized" or "erroneous"; prepared is absent.
        self.labels = {}
        # By class and field: what was written last. By quoted text: its reference.
        self.values, self.texts = {}, {}
        # A thread first needs its main class.
        self.threads = [[Open(None, "needs", [main])] for main in mains]

    def label(self, thread, step, name):
        """The label of the class lets the thread make this step."""
        label = self.labels.get(name)
        if label is None:
            right = step == "step6"
        elif label == "initialized":
            right = step == "step4"
        elif label == "erroneous":
            right = step == "step5"
        elif label == thread:
            right = step in ("step3", "step7", "step9", "step10", "step12")
        else:
            right = step == "step2"
        if not right:
            said = "prepared" if label is None else label if isinstance(label, str) else f"in progress by t{label}"
            raise Fault(f"{name} is {said}")

    def look(self, thread, step, name):
        """Steps 2 to 6: a request begins, or looks again."""
        top = self.threads[thread][-1]
        if top.throwable is not None or top.by_machine:
            raise Fault("the procedure ends by its throwable here")
        if top.doing == "needs":
            if not top.needs:
                raise Fault("nothing more is needed here")
            if name != top.needs[0]:
                raise Fault(f"{top.needs[0]} comes next")
        else:
            if top.doing != "body":
                raise Fault("step 9 comes first")
        if top.waits_for not in (None, name):
            raise Fault(f"the thread waits for {top.waits_for}")
        if step == "step2" and top.waits_for is not None:
            raise Fault("the wait has its step 2 already")
        self.label(thread, step, name)
        top.usable = None
        if step == "step2":
            top.waits_for = name
            return
        top.waits_for = None
        if step == "step6":
            self.labels[name] = thread
            self.threads[thread].append(Open(name, "needs", self.needs[name]))
        elif step == "step5":
            self.completed(thread, name, NO_CLASS, False)
        else:
            self.completed(thread, name, None, False)

    def completed(self, thread, name, throwable, by_machine):
        """The procedure for a class is over, normally where there is no throwable; the innermost open one goes on."""
        top = self.threads[thread][-1]
        if top.doing == "body":
            # A body may handle what was thrown, but not an ending by the machine.
            if by_machine:
                top.throwable, top.by_machine = throwable, True
            elif throwable is None:
                top.usable = name
        elif throwable is not None:
            top.throwable, top.by_machine = throwable, by_machine
            if top.name is None:
                top.doing = "over"
        else:
            top.needs.pop(0)
            if top.name is None:
                top.doing = "body"

    def innermost(self, thread, step, name):
        """The innermost open procedure, which is for this class."""
        top = self.threads[thread][-1]
        if top.name != name:
            raise Fault(f"{top.name or 'main'} is innermost")
        self.label(thread, step, name)
        return top

    def ends_by_machine(self, thread):
        if thread not in self.may_end:
            raise Fault("the machine didn't end this thread")

    def step_7(self, thread, name, throwable):
        """What the class needs failed, was ended by the machine, or memory is wanting."""
        top = self.innermost(thread, "step7", name)
        if top.doing != "needs":
            raise Fault("step 9 was made")
        by_machine = top.by_machine
        if top.throwable is not None:
            if throwable != top.throwable:
                raise Fault(f"{top.throwable} was thrown")
        else:
            may_give_up = MACHINE_ERRORS if top.needs else {NO_MEMORY}
            if throwable not in may_give_up:
                raise Fault("nothing that it needs failed")
            self.ends_by_machine(thread)
            by_machine = True
        self.close(thread, name, "erroneous", throwable, by_machine)

    def step_9(self, thread, name):
        top = self.innermost(thread, "step9", name)
        if top.doing != "needs":
            raise Fault("step 9 was made already")
        if top.throwable is not None:
            raise Fault("what it needs failed")
        if top.needs:
            raise Fault(f"{top.needs[0]} comes next")
        top.doing = "body"

    def step_10(self, thread, name):
        top = self.innermost(thread, "step10", name)
        if top.doing != "body":
            raise Fault("step 9 comes first")
        if top.waits_for is not None:
            raise Fault(f"the thread waits for {top.waits_for}")
        if top.by_machine:
            raise Fault("the machine ended the body")
        self.close(thread, name, "initialized", None, False)

    def step_12(self, thread, name, throwable):
        """The initializer was left by a throwable, which step 11 made an Error, or ended by the machine."""
        top = self.innermost(thread, "step12", name)
        if top.doing != "body":
            raise Fault("step 9 comes first")
        by_machine = top.by_machine
        if by_machine:
            if throwable != top.throwable:
                raise Fault(f"the machine ended the body by {top.throwable}")
        elif top.waits_for is not None:
            if throwable not in MACHINE_ERRORS:
                raise Fault(f"the thread waits for {top.waits_for}")
            self.ends_by_machine(thread)
            by_machine = True
        else:
            if not is_error(self.program, throwable):
                raise Fault("the throwable is no Error")
        self.close(thread, name, "erroneous", throwable, by_machine)

    def close(self, thread, name, label, throwable, by_machine):
        self.labels[name] = label
        self.threads[thread].pop()
        self.completed(thread, name, throwable, by_machine)

    def body(self, thread):
        """The body that the thread is in, for what stands in one."""
        top = self.threads[thread][-1]
        if top.doing != "body":
            raise Fault("the thread is in no body")
        if top.waits_for is not None:
            raise Fault(f"the thread waits for {top.waits_for}")
        if top.by_machine:
            raise Fault("the machine ended the body")
        return top

    def use(self, thread, word, name, field, value):
        """A read or a write of a static field."""
        top = self.body(thread)
        if top.usable != name:
            raise Fault(f"no procedure for {name} was completed directly before it")
        top.usable = None
        fields = self.program[name].fields
        if field not in fields:
            raise Fault("the class declares no such static field")
        if self.labels.get(name) not in ("initialized", thread):
            raise Fault(f"{name} isn't initialized")
        descriptor = field.rpartition(":")[2]
        if descriptor in RANGES:
            if not NUMBER.fullmatch(value):
                raise Fault("no int")
            least, most = RANGES[descriptor]
            if not least <= int(value) <= most:
                raise Fault("the field's type has no such value")
        else:
            if not REFERENCE.fullmatch(value):
                raise Fault("no reference")
        place = (name, field)
        if word == "put":
            self.values[place] = value
            return
        holds = self.values.get(place)
        if holds is None:
            constant = fields[field]
            if isinstance(constant, str):
                # Equal texts have one object (JVMS SE 8 5.1), whose number a first read tells.
                if value == "null":
                    raise Fault("the field has a text")
                holds = self.texts.setdefault(constant, value)
            else:
                holds = str(constant or 0) if descriptor in RANGES else "null"
        if value != holds:
            raise Fault(f"the field holds {holds}")

    def line(self, number, line):
        """Reads one line."""
        found = LINE.fullmatch(line)
        if not found:
            raise Fault("no line of a trace")
        at, thread, step, name, ending, ended, throwable, use, used, field, value, text = found.groups()
        if at != str(number):
            raise Fault(f"line {number} comes here")
        thread = int(thread)
        if thread >= len(self.threads):
            raise Fault("no such thread")
        named = name or ended or used
        if named is not None and named not in self.program:
            raise Fault("no class of the files")
        if step in LOOKS:
            self.look(thread, step, name)
        elif step == "step9":
            self.step_9(thread, name)
        elif step == "step10":
            self.step_10(thread, name)
        elif ending == "step7":
            self.step_7(thread, ended, throwable)
        elif ending:
            self.step_12(thread, ended, throwable)
        elif use:
            self.use(thread, use, used, field, value)
        else:
            if not TEXT.fullmatch(text):
                raise Fault("the text isn't written canonically")
            self.body(thread).usable = None

    def end(self, thread):
        """The thread does nothing more."""
        first, *rest = self.threads[thread]
        if rest:
            raise Fault(f"{rest[-1].name if rest else ''} is open")
        if first.doing == "needs" or first.waits_for is not None:
            if thread not in self.may_end:
                raise Fault(f"the procedure for {first.waits_for or first.needs[0]} is open")


def fault_in(program, mains, trace, may_end=None):
    """The first line of a trace that is at fault and why, or None. The program is classes.program_of the files' texts. may_end
    has the threads that the machine may have ended at a limit or for want of memory; each, if not said."""
    judge = Judge(program, mains, range(len(mains)) if may_end is None else may_end)
    lines = trace.split("\n")
    if lines[-1]:
        return f"line {len(lines) - 1}: no line feed ends it: {lines[-1]}"
    for number, line in enumerate(lines[:-1]):
        try:
            judge.line(number, line)
        except Fault as why:
            return f"line {number}: {why}: {line}"
    for thread in range(len(mains)):
        try:
            judge.end(thread)
        except Fault as why:
            return f"line {len(lines) - 1}, the end: t{thread} hasn't ended: {why}"
    return None
