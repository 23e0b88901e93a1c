"""The operands and locals of one call (JVMS SE 8 2.6)."""

from program import Refused


class Frame:
    """A frame of a method of a class, and what it holds a monitor of, if it is synchronized."""

    def __init__(self, owner, method, arguments, caller, monitor):
        self.owner, self.method, self.caller, self.monitor = owner, method, caller, monitor
        self.stack, self.locals, self.place = [], dict(enumerate(arguments)), 0

    def take(self, kinds):
        """Takes an operand of each kind, the last from the top; None is either kind."""
        start = len(self.stack) - len(kinds)
        if start < 0:
            raise Refused("VerifyError", "missing operand")
        operands = self.stack[start:]
        if any(kind and not isinstance(each, kind) for each, kind in zip(operands, kinds)):
            raise Refused("VerifyError", "operand of the other kind")
        del self.stack[start:]
        return operands

    def check_room(self, count=1):
        if len(self.stack) + count > self.method.stack:
            raise Refused("VerifyError", "full stack")

    def give(self, *values):
        self.check_room(len(values))
        self.stack += values

    def check_local(self, number):
        if number >= self.method.locals:
            raise Refused("VerifyError", "no such local")

    def load(self, number, kind):
        self.check_local(number)
        if number not in self.locals:
            raise Refused("VerifyError", "local never set")
        if not isinstance(self.locals[number], kind):
            raise Refused("VerifyError", "local of the other kind")
        return self.locals[number]

    def store(self, number, value):
        self.check_local(number)
        self.locals[number] = value
