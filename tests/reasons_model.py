"""Who stands in the way, told from the plain machine: written from the words of document 02's orders 1 and 2, over sets of running and draining owners.

A blocker owns the instrument in a conflicting mode and is neither asker nor ancestor; one that drains is told by the word `draining` behind its mode.
Answer 10 names the number that was to be quiet. Answers 0, 7 and 8 name nobody.
"""

import plain_model

WRITE = 4
OPEN_SUB = 2


class Explaining(plain_model.Plain):
    def running_children(self, a):
        return {k for k in self.running if self.ancestors[k][:1] == [a]}

    def blockers(self, code, a, i):
        owners = self.readers[i] | self.writers[i] if code == WRITE else self.writers[i]
        return {h for h in owners if h != a and h not in self.ancestors[a]}

    def offending(self, answer, code, numbers):
        """For 1 to 4 and for 10 the offending number, of two the first in the frame."""
        if answer == 1:
            actions = numbers if code == OPEN_SUB else numbers[:1]
            return next(k for k in actions if k >= plain_model.NUMBERS)
        if answer == 2:
            return numbers[1]
        if answer in (3, 10):
            return numbers[0]
        return numbers[1] if code == OPEN_SUB else numbers[0]

    def ownership(self, owner, i):
        """How an owner owns instrument i, in words."""
        reads, writes = owner in self.readers[i], owner in self.writers[i]
        mode = "both" if reads and writes else "reading" if reads else "writing"
        return mode + " draining" if owner in self.draining else mode

    def explain(self, text):
        """What is written for one line: a refused request leaves the machine as it was, so that it can be asked afterwards."""
        answer = self.line(text)
        if answer in (0, 7, 8):
            return "%02x" % answer
        code, *numbers = (int(text[k:k + 2], 16) for k in range(0, len(text), 2))
        if answer == 6:
            a, i = numbers
            named = min(self.blockers(code, a, i))
            return "06 %02x %s" % (named, self.ownership(named, i))
        named = min(self.running_children(numbers[0])) if answer == 5 else self.offending(answer, code, numbers)
        return "%02x %02x" % (answer, named)


def explain(trace):
    """What is written for a trace."""
    machine = Explaining()
    return "".join(machine.explain(line) + "\n" for line in plain_model.lines_of(trace))
