"""The braid of a graph (docs/POLICY.md, "A command's place"), from commands by their numbers."""
import heapq


class Graph:
    """Commands by their numbers, each after its parents, with the set of ancestors of each as the bits of a number."""

    def __init__(self):
        self.commands, self.parents, self.ancestors = [], [], []

    def add(self, command, parents):
        self.commands.append(command)
        self.parents.append(parents)
        bits = 0
        for it in parents:
            bits |= self.ancestors[it] | 1 << it
        self.ancestors.append(bits)

    def is_ancestor(self, one, other):
        return bool(self.ancestors[other] >> one & 1)

    def rank(self, number):
        """The lower of two commands has the smaller rank."""
        command = self.commands[number]
        return command.kind == "finalize", command.priority, -int(command.id, 16)

    def braid(self, held):
        """The braid of the commands held, which hold their parents: from its end, the lowest of those that are no ancestor of one left."""
        children = dict.fromkeys(held, 0)
        for it in held:
            for parent in self.parents[it]:
                children[parent] += 1
        tops = []
        free = [it for it in held if children[it] == 0]
        backwards = []
        while free or tops:
            for it in free:
                heapq.heappush(tops, (self.commands[it].kind != "merge", self.rank(it), it))
            _, _, last = heapq.heappop(tops)
            if self.commands[last].kind != "merge":
                backwards.append(last)
            free = []
            for parent in self.parents[last]:
                children[parent] -= 1
                if children[parent] == 0:
                    free.append(parent)
        return backwards[::-1]

    def why_before(self, one, other, braid):
        """Why `one` stands before `other` in the braid, in words. `one` is no ancestor of `other`."""
        before = braid[: braid.index(other)]
        top = next(it for it in reversed(before) if it == one or self.is_ancestor(one, it))
        upper, lower = self.commands[top], self.commands[other]
        if upper.kind == "finalize" and lower.kind != "finalize":
            rule = "a finalize command goes before each one beside it"
        elif upper.priority > lower.priority:
            rule = f"priority {upper.priority} goes before priority {lower.priority}"
        else:
            rule = "of equal priorities the smaller id goes first"
        return rule, None if top == one else top


def common(before, now):
    """How long the longest common front of two lists is: the cut."""
    cut = 0
    for one, other in zip(before, now):
        if one != other:
            break
        cut += 1
    return cut
