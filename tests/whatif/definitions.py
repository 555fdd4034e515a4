"""Document 01 in plain Python: the line of a question, worked out from the definitions and by nothing else.

Independent of the library: a run over the whole changed plan, the ready set as the least set by its three rules, climbs move by move.
"""
import struct


class Plan:
    """A plan's tree: for each node its label, children, parent, depth, subtree size and jump."""

    def __init__(self, data):
        n, = struct.unpack_from('<I', data)
        self.labels, kinds = list(data[12:12 + n]), data[12 + n:]
        self.root, self.children, self.parent = n - 1, [None] * n, [n - 1] * n
        self.size, self.depth, self.jump = [1] * n, [0] * n, [n - 1] * n
        waiting = []
        for node in range(n):
            if kinds[node]:
                right, left = waiting.pop(), waiting.pop()
                self.children[node] = left, right
                self.parent[left] = self.parent[right] = node
                self.size[node] += self.size[left] + self.size[right]
            waiting.append(node)
        for node in range(n - 2, -1, -1):  # a parent comes after its children
            up = self.parent[node]
            first = self.jump[up]
            second = self.jump[first]
            self.depth[node] = self.depth[up] + 1
            even = self.depth[up] - self.depth[first] == self.depth[first] - self.depth[second]
            self.jump[node] = second if even else up

    def below(self, node, upper):
        """Whether the node is in the subtree that upper roots, upper included."""
        return upper - self.size[upper] < node <= upper

    def meet(self, a, b):
        """The lowest common ancestor."""
        while not self.below(a, b):
            b = self.parent[b]
        return b

    def climb(self, node, depth):
        """The moves of a climb to a depth, the jump if it does not lead above, else the parent; and the nodes passed over, by the parents."""
        links, passed, walked = 0, 0, node
        while self.depth[node] > depth:
            jump = self.jump[node]
            node = jump if self.depth[jump] >= depth else self.parent[node]
            links += 1
        while walked != node:
            walked = self.parent[walked]
            passed += 1
        return links, passed

    def ready(self, listed):
        """The least set that holds the listed nodes and the root, the meets of any two members, and both children of a member that has
        members below both."""
        members = set(listed) | {self.root}
        while True:
            more = {self.meet(a, b) for a in members for b in members}
            for node in members:
                if self.children[node] and all(any(self.below(m, c) for m in members) for c in self.children[node]):
                    more |= set(self.children[node])
            if more <= members:
                return members
            members |= more

    def part_climb(self, node, members):
        """The links and the nodes passed over of the part of a member: a climb where it has members below one child only, from the
        highest of them."""
        if not self.children[node]:
            return 0, 0
        sides = [[m for m in members if self.below(m, child)] for child in self.children[node]]
        if all(sides) or not any(sides):
            return 0, 0
        return self.climb(max(sides[0] or sides[1]), self.depth[node] + 1)


class Rules:
    """A rule table: states by leaf label and by left state, label and right state, and accept marks."""

    def __init__(self, data):
        self.states, self.labels = struct.unpack_from('<II', data)
        inner = 20 + self.labels
        marks = inner + self.states * self.labels * self.states
        self.leaf, self.inner, self.marks = data[20:inner], data[inner:marks], data[marks:]

    def run(self, plan, labels):
        """The state at the root."""
        state = [0] * len(labels)
        for node, label in enumerate(labels):
            if plan.children[node]:
                left, right = plan.children[node]
                state[node] = self.inner[(state[left] * self.labels + label) * self.states + state[right]]
            else:
                state[node] = self.leaf[label]
        return state[plan.root]


def refusal(plan, rules, changes):
    """The first of 12 to 14 that says no; 0 for none."""
    nodes = [node for node, label in changes]
    if len(changes) > 64:
        return 12
    if any(node > plan.root for node in nodes):
        return 13
    if any(label >= rules.labels for node, label in changes):
        return 14
    return 0


def line(plan, rules, changes):
    """The line of a question."""
    number = refusal(plan, rules, changes)
    if number:
        return b'refused %d\n' % number
    labels = list(plan.labels)
    for node, label in changes:
        labels[node] = label
    state = rules.run(plan, labels)
    members = plan.ready([node for node, label in changes if labels[node] != plan.labels[node]])
    links, passed = map(sum, zip(*(plan.part_climb(node, members) for node in members)))
    return b'%d %s %d %d %d\n' % (state, b'yes' if rules.marks[state] else b'no', len(members), links, passed)
