#!/usr/bin/env python3
"""election.py <SCRIPT: what the program `election` answers to a script, from document 003, document 02's E8 and the README's grammar.

The recorded answers in tests/election are this program's. It shares no line with the crates: where the two differ, one of them
reads the documents wrongly.
"""
import sys
from typing import NamedTuple

from model import number

PEERS, REPLIES, OUTGOING, LARGEST = 6, 16, 32, 2**32 - 1
CONFIGURATION = 1


class Ballot(NamedTuple):
    config: int
    n: int
    priority: int
    pid: int

    def order(self):
        """Without the configuration, which counts in equality alone."""
        return self.n, self.priority, self.pid


DEFAULT = Ballot(0, 0, 0, 0)


class Refused(Exception):
    pass


class Node:
    def __init__(self, pid, peers, priority, recovered=DEFAULT):
        self.pid, self.peers, self.round = pid, peers, 0
        self.replies, self.outgoing, self.happy = [], [], True
        self.ballot = self.leader = Ballot(CONFIGURATION, 1, priority, pid)
        if recovered != DEFAULT:
            self.ballot, self.leader = self.ballot._replace(n=0), recovered
        self.new_round()

    def room(self, messages):
        if len(self.outgoing) + messages > OUTGOING:
            raise Refused(18)

    def new_round(self):
        self.room(len(self.peers))
        if self.round == LARGEST:
            raise Refused(19)
        self.replies, self.round = [], self.round + 1
        self.outgoing += [(self.pid, peer, self.round, None) for peer in self.peers]

    def handle(self, message):
        sender, _, turn, reply = message
        if reply is None:
            self.room(1)
            self.outgoing.append((self.pid, sender, turn, (self.ballot, self.leader, self.happy)))
        elif turn == self.round and reply[0].config == CONFIGURATION:
            if len(self.replies) == REPLIES:
                raise Refused(20)
            self.replies.append(reply)

    def quorum(self, nodes):
        return nodes > (len(self.peers) + 1) // 2

    def settled(self):
        """The leader and the happiness that the replies of the round make."""
        leader = max([self.leader, *(ballot for ballot, _, _ in self.replies)], key=Ballot.order)
        if leader != self.ballot:
            return leader, any(ballot == leader and happy for ballot, _, happy in self.replies)
        followers = [seen for _, seen, _ in self.replies if seen.order() <= self.ballot.order()]
        larger = any(seen.order() > self.ballot.order() and happy for _, seen, happy in self.replies)
        return leader, self.quorum(len(followers) + 1) or larger

    def timeout(self, promise):
        """Whether it leads."""
        leader, happy = self.settled()
        takeover = not happy and not any(happy for _, _, happy in self.replies) and self.quorum(len(self.replies) + 1)
        self.room(len(self.peers))
        if takeover and leader.n == LARGEST:
            raise Refused(19)
        self.new_round()
        self.leader, self.happy = leader, happy or takeover
        if takeover:
            self.ballot = self.leader = self.ballot._replace(n=leader.n + 1)
        if promise.order() > self.leader.order():
            self.leader, self.happy = promise, True
            if promise.pid == self.pid:
                self.ballot = promise
        return self.leader == self.ballot


class Cluster:
    def __init__(self, priorities):
        pids = range(1, len(priorities) + 1)
        self.nodes = {pid: Node(pid, [peer for peer in pids if peer != pid], priority) for pid, priority in zip(pids, priorities)}
        self.cut = set()

    def links(self, a, others):
        return {frozenset((a, b)) for b in others or self.nodes if b != a}

    def deliver(self, pids):
        """The messages of these nodes, in turn; those that wait at one when its turn comes."""
        counts = {"delivered": 0, "lost": 0, "refused": 0}
        for pid in pids:
            sent, self.nodes[pid].outgoing = self.nodes[pid].outgoing, []
            for message in sent:
                if frozenset(message[:2]) in self.cut:
                    counts["lost"] += 1
                    continue
                try:
                    self.nodes[message[1]].handle(message)
                    counts["delivered"] += 1
                except Refused:
                    counts["refused"] += 1
        return " ".join(f"{what} {times}" for what, times in counts.items())

    def timeout(self, pid, promise):
        node = self.nodes[pid]
        try:
            leads = node.timeout(promise)
        except Refused as refusal:
            return f"refused {refusal}"
        leader = f"leader {node.leader.pid} n {node.leader.n} priority {node.leader.priority}"
        own = f"own n {node.ballot.n} priority {node.ballot.priority}"
        return f"node {pid}: {leader}, {own}, {'happy' if node.happy else 'unhappy'}, {'leads' if leads else 'follows'}"

    def of_node(self, name, pid, numbers):
        """The answer to a line whose first number names a node, or None."""
        node = self.nodes[pid]
        if name in (b"cut", b"mend") and (not numbers or (len(numbers) == 1 and numbers[0] in self.nodes and numbers[0] != pid)):
            links = self.links(pid, numbers)
            self.cut = self.cut | links if name == b"cut" else self.cut - links
        elif name == b"deliver" and not numbers:
            return self.deliver([pid])
        elif name == b"timeout" and not numbers:
            return self.timeout(pid, DEFAULT)
        elif name == b"timeout" and len(numbers) == 3 and max(numbers[:2]) <= LARGEST:
            return self.timeout(pid, Ballot(CONFIGURATION, *numbers))
        elif name == b"priority" and len(numbers) == 1 and numbers[0] <= LARGEST:
            node.ballot = node.ballot._replace(priority=numbers[0])
        elif name == b"restart" and not numbers:
            self.nodes[pid] = Node(pid, node.peers, node.ballot.priority, node.leader)
        else:
            return None
        return "ok"


class Play:
    def __init__(self):
        self.cluster = Cluster([])

    def answer(self, line):
        if line == b"deliver":
            return self.cluster.deliver([*self.cluster.nodes] * 2)
        name, *words = line.split(b" ")
        numbers = [number(word) for word in words]
        if not numbers or None in numbers:
            return "bad line"
        if name == b"nodes" and len(numbers) <= PEERS + 1 and max(numbers) <= LARGEST:
            self.cluster = Cluster(numbers)
            return "ok"
        answer = self.cluster.of_node(name, numbers[0], numbers[1:]) if numbers[0] in self.cluster.nodes else None
        return answer or "bad line"


def played(script):
    lines = script.split(b"\n")
    if lines[-1] == b"":
        lines.pop()
    play = Play()
    return "".join(f"{play.answer(line)}\n" for line in lines).encode()


if __name__ == "__main__":
    sys.stdout.buffer.write(played(sys.stdin.buffer.read()))
