"""A token goes round 64 nodes. Each takes it one time unit after the node before it."""
import sys

import simpy


def node(env, number, inbox, outbox):
    while True:
        event = yield inbox.get()
        print(f"{env.now} R{number} > M{number}.{event}\n{env.now} R{number} < M{number}.EO")
        yield env.timeout(1)
        yield outbox.put("EI1")


env = simpy.Environment()
inboxes = [simpy.Store(env) for _ in range(64)]
for at in range(64):
    env.process(node(env, at, inboxes[at], inboxes[(at + 1) % 64]))
print("0 R0 < S.COLD")
inboxes[0].put("EI2")
env.run(until=int(sys.argv[1]))
