"""A clock, a switch and a latch: each clock tick sets the latch, or resets it."""
import sys

import simpy


def clock(env, ticked):
    print("0 MAIN < S.COLD\n0 MAIN > C.START DT=1")
    while True:
        yield env.timeout(1)
        print(f"{env.now} MAIN < C.EO")
        yield ticked.put(True)


def switch(env, ticked, chosen, lamp):
    while True:
        yield ticked.get()
        print(f"{env.now} MAIN > W.EI G={str(lamp[0]).upper()}\n{env.now} MAIN < W.EO{int(lamp[0])}")
        yield chosen.put("R" if lamp[0] else "S")


def latch(env, chosen, lamp):
    while True:
        event = yield chosen.get()
        lamp[0] = event == "S"
        print(f"{env.now} MAIN > L.{event}\n{env.now} MAIN < L.EO Q={str(lamp[0]).upper()}")


env = simpy.Environment()
ticked, chosen, lamp = simpy.Store(env), simpy.Store(env), [False]
env.process(clock(env, ticked))
env.process(switch(env, ticked, chosen, lamp))
env.process(latch(env, chosen, lamp))
env.run(until=int(sys.argv[1]))
