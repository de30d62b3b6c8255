"""Follows bodies for two units of time by the leapfrog method, and prints by how much the energy was off at most:
follow.py BODIES STEP"""
import json
import math
import sys

bodies = json.load(open(sys.argv[1]))
step = float(sys.argv[2])
masses = [body["mass"] for body in bodies]
places = [body["at"] for body in bodies]
speeds = [body["speed"] for body in bodies]
pairs = [(i, j) for i in range(len(bodies)) for j in range(i)]


def kick(time):
    for i, j in pairs:
        apart = [b - a for a, b in zip(places[i], places[j])]
        square = sum(d * d for d in apart)
        pull = time / (square * math.sqrt(square))
        for axis, d in enumerate(apart):
            speeds[i][axis] += masses[j] * pull * d
            speeds[j][axis] -= masses[i] * pull * d


def drift(time):
    for place, speed in zip(places, speeds):
        for axis in range(3):
            place[axis] += time * speed[axis]


def energy():
    moving = sum(m * sum(v * v for v in speed) / 2 for m, speed in zip(masses, speeds))
    return moving - sum(masses[i] * masses[j] / math.dist(places[i], places[j]) for i, j in pairs)


first = energy()
off = 0.0
for _ in range(round(2 / step)):
    kick(step / 2)
    drift(step)
    kick(step / 2)
    off = max(off, abs(energy() - first))
json.dump({"step": step, "off": off / abs(first)}, sys.stdout)
