"""Prints five bodies (mass, place, speed) on circles round a heavy one: bodies.py SEED"""
import json
import math
import random
import sys

chance = random.Random(int(sys.argv[1]))
bodies = [{"mass": 1.0, "at": [0.0, 0.0, 0.0], "speed": [0.0, 0.0, 0.0]}]
for number in range(1, 5):
    radius = 0.5 * number + 0.1 * chance.random()
    angle = 2 * math.pi * chance.random()
    speed = math.sqrt(1 / radius)
    bodies.append({
        "mass": 0.001 * chance.random(),
        "at": [radius * math.cos(angle), radius * math.sin(angle), 0.0],
        "speed": [-speed * math.sin(angle), speed * math.cos(angle), 0.02 * chance.random()],
    })
json.dump(bodies, sys.stdout)
