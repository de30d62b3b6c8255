"""Prints the greatest error of each step of time, and the order of the method: the error falls as the step to that power."""
import json
import math
import sys

runs = [json.load(open(name)) for name in sys.argv[1:]]
for run in runs:
    print(f"{run['step']:.3f} {run['off']:.1e}")
orders = [math.log2(a["off"] / b["off"]) / math.log2(a["step"] / b["step"]) for a, b in zip(runs, runs[1:])]
print(f"order {sum(orders) / len(orders):.1f}")
