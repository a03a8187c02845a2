"""Writes a script of a million elements and 200,000 lines."""
import random

random.seed(1)
side = 1000
print("start 2", side, side, *(random.randint(-10**9, 10**9) for _ in range(side * side)))
for line in range(200_000):
    i, j, v = random.randrange(side), random.randrange(side), random.randint(-10**6, 10**6)
    print([
        f"ask get 2 {i} {j}",
        f"ask cut 0 {i} _ 1 / first",
        f"write set 2 {i} {j} {v}",
        f"ask index 0 {i} / shape",
        f"ask reverse / get 2 {j} {i}",
        f"write index 1 {j} / cut 0 {i} _ 2 / set 1 0 {v}",
    ][line % 6])
