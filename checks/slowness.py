"""Prints how many times as long a fixed loop takes here and now as on a quiet processor of 2.5 GHz, where it takes a second:
at least 1."""
import time

began, x = time.perf_counter(), 0
for i in range(10_000_000):
    x = (x * 31 + i) & 0xFFFFFF
print(max(1.0, time.perf_counter() - began))
