#!/usr/bin/env python3
"""Writes a largest sheet: 64 rules with 8 equations and 16 instructions each, 512 and 1,024 in all."""

visits = 4
print("symbol=1 S1")
print("symbol=4", *(f"S{j}" for j in range(1, 5)), *(f"I{j}" for j in range(1, 5)))
for rule in range(64):
    print("rule=1 1")
    for j in range(visits):
        print(f"set=0.{j} {(4 * rule + j) % 256} 1.{j} 0.{4 + j} d")
        print(f"set=1.{4 + j} {(255 - 4 * rule - j) % 256} 0.{4 + j} d")
    print("plan=" + " ".join(f"e1.{4 + j} v1.{j + 1} e0.{j} r{j + 1}" for j in range(visits)))
