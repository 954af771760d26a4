"""Hints of the starter: one sentence on a `usage`, a refusal, an `invalid` line, a read fault or an open answer.

Python's own library and the core of `mcf` alone; nothing here is read before the program has ended.
"""
