"""How far the proofs are while the starter builds the program. Python's own library alone."""
