"""Certificates of all three kinds from a linear program over paths, solved by CLP."""
