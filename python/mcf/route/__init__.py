"""Routings that networks really have: shortest paths, equal-cost multipath, and the best split over a few paths."""
