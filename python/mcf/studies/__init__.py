"""Studies: matrices × changes × growth × routing, each scenario with both bounds, on one machine or on many."""
