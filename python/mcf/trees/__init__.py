"""The exact optimum of large networks: a linear program whose columns are trees of sources, all in arrays."""
