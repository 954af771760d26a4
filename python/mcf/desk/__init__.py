"""A planner's desk: the network on a page of this machine, and bounds that follow each edit."""
