"""What becomes of a network where a link fails, where one is doubled, or where demands grow."""
