"""What the journal of a session tells: whether it is legal, where evaluations went, and how many a question needs alone."""
