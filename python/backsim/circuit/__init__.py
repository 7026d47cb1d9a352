"""A circuit by its rules: which cell follows from which, whether gates settle before an edge, a signal held at a value, and buses."""
