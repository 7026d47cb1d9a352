"""Scripts in parts: `parts` divides them, `running` runs them in one or more processes, `plans` writes commands for more machines."""
