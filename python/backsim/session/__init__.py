"""A session with the program. `program` finds it, starts it and talks through its pipes; `exchange` gives what comes back to whoever
asked; `questions` has the kinds of questions, which `session` and `batch`, what users call, have from there; `outcomes` says how a session
ends that does not end well."""
