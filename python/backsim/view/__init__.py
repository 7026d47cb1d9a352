"""A page of waves in the browser for a live session: the program is asked only for what is in view.

`serve` of `server` serves the page; `asker` asks the session for it, `store` keeps what was answered, and `index` finds names without
reading the whole netlist first."""
