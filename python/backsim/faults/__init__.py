"""Single stuck-at faults: which there are, which are one, which patterns show them (docs/use/FAULTS.md)."""
