"""Readers and writers of every format, a module each. A reader raises `FormatError` with file, line and cause."""
