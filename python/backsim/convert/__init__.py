"""Converters between the formats of the field and those of the program. What a converter makes has the names of its source."""
