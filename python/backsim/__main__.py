"""`python -m backsim` is `backsim-tools`."""
from .main import entry

entry()
