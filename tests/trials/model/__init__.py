"""A plain slow model of an office and of the commands on files, written from docs/definitions.md
and the pages that it names, docs/api.md and docs/errors.md alone. It shares nothing with the program."""

from .commands import COMMANDS, run
from .office import Office
