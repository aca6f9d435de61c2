"""What is drawn for drawn.py: requests and commands, right ones and wrong ones."""

from .commands import command
from .draw import Draw
from .requests import OFFICE_KEY, Requests
