"""Patterns of the Rosie Pattern Language in Python programs.

>>> import rosie
>>> pattern = rosie.Pattern('net.ip')
>>> pattern.search('from 10.0.0.9 port 22').text
'10.0.0.9'

This package runs the command `rosie`, which does the matching. README.md, beside this package in the source, explains
the package by examples.
"""
from .command import Command, CommandMissing, find_command, find_packages
from .faults import LineFault, PatternError, RosieError
from .lines import CommandEnded
from .match import Match
from .pattern import Pattern, Stream

__all__ = ["Command", "CommandEnded", "CommandMissing", "LineFault", "Match", "Pattern", "PatternError", "RosieError",
           "Stream", "find_command", "find_packages"]
__version__ = "1.0.0"
