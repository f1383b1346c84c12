"""The rows of tools/hostile. Each has a function `cases`, which gives the names of its cases and a call for each.

A call answers None where all is well, and else what is wrong, in a line.
"""
import os
import sys

# So that rows may ask the oracles for what the formats and the rules give.
sys.path.append(f"{os.path.dirname(os.path.dirname(os.path.realpath(__file__)))}/oracles")
