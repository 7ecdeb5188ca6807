"""Lets SIGINT end a tool without a word while its modules are read. A tool imports this before all else.

last_catch.run takes the signal from then on.
"""
import signal

signal.signal(signal.SIGINT, signal.SIG_DFL)
