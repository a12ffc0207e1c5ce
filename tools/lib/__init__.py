"""What the tools of this folder share. Python 3.11 and its own library are enough for it."""

import signal

# While a tool begins, Ctrl-C ends it as the system does, without a word. Where it runs, `command.main` ends it.
if signal.getsignal(signal.SIGINT) is signal.default_int_handler:
    signal.signal(signal.SIGINT, signal.SIG_DFL)
