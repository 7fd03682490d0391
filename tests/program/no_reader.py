"""Runs a command with its standard output on a pipe that nobody reads, and with the signal for that ignored; after --signal, with it as it is by
default."""
import os
import signal
import subprocess
import sys

reader, writer = os.pipe()
os.close(reader)
by_default = sys.argv[1] == "--signal"
signal.signal(signal.SIGPIPE, signal.SIG_DFL if by_default else signal.SIG_IGN)
subprocess.run(sys.argv[1 + by_default :], stdout=writer, restore_signals=False)
