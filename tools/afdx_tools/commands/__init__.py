"""The commands. Importing one takes a while: until it heeds signals, an interrupt ends it without a
word."""
import signal

if signal.getsignal(signal.SIGINT) is signal.default_int_handler:
    signal.signal(signal.SIGINT, signal.SIG_DFL)
