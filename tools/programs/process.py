"""How these tools speak and end."""
import os
import signal
import sys


def tell(line, end="\n"):
    """Says a line on standard error, if somebody listens."""
    try:
        if sys.stderr is not None:
            print(line, end=end, file=sys.stderr, flush=True)
    except OSError:
        pass


def is_terminal():
    """Whether a person reads standard error."""
    return sys.stderr is not None and sys.stderr.isatty()


def open_all():
    """Opens what is closed of standard input, output and error, so that no other file takes its place."""
    found = os.open(os.devnull, os.O_RDWR)
    while found <= 2:
        found = os.open(os.devnull, os.O_RDWR)
    os.close(found)


def end_as_interrupted():
    """Has the signals that end a process end this as Ctrl-C does: what was begun ends, and what is half done goes."""

    def end(number, _):
        sys.exit(128 + number)

    for number in (signal.SIGTERM, signal.SIGHUP):
        if signal.getsignal(number) is signal.SIG_DFL:
            signal.signal(number, end)


def run_main(main):
    """Runs a tool, which ends by Ctrl-C as programs do that know nothing of it."""
    open_all()
    end_as_interrupted()
    try:
        main()
    except KeyboardInterrupt:
        signal.signal(signal.SIGINT, signal.SIG_DFL)
        os.kill(os.getpid(), signal.SIGINT)
