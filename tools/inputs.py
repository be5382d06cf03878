"""What tools do with the files that their words name, and with what they print to."""
import signal
import sys


def end_with_reader():
    """From here on the tool ends without a word where nobody reads what it prints any longer."""
    if hasattr(signal, 'SIGPIPE'):
        signal.signal(signal.SIGPIPE, signal.SIG_DFL)


def tool_name():
    return sys.argv[0].rsplit('/', 1)[-1]


def bytes_of(name, most=-1):
    """The bytes of a file, no more than the most, or the end of the tool with a sentence."""
    try:
        with open(name, 'rb') as file:
            return file.read(most)
    except OSError as fault:
        print('%s: %s: %s' % (tool_name(), name, (fault.strerror or 'it cannot be read').lower()), file=sys.stderr)
        sys.exit(2)
