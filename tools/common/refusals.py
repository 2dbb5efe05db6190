"""How a tool ends where it was given what it can't take: in one sentence, with status 2."""

import os
import sys


class Refused(Exception):
    """What is wrong, in a sentence."""


def sentence(error):
    """What a file that fails says; which file, where that is known."""
    return f'{error.filename}: {error.strerror}' if error.filename else error.strerror


def run(name, main):
    """Calls main; the status is 0, or 2 after a sentence on standard error."""
    if sys.stderr is None:  # it is closed; what is told would go to standard output
        sys.stderr = open(os.devnull, 'w')
    try:
        if sys.stdout is None:
            raise Refused('standard output is closed')
        sys.stdout.reconfigure(errors='surrogateescape')  # the name of a file may be no text
        main()
        sys.stdout.flush()
    except Refused as refused:
        fail(name, refused)
    except BrokenPipeError:
        let_go()
        sys.exit(2)
    except OSError as error:
        let_go()
        fail(name, sentence(error))
    except KeyboardInterrupt:
        sys.exit(130)


def let_go():
    """Has what standard output doesn't take go nowhere, so that the interpreter doesn't try once more as it ends."""
    try:
        sys.stdout.flush()
    except OSError:
        os.dup2(os.open(os.devnull, os.O_WRONLY), sys.stdout.fileno())


def fail(name, text):
    print(f'{name}: {text}', file=sys.stderr)
    sys.exit(2)
