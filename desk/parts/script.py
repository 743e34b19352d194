"""How a script begins and ends: its words, its work, a mistake told in a line, or Ctrl-C."""
import argparse
import os
import sys

INTERRUPTED, NO_READER = 130, 141


class Mistake(Exception):
    """What is wrong with the arguments or with a file, in one line."""

    status = 2


class Parser(argparse.ArgumentParser):
    """Reads the words of a script; its help is the script's text, and wrong words are a mistake."""

    def __init__(self, text, *names):
        super().__init__(description=text, allow_abbrev=False)
        for name in names:
            self.add_argument(name)

    def format_help(self):
        return f"{self.description}\n"

    def error(self, message):
        raise Mistake(" ".join(message.split()))


def say(text):
    """A line of desk/run beside its answers."""
    print(f"desk/run: {text}", file=sys.stderr, flush=True)


def run(name, main):
    """Does the work of the script; a mistake and an interrupt are one line each, and a status."""
    if sys.stdout is None:
        end(f"{name}: the output is closed")
    try:
        status = main()
        sys.stdout.flush()
        if status:
            sys.exit(status)
    except Mistake as mistake:
        end(f"{name}: {mistake}", mistake.status)
    except KeyboardInterrupt:
        end(f"{name}: interrupted", INTERRUPTED)
    except BrokenPipeError:
        os.dup2(os.open(os.devnull, os.O_WRONLY), sys.stdout.fileno())
        sys.exit(NO_READER)
    except OSError as error:
        end(f"{name}: {error.filename or 'output'}: {error.strerror or error}")
    except UnicodeError:
        end(f"{name}: a file or a word isn't UTF-8")
    except RecursionError:
        end(f"{name}: a file is nested too deeply")


def end(line, status=Mistake.status):
    """Ends the script with one line on standard error; of the output no more is written."""
    print(line, file=sys.stderr)
    sys.exit(status)
