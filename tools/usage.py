"""What the scripts do with the words of their command lines and with faults: a wish for help, a file that has to be there, a text that is
read, an output that is written."""
import argparse
import os
import sys


class Fault(Exception):
    """Why a script can't do what it is asked, as a line for the user."""


def complain(why):
    """A line on the error output, behind the script's name."""
    print(f"{os.path.basename(sys.argv[0])}: {why}", file=sys.stderr)


def answer_help(text):
    """Prints the text and ends the script, where its words ask for help."""
    if {"-h", "--help"} & set(sys.argv[1:]):
        print(text.strip())
        sys.exit()


def parser(text):
    """A parser of words whose help is a script's text: its usage, an empty line, and the rest."""
    usage, _, rest = text.split("\n", 2)
    form = argparse.RawDescriptionHelpFormatter
    return argparse.ArgumentParser(usage=usage, description=rest, formatter_class=form, allow_abbrev=False)


def file_there(name):
    """The same name, or the script ends with a line where no file has it."""
    if not os.path.isfile(name):
        complain(f"{name}: no such file")
        sys.exit(1)
    return str(name)


def program_there(name):
    """The same name of a program that is built, or the script ends with a line where it isn't."""
    if not os.access(file_there(name), os.X_OK):
        complain(f"{name}: not a program")
        sys.exit(1)
    return str(name)


def ascii_in(name, what):
    """The text of a file, or of the standard input where no name is given, which is to be a thing of this kind."""
    try:
        if name is None:
            return sys.stdin.buffer.read().decode("ascii")
        with open(name, "rb") as it:
            return it.read().decode("ascii")
    except OSError as error:
        raise Fault(f"{name}: {error.strerror}") from error
    except UnicodeDecodeError as error:
        raise Fault(f"the input has bytes that are no ASCII, and so is no {what}") from error


def write_out(make):
    """Writes the text that `make` answers to the standard output, or why there is none to the error output. The exit status."""
    try:
        sys.stdout.write(make())
        sys.stdout.flush()
    except Fault as fault:
        complain(fault)
        return 1
    except BrokenPipeError:
        # (else Python flushes once more at its end, and complains)
        os.dup2(os.open(os.devnull, os.O_WRONLY), sys.stdout.fileno())
        return 1
    return 0


if __name__ == "__main__":
    print(__doc__)
