"""The texts of clap, each whole: help at each level, and usage errors, which are written out by the layout of clap.
"""
HELP = {
    "": b"""Checks, lists and runs programs of INTERCAL-72

Usage: ick [COMMAND]

Commands:
  check  Counts the statements of a program
  list   Lists the statements of a program
  run    Runs a program
  runs   Lists the runs of a program
  help   Print this message or the help of the given subcommand(s)

Options:
  -h, --help  Print help

Without a command, ick runs the program on standard input, as `ick run` does.

Exit status:
  0   all went well
  1   a fault of the run
  2   the source is refused
  3   the run was cut short, or wants a choice
  4   a file, a stream or memory failed, or the input is too long
  64  wrong arguments

Example:
  ick run examples/numerals.i
""",
    "check": b"""Counts the statements of a program

Usage: ick check [FILE]

Arguments:
  [FILE]  The source; standard input if none is given

Options:
  -h, --help  Print help

Prints `n STATEMENTS, p POLITE`, or says why the source is refused.

Exit status:
  0   the source compiles
  2   it is refused
  4   a file, a stream or memory failed
  64  wrong arguments

Example:
  ick check examples/bodies.i
""",
    "list": b"""Lists the statements of a program

Usage: ick list [FILE]

Arguments:
  [FILE]  The source; standard input if none is given

Options:
  -h, --help  Print help

Prints a line for each statement: its number, its label, DO or PLEASE,
NOT if it is abstained from at the start, its chance, its kind and its text.

Exit status:
  0   the source compiles
  2   it is refused
  4   a file, a stream or memory failed
  64  wrong arguments

Example:
  ick list examples/bodies.i
""",
    "run": b"""Runs a program

Usage: ick run [OPTIONS] [FILE]

Arguments:
  [FILE]  The source; standard input if none is given

Options:
  -b                 Changes nothing: there is no random compiler bug to switch off
      --choices <C>  The choices of the run, as in a listing: --choices=- for none
      --seed <N>     Draws the choices of the run by this seed
      --limit <N>    The steps after which a run is cut short
  -h, --help         Print help

Prints what the program reads out. With FILE its input is standard input. Without FILE the
input is empty. A run that asks for more choices than it is given stops there. With neither
--choices nor --seed it is given none. It is cut short after 1000000 steps if no limit is
given.

Exit status:
  0   the program gave up
  1   a fault of the run
  2   the source is refused
  3   the run was cut short, or wants a choice
  4   a file, a stream or memory failed
  64  wrong arguments

Example:
  ick run examples/numerals.i
""",
    "runs": b"""Lists the runs of a program

Usage: ick runs [OPTIONS] [FILE]

Arguments:
  [FILE]  The source; standard input if none is given

Options:
  -b               Changes nothing: there is no random compiler bug to switch off
      --from <C>   The run to go on after, by its choices: --from=- for none
      --count <N>  How many runs are shown at most, from 1 to 1000000; 1000 if none is given
      --limit <N>  The steps after which a run is cut short
  -h, --help       Print help

Prints a line for each run that the program can make, in the order of their choices:
the choices, the end and the output. The last line is MORE if there are further runs, and
else DONE. With --from the listing goes on after the run with these choices. With FILE
the input is standard input. Each run is cut short after 10000 steps if no limit is
given.

Exit status:
  0   the runs were listed
  2   the source is refused
  4   a file, a stream or memory failed, or the input is too long
  64  wrong arguments

Example:
  ick runs examples/choice.i
""",
}
USAGE = {
    "": "Usage: ick [COMMAND]",
    "check": "Usage: ick check [FILE]",
    "list": "Usage: ick list [FILE]",
    "run": "Usage: ick run [OPTIONS] [FILE]",
    "runs": "Usage: ick runs [OPTIONS] [FILE]",
}


def error(command, what, tip=None, usage=None):
    """An error in the arguments of a command, with the usage of the command or this one."""
    parts = [f"error: {what}", f"  tip: {tip}" if tip else None, usage or USAGE[command],
             "For more information, try '--help'.\n"]
    return "\n\n".join(part for part in parts if part).encode()


def wrong_value(what):
    """An error in the value of an option, which shows no usage."""
    return f"error: {what}\n\nFor more information, try '--help'.\n".encode()


def unknown(command, argument, as_value=True):
    """An argument that a command doesn't have. Where it could be a FILE, a tip says how."""
    return error(command, f"unexpected argument '{argument}' found",
                 f"to pass '{argument}' as a value, use '-- {argument}'" if as_value else None)


# Arguments, and the error.
ERRORS = [
    # commands
    (["nope", "run"], error("", "unrecognized subcommand 'nope'")),
    (["f"], error("", "unrecognized subcommand 'f'")),
    (["--", "f"], error("", "unrecognized subcommand 'f'")),
    ([""], error("", "unrecognized subcommand ''")),
    (["chec"], error("", "unrecognized subcommand 'chec'", "a similar subcommand exists: 'check'")),
    (["help", "nope"], error("", "unrecognized subcommand 'nope'")),
    (["help", "run", "nope"], error("run", "unrecognized subcommand 'nope'")),
    # too many arguments
    (["check", "FILE", "extra"], unknown("check", "extra", as_value=False)),
    (["check", "FILE", "extra", "more"], unknown("check", "extra", as_value=False)),
    (["list", "FILE", "extra"], unknown("list", "extra", as_value=False)),
    (["run", "FILE", "extra", "more"], unknown("run", "extra", as_value=False)),
    (["run", "--", "FILE", "extra"], unknown("run", "extra", as_value=False)),
    (["runs", "FILE", "extra"], unknown("runs", "extra", as_value=False)),
    # options that a command doesn't have
    (["--limit=3"], unknown("", "--limit", as_value=False)),
    (["--version"], unknown("", "--version", as_value=False)),
    (["check", "--limit=3"], unknown("check", "--limit")),
    (["list", "FILE", "-b"], unknown("list", "-b")),
    (["run", "-x", "FILE"], unknown("run", "-x")),
    (["run", "--from", "0"], unknown("run", "--from")),
    (["run", "--limit", "-1", "FILE"], unknown("run", "-1")),
    (["run", "--lim", "3"], error("run", "unexpected argument '--lim' found", "a similar argument exists: '--limit'",
                                  "Usage: ick run --limit <N> [FILE]")),
    (["runs", "--seed", "1", "FILE"], unknown("runs", "--seed")),
    (["runs", "--choices", "1", "FILE"], unknown("runs", "--choices")),
    # options that are given twice, or a value that they don't take
    (["run", "-bb", "FILE"], error("run", "the argument '-b' cannot be used multiple times")),
    (["run", "--limit", "1", "--limit", "2", "FILE"],
     error("run", "the argument '--limit <N>' cannot be used multiple times")),
    (["--help=3"], error("", "unexpected value '3' for '--help' found; no more were expected",
                         usage="Usage: ick --help")),
    # values
    (["run", "--limit"], wrong_value("a value is required for '--limit <N>' but none was supplied")),
    (["run", "--choices"], wrong_value("a value is required for '--choices <C>' but none was supplied")),
    (["run", "--seed"], wrong_value("a value is required for '--seed <N>' but none was supplied")),
    (["runs", "--from"], wrong_value("a value is required for '--from <C>' but none was supplied")),
    (["runs", "--count"], wrong_value("a value is required for '--count <N>' but none was supplied")),
    (["run", "--limit", "x", "FILE"],
     wrong_value("invalid value 'x' for '--limit <N>': invalid digit found in string")),
    (["run", "--limit", "4294967296", "FILE"],
     wrong_value("invalid value '4294967296' for '--limit <N>': 4294967296 is not in 0..=4294967295")),
    (["run", "--seed=", "FILE"],
     wrong_value("invalid value '' for '--seed <N>': cannot parse integer from empty string")),
    (["run", "--seed", "18446744073709551616", "FILE"],
     wrong_value("invalid value '18446744073709551616' for '--seed <N>': number too large to fit in target type")),
    (["runs", "--count=0"], wrong_value("invalid value '0' for '--count <N>': 0 is not in 1..=1000000")),
    (["runs", "--count", "1000001", "FILE"],
     wrong_value("invalid value '1000001' for '--count <N>': 1000001 is not in 1..=1000000")),
]
