"""Starts the command, and ends it with a status: 0, 1 where something differs or stops, 2 where something is wrong, 130 where it is
interrupted. Where who reads its output has gone, it ends by that signal, as other programs do."""
import os
import signal
import sys

from srp.faults import Fault
from srp.needs import need

WRONG, INTERRUPTED = 2, 130


def fail(words):
    print(f"srp: {words}", file=sys.stderr)
    return WRONG


def run():
    """Runs the command, to its last octet of output. Gives its status."""
    click = need("click")
    from srp.command import commands

    try:
        with commands.make_context("srp", sys.argv[1:]) as context:
            commands.invoke(context)
    except click.exceptions.Exit as ended:
        return ended.exit_code
    except click.ClickException as fault:
        where = fault.ctx.command_path if getattr(fault, "ctx", None) else "srp"
        return fail(f"{fault.format_message()} ({where} --help tells how to call it)")
    finally:
        sys.stdout.flush()
    return 0


def quit_quietly():
    """Ends without a word where nobody reads what is printed."""
    os.dup2(os.open(os.devnull, os.O_WRONLY), sys.stdout.fileno())
    signal.signal(signal.SIGPIPE, signal.SIG_DFL)
    os.kill(os.getpid(), signal.SIGPIPE)


def main():
    if sys.stdout is None:
        sys.exit(fail("standard output is closed"))
    try:
        status = run()
    except Fault as fault:
        status = fail(fault)
    except KeyboardInterrupt as stopped:
        fail(stopped.args[0] if stopped.args else "interrupted")
        status = INTERRUPTED
    except BrokenPipeError:
        quit_quietly()
    except OSError as fault:
        status = fail(f"{fault.filename or 'what is printed'}: {fault.strerror}")
        # what is left in the buffer can be written as little
        os.dup2(os.open(os.devnull, os.O_WRONLY), sys.stdout.fileno())
    sys.exit(status)
