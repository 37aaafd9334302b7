"""Types lines into a shell at a terminal, as a person does, and shows what the shell then runs.

usage: typed.py SHELL COMPLETIONS

SHELL is bash or zsh, COMPLETIONS the file with the completions of `wh`. Each line of standard input is typed, then the key that inserts all that the
shell offers for the word at hand, then Enter. Printed is a line of the words that were then handed to `wh`, each in brackets.
"""

import os
import pty
import select
import sys
import time

# The key that inserts all that is offered: Control-X Control-A.
ALL = "\x18\x01"
SET_UP = {
    "bash": [
        "bind 'set bell-style none'; bind 'set enable-bracketed-paste off'; bind '\"\\C-x\\C-a\": insert-completions'",
        ". COMPLETIONS",
    ],
    "zsh": [
        "PROMPT_EOL_MARK=; unset zle_bracketed_paste",
        "fpath=(FOLDER $fpath); autoload -Uz compinit && compinit -u -D",
        "zle -C all-matches complete-word _generic; bindkey '^X^A' all-matches",
        "zstyle ':completion:all-matches::::' completer _all_matches _complete; zstyle ':completion:all-matches:*' insert true",
    ],
}
SHELLS = {"bash": ["bash", "--norc", "--noprofile", "-i"], "zsh": ["zsh", "-f", "-i"]}
SHOWS = "wh() { printf '<'; printf '[%s]' \"$@\"; printf '>\\n'; }"
PATIENCE = 20


class Typed:
    """A shell at a terminal."""

    def __init__(self, shell):
        self.process, self.terminal = pty.fork()
        if not self.process:
            os.environ.update(TERM="dumb", COLUMNS="2000", LINES="50")
            os.execvp(shell[0], shell)

    def type(self, keys):
        os.write(self.terminal, keys.encode())

    def until(self, mark):
        """What comes until a mark has come."""
        shown, ends = "", time.monotonic() + PATIENCE
        while mark not in shown and time.monotonic() < ends:
            if select.select([self.terminal], [], [], 0.1)[0]:
                shown += os.read(self.terminal, 65536).decode(errors="replace")
        if mark not in shown:
            sys.exit(f"no {mark!r} came, but {shown!r}")
        return shown


def main(name, completions):
    shell = Typed(SHELLS[name])
    shell.type("stty -echo cols 2000\n")
    for number, line in enumerate([*SET_UP[name], SHOWS]):
        line = line.replace("COMPLETIONS", completions).replace("FOLDER", os.path.dirname(completions))
        shell.type(f"{line}; echo 'done'-{number}-\n")
        shell.until(f"done-{number}-")
    for line in sys.stdin.read().splitlines():
        shell.type(line + ALL + "\n")
        shown = shell.until(">\r\n")
        print(shown[shown.rindex("<") + 1 : shown.rindex(">")], flush=True)
    shell.type("exit\n")


if __name__ == "__main__":
    main(*sys.argv[1:])
