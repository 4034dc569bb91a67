"""A mock of the toolchain, which proves nothing and notes what it is asked to prove.

The environment says what it does: VERSION is its own, CALLS the file that gets each crate's name, WHILE the seconds
that a proof takes, HELD a file that keeps each proof from its end as long as it is there, FAILS the crate that isn't
proved, and CHANGED the crate whose source changes meanwhile."""
import os

# As long as that of the toolchain itself.
VERSION = "mock-kit-13f-0 logic 0123456789abcdef"
# A program is a script, which prints the words that it is called with.
COMMANDS = {
    "rt": '[ "$1" = version ] && echo "$VERSION"',
    "rattle": """while [ $# -gt 0 ]; do
    case $1 in
    --crate-name) crate=$2 ;;
    -o) made=$2 ;;
    esac
    shift
done
echo "$crate" >> "$CALLS"
sleep "$WHILE"
while [ -e "$HELD" ]; do sleep 0.1; done
[ "$crate" != "$FAILS" ] || exit 1
[ "$crate" != "$CHANGED" ] || { sleep 0.1; echo "// changed" >> src/lib.rt; }
case $made in
*.rlib) [ -e src/lib.rt ] && mkdir "$made" ;;
*.o) printf '#!/bin/sh\\necho "$@"\\nexit\\n' > "$made" ;;
esac""",
    "rattle-link": """while [ "$1" != -o ]; do shift; done
cp "$3" "$2" && chmod +x "$2" """,
}


def make_toolchain(folder, **env):
    """Puts the commands below a folder, and returns an environment in which they are found, with these values too."""
    commands = folder / "kit/bin"
    commands.mkdir(parents=True)
    for command, text in COMMANDS.items():
        (commands / command).write_text(f"#!/bin/sh\n{text}\n")
        (commands / command).chmod(0o755)
    usual = {"VERSION": VERSION, "CALLS": str(folder / "calls"), "WHILE": "0", "HELD": "", "FAILS": "", "CHANGED": ""}
    return {**os.environ, "PATH": f"{commands}:{os.environ['PATH']}", **usual, **env}
