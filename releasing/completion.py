"""Completions for bash, zsh and fish, made of the help texts."""


def quoted(text):
    """A text as one word of a shell."""
    return "'" + text.replace("'", "'\\''") + "'"


def for_bash(pages):
    """The completion for bash."""
    whole, *others = pages
    after = []
    for page in others:
        for option in (each for each in page.options if each.value):
            cases, does = "|".join(f"{page.name}:{name}" for name in option.names), ""
            if option.choices:
                does = f"COMPREPLY=($(compgen -W '{' '.join(option.choices)}' -- \"$word\")); "
            elif option.is_file:
                does = "compopt -o filenames; COMPREPLY=($(compgen -f -- \"$word\")); "
            after.append(f"    {cases}) {does}return ;;")
    words = [f"    {page.name}) words='{' '.join(name for each in page.options for name in each.names)}' "
             f"files={'yes' if page.arguments else ''} ;;" for page in others]
    first = [name for name, _ in whole.commands] + [name for each in whole.options for name in each.names]
    return "\n".join([
        "# Completion of ibm1401 for bash, made from its help.",
        "_ibm1401() {",
        "    local word=${COMP_WORDS[COMP_CWORD]} before=${COMP_WORDS[COMP_CWORD - 1]} call= words= files=",
        "    [ \"$COMP_CWORD\" -le 1 ] || call=${COMP_WORDS[1]}",
        "    COMPREPLY=()",
        "    case $call:$before in", *after, "    esac",
        "    case $call in",
        f"    '') words='{' '.join(first)}' ;;",
        f"    help) [ \"$COMP_CWORD\" -gt 2 ] || words='{' '.join(name for name, _ in whole.commands)}' ;;",
        *words, "    esac",
        "    if [ -n \"$files\" ] && [[ $word != -* ]]; then",
        "        compopt -o filenames",
        "        COMPREPLY=($(compgen -f -- \"$word\"))",
        "    else",
        "        COMPREPLY=($(compgen -W \"$words\" -- \"$word\"))",
        "    fi",
        "}",
        "complete -F _ibm1401 ibm1401", ""])


def zsh_text(text):
    """A text within a word of zsh's _arguments."""
    for each in "\\[]:":
        text = text.replace(each, "\\" + each)
    return text


def zsh_argument(option):
    """An option or an argument as _arguments takes it."""
    shown = f"{option.value.lower()}:"
    if option.choices:
        shown += f"({' '.join(option.choices)})"
    elif option.is_file:
        shown += "_files"
    if not option.names:
        return quoted(f"1:{shown}")
    words = "".join(["[", zsh_text(option.help), "]"]) + (f":{shown}" if option.value else "")
    if len(option.names) == 1:
        return quoted(option.long + words)
    return f"'({' '.join(option.names)})'{{{','.join(option.names)}}}{quoted(words)}"


def for_zsh(pages):
    """The completion for zsh."""
    whole, *others = pages
    calls = [f"    {quoted(name + ':' + zsh_text(about))}" for name, about in whole.commands]
    cases = [f"    {page.name}) _arguments {' '.join(map(zsh_argument, page.arguments + page.options))} ;;"
             for page in others]
    return "\n".join([
        "#compdef ibm1401",
        "# Completion of ibm1401 for zsh, made from its help.",
        "local context state state_descr line",
        "typeset -A opt_args",
        "local -a calls",
        "calls=(", *calls, ")",
        f"_arguments -C {' '.join(map(zsh_argument, whole.options))} '1: :->call' '*:: :->words' && return",
        "case $state in",
        "call) _describe call calls ;;",
        "words)",
        "    case $words[1] in",
        "    help) _describe call calls ;;", *cases, "    esac ;;", "esac", ""])


def for_fish(pages):
    """The completion for fish."""
    whole, *others = pages
    lines = ["# Completion of ibm1401 for fish, made from its help.", "complete -c ibm1401 -f"]
    for name, about in whole.commands:
        lines.append(f"complete -c ibm1401 -n '__fish_use_subcommand' -a {quoted(name)} -d {quoted(about)}")
    for page in pages:
        seen = f"__fish_seen_subcommand_from {page.name}" if page.name else "__fish_use_subcommand"
        for each in page.options:
            names = "".join([f" -s {each.short[1:]}"] * bool(each.short) + [f" -l {each.long[2:]}"] * bool(each.long))
            value = f" -x -a {quoted(' '.join(each.choices))}" if each.choices else \
                " -r -F" if each.is_file else " -x" if each.value else ""
            lines.append(f"complete -c ibm1401 -n {quoted(seen)}{names}{value} -d {quoted(each.help)}")
        if page.arguments:
            lines.append(f"complete -c ibm1401 -n {quoted(seen)} -F")
    calls = " ".join(name for name, _ in whole.commands)
    lines.append(f"complete -c ibm1401 -n '__fish_seen_subcommand_from help' -a {quoted(calls)}")
    return "\n".join(lines) + "\n"
