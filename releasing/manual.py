"""Manual pages, made of the help texts."""

STATUSES = [
    ("0", "What was asked for is done, or a session ended in order."),
    ("1", "It failed, and standard error says why."),
    ("2", "The command line can't be read, or names one file for two things."),
]


def escaped(text):
    """A text as roff takes it."""
    text = text.replace("\\", "\\e").replace("-", "\\-").replace("~", "\\(ti").replace("'", "\\(aq")
    return "\\&" + text if text.startswith(".") else text


def tagged(left, right):
    """An entry of a list, with its left half in bold."""
    return [".TP", f"\\fB{escaped(left)}\\fR", escaped(right)]


def option_lines(option):
    """An option or an argument as an entry of a list."""
    names = ", ".join(f"\\fB{escaped(name)}\\fR" for name in option.names)
    value = f"\\fI{escaped(option.value)}\\fR" if option.value else ""
    return [".TP", f"{names} {value}".strip(), escaped(option.help)]


def file_name(page):
    """The name of a page's file."""
    return page.call.replace(" ", "-") + ".1"


def manual_page(page, pages, version, date):
    """The manual page of the program or of a subcommand."""
    title = page.call.replace(" ", "-")
    lines = [f".TH {escaped(title.upper())} 1 {date} \"ibm1401 {version}\" \"IBM 1401\"", ".nh", ".ad l", ".SH NAME",
             f"{escaped(title)} \\- {escaped(page.about[:1].lower() + page.about[1:])}" if page.name else
             f"ibm1401 \\- {escaped(page.about)}", ".SH SYNOPSIS", f"\\fB{escaped(page.call)}\\fR "
             + escaped(page.usage.removeprefix(page.call).strip())]
    lines += [".SH COMMANDS"] * bool(page.commands)
    for name, about in page.commands:
        lines += tagged(name, about)
    lines += [".SH ARGUMENTS"] * bool(page.arguments)
    for each in page.arguments:
        lines += option_lines(each)
    lines += [".SH OPTIONS"]
    for each in page.options:
        lines += option_lines(each)
    for heading, body in page.sections:
        lines += [f".SH {escaped(heading.rstrip(':').upper())}"]
        for row in body:
            lines += tagged(*row)
    lines += [".SH EXIT STATUS"]
    for row in STATUSES:
        lines += tagged(*row)
    lines += [".SH FILES", ".TP", "\\fI/usr/share/doc/ibm1401\\fR", "The documentation, with examples."]
    others = [file_name(each).removesuffix(".1") for each in pages if each is not page]
    lines += [".SH SEE ALSO", ",\n".join(f".BR {escaped(each)} (1)" for each in others).replace(",\n", " ,\n")]
    return "\n".join(lines) + "\n"
