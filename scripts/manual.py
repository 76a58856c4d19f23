"""Prints the man page or the completions of a shell, made from the list in words.py.

usage: manual.py man|bash|zsh|fish
"""
import sys
import textwrap

import words

TOOLS = {
    "dcerpc-explain": "says in words what the program's lines say, names statuses, and judges journals of any length",
    "dcerpc-picture": "draws journals as SVG",
}


def shown(text):
    """A text as troff takes it."""
    return text.replace("\\", "\\e").replace("-", "\\-").replace("'", "\\(aq").replace("^", "\\(ha")


def usage_in_troff(it):
    found = [f"\\fB{it.name}\\fR", *(f"\\fI{operand}\\fR" for operand in it.operands)]
    for option in it.options:
        said = f"\\fB{shown(option.name)}\\fR \\fI{option.value}\\fR"
        found.append(said if option.is_needed else f"[{said}]")
    return " ".join(found)


def tagged(pairs):
    for tag, says in pairs:
        yield f".TP\n{tag}\n{shown(says)}"


def man():
    yield '.TH DCERPC 1 "" "dcerpc" "User commands"'
    yield f".SH NAME\ndcerpc {shown('- a DCE 1.1 RPC runtime: serves, calls, replays and audits')}"
    yield ".SH SYNOPSIS"
    yield "\n.br\n".join(f"\\fBdcerpc\\fR {usage_in_troff(it)}" for it in words.COMMANDS)
    yield ".SH COMMANDS"
    for it in words.COMMANDS:
        yield f".TP\n{usage_in_troff(it)}\n{shown(it.does)}."
        yield from (f"\\fB{shown(option.name)}\\fR {shown(option.says)}." for option in it.options)
        yield f"Example: \\fB{shown(it.example)}\\fR"
    yield ".SH OPERANDS"
    yield from tagged((f"\\fI{name}\\fR", says) for name, (says, _) in words.OPERANDS.items() if name not in ("N", "FILE"))
    yield ".SH EXIT STATUS"
    yield from tagged((str(number), says) for number, says in words.STATUSES.items())
    yield ".SH ENVIRONMENT"
    yield from tagged((f"\\fB{name}\\fR", says) for name, says in words.ENVIRONMENT.items())
    yield ".SH SEE ALSO"
    yield from tagged((f"\\fB{shown(name)}\\fR", says) for name, says in TOOLS.items())


def bash():
    names = " ".join(it.name for it in words.COMMANDS)
    yield "# Completions of dcerpc for bash."
    yield "_dcerpc() {\n    local word=${COMP_WORDS[COMP_CWORD]} before=${COMP_WORDS[COMP_CWORD - 1]} given"
    yield "    COMPREPLY=()\n    if [ \"$COMP_CWORD\" = 1 ]; then"
    yield f"        mapfile -t COMPREPLY < <(compgen -W '{names}' -- \"$word\")\n        return\n    fi"
    yield "    case ${COMP_WORDS[1]}:$before in"
    for it in words.COMMANDS:
        for option in it.options:
            if words.OPERANDS[option.value][1]:
                yield f"        {it.name}:{option.name}) mapfile -t COMPREPLY < <(compgen -f -- \"$word\"); return ;;"
            else:
                yield f"        {it.name}:{option.name}) return ;;"
    yield "    esac\n    case ${COMP_WORDS[1]} in"
    for it in words.COMMANDS:
        yield f"        {it.name}) given='{' '.join(option.name for option in it.options)}' ;;"
    yield "    esac\n    case $word in"
    yield "        -*) mapfile -t COMPREPLY < <(compgen -W \"$given\" -- \"$word\") ;;"
    yield "        *) mapfile -t COMPREPLY < <(compgen -f -- \"$word\") ;;\n    esac\n}"
    yield "complete -o filenames -F _dcerpc dcerpc ./dcerpc\ncomplete -f dcerpc-explain dcerpc-picture"


def of_zsh(option):
    action = ":_files" if words.OPERANDS[option.value][1] else ": "
    return f"'{option.name}[{option.says}]:{option.value}{action}'"


def zsh():
    yield "#compdef dcerpc\n# Completions of dcerpc for zsh.\n_dcerpc() {\n    local -a commands=("
    yield from (f"        '{it.name}:{it.does}'" for it in words.COMMANDS)
    yield "    )\n    if (( CURRENT == 2 )); then\n        _describe command commands\n        return\n    fi"
    yield "    local name=$words[2]\n    shift words\n    (( CURRENT-- ))\n    case $name in"
    for it in words.COMMANDS:
        operands = [f"'{at}:{name}:{'_files' if words.OPERANDS[name][1] else ' '}'" for at, name in enumerate(it.operands, 1)]
        yield f"        {it.name}) _arguments {' '.join([*operands, *map(of_zsh, it.options)])} ;;"
    yield "    esac\n}\n_dcerpc \"$@\""


def fish():
    yield "# Completions of dcerpc for fish.\ncomplete -c dcerpc -f"
    for it in words.COMMANDS:
        yield f"complete -c dcerpc -n __fish_use_subcommand -a {it.name} -d '{it.does}'"
        for option in it.options:
            files = " -F" if words.OPERANDS[option.value][1] else " -x"
            yield f"complete -c dcerpc -n '__fish_seen_subcommand_from {it.name}' -l {option.name[2:]} -r{files} -d '{option.says}'"
        if any(words.OPERANDS[name][1] for name in it.operands):
            yield f"complete -c dcerpc -n '__fish_seen_subcommand_from {it.name}' -F"


WAYS = {"man": man, "bash": bash, "zsh": zsh, "fish": fish}

if __name__ == "__main__":
    if len(sys.argv) != 2 or sys.argv[1] not in WAYS:
        print(textwrap.dedent(__doc__).strip(), file=sys.stderr)
        sys.exit(1)
    print("\n".join(WAYS[sys.argv[1]]()))
