"""What completes the words of the office's desk in bash, zsh and fish, from its own parser."""

import desk_words

# What stands for a file or a folder, and for a vault with a configuration.
FILES = {"FILE", "PATH", "PAGE", "OLD", "NEW", "COPY", "VAULT", "V", "path", "file"}
FOLDERS = {"FOLDER", "folder"}
NAMES = "$(ls /etc/vaultctl 2>/dev/null | sed -n 's/[.]conf$//p')"
FISH_NAMES = '(ls /etc/vaultctl 2>/dev/null | string match -r ".*(?=[.]conf)")'

BASH = """\
# Completes the words of vaultdesk in bash.
_vaultdesk() {
    local word=${COMP_WORDS[COMP_CWORD]} words=${COMP_WORDS[1]} first=2 option='' it
    COMPREPLY=()
    if [ "$COMP_CWORD" = 1 ]; then
        COMPREPLY=($(compgen -W "%(names)s --help --version" -- "$word"))
        return
    fi
    case $words in
%(kinds)s
    esac
    for it in "${COMP_WORDS[@]:first:COMP_CWORD-first}"; do
        case $it in -*) option=$it ;; esac
    done
    case "$words $option" in
%(choices)s
    esac
    case "$words ${COMP_WORDS[COMP_CWORD - 1]}" in
%(valued)s
    esac
    case $word in
    -*)
        case $words in
%(options)s
        esac
        return
        ;;
    esac
    if [ "$COMP_CWORD" = "$first" ]; then
        case $words in
        %(named)s) COMPREPLY=($(compgen -W "%(vaults)s" -- "$word")) && return ;;
        esac
    elif [ "$words" = offline ]; then
        COMPREPLY=($(compgen -c -- "$word"))
        return
    fi
    COMPREPLY=($(compgen -f -- "$word"))
}
complete -o filenames -F _vaultdesk vaultdesk
"""
BASH_KIND = """\
    %(name)s)
        if [ "$COMP_CWORD" = 2 ]; then
            COMPREPLY=($(compgen -W "%(kinds)s" -- "$word"))
            return
        fi
        words="$words ${COMP_WORDS[2]}" first=3
        ;;"""

ZSH = """\
#compdef vaultdesk
# Completes the words of vaultdesk in zsh.
_vaultdesk() {
    local -a commands=(
%(commands)s
    )
    if (( CURRENT == 2 )); then
        _describe command commands
        return
    fi
    local command=$words[2]
    shift words
    (( CURRENT-- ))
    case $command in
%(cases)s
    esac
}
_vaultdesk "$@"
"""
ZSH_KINDS = """\
    %(name)s)
        local -a kinds=(
%(described)s
        )
        if (( CURRENT == 2 )); then
            _describe kind kinds
            return
        fi
        command=$words[2]
        shift words
        (( CURRENT-- ))
        case $command in
%(cases)s
        esac
        ;;"""

FISH = """\
# Completes the words of vaultdesk in fish.
function __vaultdesk_is
    set -l given (commandline -opc)
    set -l last (math 1 + (count $argv))
    test (count $given) -ge $last; and test (string join -- ' ' $given[2..$last]) = (string join -- ' ' $argv)
end
"""


def leaves(command):
    """The subcommands that can be given, those with kinds by their kinds."""
    return [it for kind in command.kinds for it in (kind.kinds or [kind])]


def after(command):
    """The words of a subcommand after the desk's own."""
    return " ".join(command.words[1:])


def long_names(command):
    return [it.names[-1] for it in command.options] + ["--help"]


def is_of_vault(command):
    """Whether the first argument is a vault with a configuration."""
    return any(it.value == "NAME" and it.text.startswith("the vault ") for it in command.arguments[:1])


# ---- bash


def bash_choices(commands):
    """Options with choices; a repeated one has them for each word after it."""
    return [
        f'    "{after(it)} {option.names[-1]}")'
        + ('' if option.is_repeated else ' [ "$option" != "${COMP_WORDS[COMP_CWORD - 1]}" ] ||')
        + f' {{ COMPREPLY=($(compgen -W "{" ".join(option.choices)}" -- "$word")); [[ $word = -* ]] || return; }} ;;'
        for it in commands
        for option in it.options
        if option.choices
    ]


def bash_valued(commands):
    """Options with a value that isn't one of some: a file, or what only the user knows."""
    lines = []
    for it in commands:
        valued = [option for option in it.options if option.value and not option.choices]
        files = [option.names[-1] for option in valued if option.value in FILES | FOLDERS]
        others = [option.names[-1] for option in valued if option.value not in FILES | FOLDERS]
        for names, does in ((files, 'COMPREPLY=($(compgen -f -- "$word")) && return || return'), (others, "return")):
            if names:
                lines.append("    " + " | ".join(f'"{after(it)} {name}"' for name in names) + f") {does} ;;")
    return lines


def bash(desk):
    commands = leaves(desk)
    kinds = [BASH_KIND % {"name": it.words[-1], "kinds": " ".join(k.words[-1] for k in it.kinds)} for it in desk.kinds if it.kinds]
    options = [f'        "{after(it)}") COMPREPLY=($(compgen -W "{" ".join(long_names(it))}" -- "$word")) ;;' for it in commands]
    return BASH % {
        "names": " ".join(it.words[-1] for it in desk.kinds),
        "kinds": "\n".join(kinds),
        "choices": "\n".join(bash_choices(commands)),
        "valued": "\n".join(bash_valued(commands)),
        "options": "\n".join(options),
        "named": " | ".join(f'"{after(it)}"' for it in commands if is_of_vault(it)),
        "vaults": NAMES,
    }


# ---- zsh


def quoted(text):
    """A text between single quotes; a colon and brackets mean something to zsh."""
    return text.replace("'", "'\\''").replace(":", "\\:").replace("[", "\\[").replace("]", "\\]")


def zsh_value(it):
    """How zsh completes a value."""
    name = (it.value or "").strip(".").lower().replace(":", "-")
    if it.choices:
        return f"{name}:({' '.join(it.choices)})"
    return f"{name}:{'_files -/' if it.value in FOLDERS else '_files' if it.value in FILES else ' '}"


def zsh_words(command):
    """What _arguments is given."""
    found = []
    for it in command.options:
        behind = f":{zsh_value(it)}" if it.value else ""
        repeated = "*" if it.is_repeated else ""
        found.append(f"'{repeated}{it.names[-1]}[{quoted(it.text or 'see the manual')}]{behind}'")
    found.append("'--help[Prints the words of the command]'")
    for it in command.arguments:
        found.append(f"'{'*' if it.is_repeated else ''}:{zsh_value(it)}'")
    return " ".join(found)


def zsh_case(command, indent):
    lines = [f"{command.words[-1]})", f"    _arguments {zsh_words(command)}", "    ;;"]
    return "\n".join(indent + line for line in lines)


def zsh_described(commands, indent):
    return "\n".join(f"{indent}'{it.words[-1]}:{quoted(it.about)}'" for it in commands)


def zsh(desk):
    cases = []
    for it in desk.kinds:
        if it.kinds:
            inner = "\n".join(zsh_case(kind, "        ") for kind in it.kinds)
            parts = {"name": it.words[-1], "described": zsh_described(it.kinds, " " * 12), "cases": inner}
            cases.append(ZSH_KINDS % parts)
        else:
            cases.append(zsh_case(it, "    "))
    return ZSH % {"commands": zsh_described(desk.kinds, " " * 8), "cases": "\n".join(cases)}


# ---- fish


def fish_text(text):
    return text.replace("\\", "\\\\").replace("'", "\\'")


def fish(desk):
    lines = [FISH + "complete -c vaultdesk -n '__fish_use_subcommand' -f -l help"]
    for it in desk.kinds:
        name = it.words[-1]
        lines.append(f"complete -c vaultdesk -n '__fish_use_subcommand' -f -a {name} -d '{fish_text(it.about)}'")
        for kind in it.kinds:
            alone = f"test (count (commandline -opc)) = 2; and __vaultdesk_is {name}"
            lines.append(f"complete -c vaultdesk -n '{alone}' -f -a {kind.words[-1]} -d '{fish_text(kind.about)}'")
    for it in leaves(desk):
        for option in it.options:
            value = f"-x -a '{' '.join(option.choices)}' " if option.choices else "-r " if option.value else ""
            words = f"{value}-l {option.names[-1][2:]} -d '{fish_text(option.text)}'"
            lines.append(f"complete -c vaultdesk -n '__vaultdesk_is {after(it)}' {words}")
            if option.choices and option.is_repeated:
                given = f"__vaultdesk_is {after(it)}; and contains -- {option.names[-1]} (commandline -opc)"
                lines.append(f"complete -c vaultdesk -n '{given}' -f -a '{' '.join(option.choices)}'")
        if is_of_vault(it):
            second = f"test (count (commandline -opc)) = 2; and __vaultdesk_is {after(it)}"
            lines.append(f"complete -c vaultdesk -n '{second}' -f -a '{FISH_NAMES}'")
    return "\n".join([*lines, ""])


def texts():
    """What completes the desk's words, by the names of files."""
    desk = desk_words.desk()
    return {"vaultdesk.bash": bash(desk), "_vaultdesk": zsh(desk), "vaultdesk.fish": fish(desk)}
