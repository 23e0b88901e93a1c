"""Completions for bash, zsh and fish, made from what the program says of itself."""

BASH = """\
# bash completion for jinit, made from its help
_jinit() {
    local word=${COMP_WORDS[COMP_CWORD]} before=${COMP_WORDS[COMP_CWORD - 1]} command= options at
    for ((at = 1; at < COMP_CWORD; at++)); do
        case ${COMP_WORDS[at]} in
            @COMMANDS@) command=${COMP_WORDS[at]}; break ;;
        esac
    done
    case $command in
@OPTIONS@
        *) options="@TOP@" ;;
    esac
    COMPREPLY=()
    case $before in
        @FILES@) mapfile -t COMPREPLY < <(compgen -f -- "$word"); return ;;
        @VALUES@) return ;;
    esac
    if [[ $word == -* ]]; then
        mapfile -t COMPREPLY < <(compgen -W "$options" -- "$word")
    elif [[ -z $command || $command == help ]]; then
        mapfile -t COMPREPLY < <(compgen -W "@NAMES@" -- "$word")
    elif [[ $command == explain ]]; then
        mapfile -t COMPREPLY < <(compgen -W "@CODES@" -- "$word")
    else
        mapfile -t COMPREPLY < <(compgen -f -X '!*.j' -- "$word"; compgen -d -- "$word")
    fi
}
complete -o filenames -F _jinit jinit
"""


def name_of(help):
    return help.name.split()[-1]


def flags_of(help):
    return [flag for row in help.rows("Options") for flag in row.flags()]


def takes_codes(help):
    return name_of(help) == "explain"


def with_value(subcommands, is_file):
    """The options that take a file, or those that take another value."""
    rows = [row for help in subcommands for row in help.rows("Options") if row.value()]
    return sorted({flag for row in rows if row.is_file() == is_file for flag in row.flags()})


def bash(top, subcommands, codes):
    names = [row.written for row in top.rows("Commands")]
    options = "\n".join(f'        {name_of(it)}) options="{" ".join(flags_of(it))}" ;;' for it in subcommands)
    parts = {
        "COMMANDS": "|".join(names),
        "NAMES": " ".join(names),
        "CODES": " ".join(codes),
        "OPTIONS": options,
        "TOP": " ".join(flags_of(top)),
        "FILES": "|".join(with_value(subcommands, True)),
        "VALUES": "|".join(with_value(subcommands, False)),
    }
    text = BASH
    for key, value in parts.items():
        text = text.replace(f"@{key}@", value)
    return text


def quoted(text):
    """A text between single quotes, as all three shells read it."""
    return "'" + text.replace("'", "'\\''") + "'"


def zsh_option(row):
    text = row.text.replace("\\", "\\\\").replace("[", "\\[").replace("]", "\\]").replace(":", "\\:")
    value = row.value()
    action = f":{value.replace(':', ' ')}:{'_files' if row.is_file() else ' '}" if value else ""
    equals = "=" if value else ""
    return [quoted(f"{flag}{equals}[{text}]{action}") for flag in row.flags()]


def zsh(top, subcommands, codes):
    lines = ["#compdef jinit", "# zsh completion for jinit, made from its help", "local -a commands", "commands=("]
    lines += ["    " + quoted(f"{row.written}:{row.text}") for row in top.rows("Commands")]
    lines += [")", "if (( CURRENT == 2 )); then"]
    lines += ["    if [[ $PREFIX == -* ]]; then"]
    lines += ["        _arguments " + " ".join(it for row in top.rows("Options") for it in zsh_option(row))]
    lines += ["    else", "        _describe command commands", "    fi", "    return", "fi"]
    lines += ["shift words", "(( CURRENT-- ))", "case $words[1] in"]
    for help in subcommands:
        options = [it for row in help.rows("Options") for it in zsh_option(row)]
        words = f"*:code:({' '.join(codes)})" if takes_codes(help) else '*:file:_files -g "*.j"'
        spelled = " \\\n            ".join([*options, quoted(words)])
        lines += [f"    {name_of(help)})", f"        _arguments {spelled} ;;"]
    lines += ["    help) _describe command commands ;;", "esac"]
    return "\n".join(lines) + "\n"


def fish_option(row):
    flags = [f"-l {flag[2:]}" if flag.startswith("--") else f"-s {flag[1:]}" for flag in row.flags()]
    value = row.value()
    takes = [] if value is None else ["-r", "-F"] if row.is_file() else ["-x"]
    return " ".join([*flags, *takes, "-d", quoted(row.text)])


def fish(top, subcommands, codes):
    none = "-n __fish_use_subcommand"
    lines = ["# fish completion for jinit, made from its help", "complete -c jinit -f"]
    lines += [f"complete -c jinit {none} {fish_option(row)}" for row in top.rows("Options")]
    lines += [f"complete -c jinit {none} -a {row.written} -d {quoted(row.text)}" for row in top.rows("Commands")]
    for help in subcommands:
        seen = f"-n '__fish_seen_subcommand_from {name_of(help)}'"
        lines += [f"complete -c jinit {seen} {fish_option(row)}" for row in help.rows("Options")]
        words = " ".join(codes) if takes_codes(help) else "(__fish_complete_suffix .j)"
        lines += [f"complete -c jinit {seen} -k -a {quoted(words)}"]
    return "\n".join(lines) + "\n"
