"""The manual page of msthost, and what bash, zsh and fish complete of it, made of what it says of itself by --help."""

import re
from collections.abc import Iterator

from lib.commands import Stop
from lib.programs import outcome

NAME = "msthost"


def said(program: str, *words: str) -> str:
    ended = outcome(program, [*words])
    if ended.status:
        raise Stop(f"{program} {' '.join(words)} ends with status {ended.status}")
    return ended.out.decode()


class Help:
    """What a help says: the text before it, its usage, its arguments and options with what each is for, and its example."""

    def __init__(self, text: str) -> None:
        parts = re.split(r"^(Usage|Commands|Arguments|Options|Examples?):(?: |\n)", text, flags=re.M)
        found = dict(zip(parts[1::2], parts[2::2]))
        if "Usage" not in found:
            raise Stop("what the program says of itself has no line of usage")
        self.text, self.usage = parts[0].strip(), found["Usage"].strip()
        self.commands = re.findall(r"^  ([\w-]+) +(.+)$", found.get("Commands", ""), re.M)
        self.arguments = items_of(found.get("Arguments", ""))
        self.options = [Option(head, told) for head, told in items_of(found.get("Options", ""))]
        self.takes_file = any(head == "[FILE]" for head, _ in self.arguments)
        example = found.get("Example", "") + found.get("Examples", "")
        self.example = [it.removeprefix("  ") for it in example.rstrip().split("\n")]


def items_of(part: str) -> list[tuple[str, str]]:
    """The items of a list of arguments or options: the line that begins one, and its words."""
    found: list[tuple[str, str]] = []
    for line in part.split("\n"):
        if re.match(r" {2,6}[-<\[]", line):
            head, _, told = line.strip().partition("  ")
            found.append((head, told.strip()))
        elif line.strip() and found:
            found[-1] = (found[-1][0], f"{found[-1][1]} {line.strip()}".strip())
    return found


class Option:
    def __init__(self, head: str, told: str) -> None:
        self.head, self.told = head, told.replace(" (see a summary with '-h')", "")
        self.flags = re.findall(r"--?[\w-]+", head)
        self.value = "".join(re.findall(r"<(\w+)>", head))


def helps_of(program: str) -> tuple[Help, dict[str, Help]]:
    """What the program says of itself, and of each of its commands."""
    whole = Help(said(program, "--help"))
    return whole, {name: Help(said(program, name, "--help")) for name, _ in whole.commands}


def faults_of(program: str, helps: dict[str, Help]) -> list[tuple[str, str]]:
    """Each fault that the program explains, and what it says of it."""
    if "explain" not in helps:
        return []
    found = []
    for name in dict.fromkeys(said(program, "explain").splitlines()):
        lines = said(program, "explain", name).splitlines()
        found.append((name, ". ".join(it.strip().rstrip(".") for it in lines if it.startswith("  ")) + "."))
    return found


def manual(whole: Help, helps: dict[str, Help], faults: list[tuple[str, str]], version: str) -> str:
    def roff(text: str) -> str:
        for letter, name in (("\\", "\\e"), ("-", "\\-"), ("'", "\\(aq"), ("`", "\\(ga"), ("^", "\\(ha"), ("~", "\\(ti")):
            text = text.replace(letter, name)
        lines = text.split("\n")
        return "\n".join(f"\\&{it}" if it[:1] in (".", "'") else it for it in lines)

    def options(found: list[tuple[str, str]]) -> list[str]:
        return [line for it in found for line in (".TP", f"\\fB{roff(it[0])}\\fR", roff(it[1]))]

    def example(lines: list[str]) -> list[str]:
        return [".PP", ".nf", *[roff(it) for it in lines], ".fi"]

    out = [f'.TH {NAME.upper()} 1 "" "{version}"', ".nh", ".SH NAME", f"{NAME} \\- {roff(whole.text)}", ".SH SYNOPSIS"]
    for it in helps.values():
        out += [f"\\fB{roff(it.usage)}\\fR", ".br"]
    out += [".SH OPTIONS", *options([(it.head, it.told) for it in whole.options]), ".SH COMMANDS"]
    for name, it in helps.items():
        out += [f".SS {roff(name)}"]
        for paragraph in it.text.split("\n\n"):
            out += [".PP", roff(paragraph)]
        out += options(it.arguments) + options([(it.head, it.told) for it in it.options]) + example(it.example)
    out += [".SH FAULTS", *options(faults)] if faults else []
    return "\n".join(out) + "\n"


def for_bash(whole: Help, helps: dict[str, Help]) -> str:
    def flags(found: list[Option]) -> str:
        return " ".join(flag for it in found for flag in it.flags)

    def files(it: Help) -> str:
        return " files=1" if it.takes_file else ""

    cases = "".join(f"    {name}) words='{flags(it.options)}'{files(it)} ;;\n" for name, it in helps.items())
    valued = "|".join(sorted({flag for it in helps.values() for option in it.options if option.value for flag in option.flags}))
    return f"""_{NAME}() {{
  local words files before=${{COMP_WORDS[COMP_CWORD-1]}}
  COMPREPLY=()
  case $before in
    {valued}) return ;;
  esac
  [ "$COMP_CWORD" -gt 1 ] && words=${{COMP_WORDS[1]}}
  case $words in
    '') words='{" ".join(helps)} {flags(whole.options)}' ;;
{cases}    *) return ;;
  esac
  COMPREPLY=($(compgen -W "$words" -- "${{COMP_WORDS[COMP_CWORD]}}"))
  if [ -n "$files" ]; then
    local IFS=$'\\n'
    COMPREPLY+=($(compgen -f -- "${{COMP_WORDS[COMP_CWORD]}}"))
  fi
}}
complete -o default -F _{NAME} {NAME}
"""


def for_zsh(whole: Help, helps: dict[str, Help]) -> str:
    def quoted(text: str) -> str:
        return re.sub(r"([\[\]:])", r"\\\1", text).replace("'", "'\\''")

    def arguments(found: list[Option]) -> str:
        words = []
        for it in found:
            value = f":{it.value}:" if it.value else ""
            alone = f"({' '.join(it.flags)})" if len(it.flags) > 1 else ""
            words += [f"'{alone}{flag}[{quoted(it.told)}]{value}'" for flag in it.flags]
        return " ".join(words)

    commands = " ".join(f"'{name}:{quoted(told)}'" for name, told in whole.commands)
    def words(it: Help) -> str:
        return " ".join([repr(f":{word}:") for word in re.findall("<(.+?)>", it.usage)] + (["':FILE:_files'"] if it.takes_file else []))

    cases = "".join(f"        {name}) _arguments {arguments(it.options)} {words(it)} ;;\n" for name, it in helps.items())
    return f"""#compdef {NAME}
_{NAME}() {{
  local state line curcontext=$curcontext
  _arguments -C {arguments(whole.options)} '1: :->command' '*:: :->rest'
  case $state in
    command)
      local -a commands=({commands})
      _describe command commands
      ;;
    rest)
      case $words[1] in
{cases}      esac
      ;;
  esac
}}
_{NAME} "$@"
"""


def for_fish(whole: Help, helps: dict[str, Help]) -> str:
    def quoted(text: str) -> str:
        return "'" + text.replace("\\", "\\\\").replace("'", "\\'") + "'"

    def options(found: list[Option], when: str) -> Iterator[str]:
        for it in found:
            flags = " ".join(f"-l {flag[2:]}" if flag.startswith("--") else f"-s {flag[1:]}" for flag in it.flags)
            yield f"complete -c {NAME} -n {quoted(when)} {flags}{' -x' if it.value else ''} -d {quoted(it.told)}"

    lines = [f"complete -c {NAME} -f", *options(whole.options, "__fish_use_subcommand")]
    lines += [f"complete -c {NAME} -n __fish_use_subcommand -a {name} -d {quoted(told)}" for name, told in whole.commands]
    for name, it in helps.items():
        lines += options(it.options, f"__fish_seen_subcommand_from {name}")
        if it.takes_file:
            lines += [f"complete -c {NAME} -n {quoted(f'__fish_seen_subcommand_from {name}')} -F"]
    return "\n".join(lines) + "\n"


def files_of(program: str) -> dict[str, str]:
    """What is installed beside the program, by its place."""
    whole, helps = helps_of(program)
    return {
        f"share/man/man1/{NAME}.1": manual(whole, helps, faults_of(program, helps), said(program, "--version").strip()),
        f"share/bash-completion/completions/{NAME}": for_bash(whole, helps),
        f"share/zsh/site-functions/_{NAME}": for_zsh(whole, helps),
        f"share/fish/vendor_completions.d/{NAME}.fish": for_fish(whole, helps),
    }
