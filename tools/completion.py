"""The completions of evacask and evacplan in three shells, from the parser of the commands."""
from __future__ import annotations

import argparse
from typing import Dict, List

Parsers = Dict[str, argparse.ArgumentParser]


def flags_of(parser: argparse.ArgumentParser) -> List[str]:
    return sorted(flag for it in parser._actions for flag in it.option_strings if flag.startswith("--"))


def choices_of(parser: argparse.ArgumentParser) -> List[str]:
    """The words that an argument without a flag may be, if they are listed."""
    return [str(word) for it in parser._actions if not it.option_strings and it.choices and not isinstance(it.choices, dict) for word in it.choices]


def helps_of(parser: argparse.ArgumentParser) -> Dict[str, str]:
    """What each long flag means."""
    return {flag: (it.help or "").replace("%%", "%") for it in parser._actions for flag in it.option_strings if flag.startswith("--")}


def quoted(text: str) -> str:
    return "'" + text.replace("'", "'\\''") + "'"


def bash(parser: argparse.ArgumentParser, places: Parsers, questions: Dict[str, str], words: List[str]) -> str:
    cases = "".join(f"    {name}) words={quoted(' '.join(choices_of(place) + flags_of(place)))} ;;\n" for name, place in places.items())
    return f"""# Completion of evacask and evacplan for bash. Made by tools/pages.py
_evacask() {{
  local word=${{COMP_WORDS[COMP_CWORD]}} command='' words it
  for it in "${{COMP_WORDS[@]:1:COMP_CWORD-1}}"; do
    case $it in {'|'.join(places)}) command=$it && break ;; esac
  done
  case $command in
    '') words={quoted(' '.join([*places, *flags_of(parser)]))} ;;
{cases}  esac
  mapfile -t COMPREPLY < <(compgen -W "$words" -- "$word")
  [ -z "$command" ] || [[ $word == -* ]] || mapfile -t -O "${{#COMPREPLY[@]}}" COMPREPLY < <(compgen -f -- "$word")
}}
_evacplan() {{
  mapfile -t COMPREPLY < <(compgen -W {quoted(' '.join([*words, '--reports', '--routes', '--number']))} -- "${{COMP_WORDS[COMP_CWORD]}}")
}}
complete -o filenames -F _evacask evacask
complete -F _evacplan evacplan
"""


def zsh(parser: argparse.ArgumentParser, places: Parsers, questions: Dict[str, str], words: List[str]) -> str:
    def described(pairs: Dict[str, str]) -> str:
        return " ".join(quoted(f"{name}:{text}") for name, text in pairs.items())

    cases = "".join(
        f"    {name})\n      options=({described(helps_of(place))})\n      choices=({' '.join(choices_of(place))})\n      ;;\n"
        for name, place in places.items()
    )
    return f"""#compdef evacask evacplan
# Completion of evacask and evacplan for zsh. Made by tools/pages.py
_evacask() {{
  local -a commands options choices
  local command
  if [[ $service == evacplan ]]; then
    compadd -- {' '.join([*words, '--reports', '--routes', '--number'])}
    return
  fi
  commands=({described(questions)})
  command=${{words[(r)({'|'.join(places)})]}}
  case $command in
    '') options=({described(helps_of(parser))}) ;;
{cases}  esac
  [[ -n $command ]] || _describe command commands
  (( ! ${{#choices}} )) || compadd -- $choices
  [[ $PREFIX != -* ]] || _describe -o option options
  [[ -z $command || $PREFIX == -* ]] || _files
}}
_evacask "$@"
"""


def fish(parser: argparse.ArgumentParser, places: Parsers, questions: Dict[str, str], words: List[str]) -> str:
    lines = ["# Completion of evacask and evacplan for fish. Made by tools/pages.py", "complete -c evacplan -f"]
    lines += [f"complete -c evacplan -n __fish_use_subcommand -a {word}" for word in words]
    lines += [f"complete -c evacask -n __fish_use_subcommand -f -a {name} -d {fish_quoted(text)}" for name, text in questions.items()]
    lines += [f"complete -c evacask -n __fish_use_subcommand -l {flag[2:]} -d {fish_quoted(text)}" for flag, text in helps_of(parser).items()]
    for name, place in places.items():
        at = f"-n '__fish_seen_subcommand_from {name}'"
        lines += [f"complete -c evacask {at} -a {fish_quoted(' '.join(choices_of(place)))}"] if choices_of(place) else []
        lines += [f"complete -c evacask {at} -l {flag[2:]} -d {fish_quoted(text)}" for flag, text in helps_of(place).items()]
    return "\n".join(lines) + "\n"


def fish_quoted(text: str) -> str:
    return "'" + text.replace("\\", "\\\\").replace("'", "\\'") + "'"
