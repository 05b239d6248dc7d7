# Completion of evacask and evacplan for bash. Made by tools/pages.py
_evacask() {
  local word=${COMP_WORDS[COMP_CWORD]} command='' words it
  for it in "${COMP_WORDS[@]:1:COMP_CWORD-1}"; do
    case $it in summary|why|sensitivity|width|compare|session|tables|review|explain|convert|edit|assign|improve|range|sweep|losses|admit|rescue|observed|sheet|report) command=$it && break ;; esac
  done
  case $command in
    '') words='summary why sensitivity width compare session tables review explain convert edit assign improve range sweep losses admit rescue observed sheet report --help --program --proved --version' ;;
    summary) words='--columns --csv --edit --help --json --program --proved --text' ;;
    why) words='--columns --csv --edit --help --json --program --proved --text' ;;
    sensitivity) words='--columns --csv --edit --help --json --program --proved --rate --text' ;;
    width) words='--columns --csv --earlier --edit --help --json --program --proved --text' ;;
    compare) words='--columns --csv --edit --help --json --program --proved --text --unforeseen' ;;
    session) words='--edit --help --program --proved --replan --study' ;;
    tables) words='exits nodes arcs routes totals fullest full all walks --columns --csv --edit --help --json --program --proved --text' ;;
    review) words='--columns --csv --edit --help --json --program --proved --text' ;;
    explain) words='--columns --csv --help --json --program --proved --text' ;;
    convert) words='--both --columns --csv --down --help --json --period --program --proved --shares --text --up' ;;
    edit) words='--edit --help --output --program --proved --version' ;;
    assign) words='--columns --csv --edit --effort --help --json --nearest --plan --program --proved --text' ;;
    improve) words='--budget --columns --costs --csv --earlier --edit --effort --help --highs --json --program --proved --text' ;;
    range) words='--columns --csv --edit --help --json --people --program --proved --rate --table --text --travel' ;;
    sweep) words='--columns --csv --edit --help --jobs --json --output --program --proved --shard --text' ;;
    losses) words='--columns --csv --edit --exits --help --json --program --proved --text --top' ;;
    admit) words='--columns --csv --earlier --edit --help --json --program --proved --room --text' ;;
    rescue) words='--columns --csv --earlier --edit --help --json --plan --program --proved --seconds --text' ;;
    observed) words='--columns --csv --edit --help --json --program --proved --start --text' ;;
    sheet) words='--back --force --help --horizon --output --period --program --proved --title' ;;
    report) words='--against --edit --help --json --output --program --proved --title --trials' ;;
  esac
  mapfile -t COMPREPLY < <(compgen -W "$words" -- "$word")
  [ -z "$command" ] || [[ $word == -* ]] || mapfile -t -O "${#COMPREPLY[@]}" COMPREPLY < <(compgen -f -- "$word")
}
_evacplan() {
  mapfile -t COMPREPLY < <(compgen -W 'cards check drill replan session solve study upgrade --reports --routes --number' -- "${COMP_WORDS[COMP_CWORD]}")
}
complete -o filenames -F _evacask evacask
complete -F _evacplan evacplan
