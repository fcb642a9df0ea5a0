# Completions of wacx, made by completions/generate from the help of the program.
# shellcheck shell=bash
_wacx() {
    local word=$2 before=$3 command='' words='' files='' at suffix
    for ((at = 1; at < COMP_CWORD; at++)); do
        case ${COMP_WORDS[at]} in
        fmt | check | packages | graph | package | targets | lsp | help)
            command=${COMP_WORDS[at]}
            break
            ;;
        esac
    done
    case $command,$before in
    fmt,--indent) words='' ;;
    fmt,--line-end) words='auto lf crlf' ;;
    fmt,--stdin-filepath) words='' files=wac ;;
    fmt,--color) words='auto always never' ;;
    fmt,--max-size) words='' ;;
    check,--output) words='human json github' ;;
    check,--packages) words='' files=wac ;;
    check,--package) words='' ;;
    check,-d | check,--dep) words='' ;;
    check,--deps-dir) words='' files=wac ;;
    check,--world) words='' ;;
    check,--stdin-filepath) words='' files=wac ;;
    check,--color) words='auto always never' ;;
    check,--max-size) words='' ;;
    packages,--packages) words='' files=wac ;;
    packages,--package) words='' ;;
    packages,-d | packages,--dep) words='' ;;
    packages,--deps-dir) words='' files=wac ;;
    packages,--world) words='' ;;
    packages,--color) words='auto always never' ;;
    packages,--max-size) words='' ;;
    graph,--output) words='text json dot' ;;
    graph,--packages) words='' files=wac ;;
    graph,--package) words='' ;;
    graph,-d | graph,--dep) words='' ;;
    graph,--deps-dir) words='' files=wac ;;
    graph,--world) words='' ;;
    graph,--color) words='auto always never' ;;
    graph,--max-size) words='' ;;
    package,--name) words='' ;;
    package,--output) words='wac json' ;;
    package,--color) words='auto always never' ;;
    package,--max-size) words='' ;;
    targets,--world) words='' ;;
    targets,--output) words='human json github' ;;
    targets,--packages) words='' files=wac ;;
    targets,--package) words='' ;;
    targets,-d | targets,--dep) words='' ;;
    targets,--deps-dir) words='' files=wac ;;
    targets,--color) words='auto always never' ;;
    targets,--max-size) words='' ;;
    lsp,--max-size) words='' ;;
    ,*) words='fmt check packages graph package targets lsp help -h --help -V --version' ;;
    fmt,*) words='--check --diff --indent --line-end --stdin-filepath --color --max-size --quiet -h --help' files='wac' ;;
    check,*) words='--output --syntax --packages --package -d --dep --no-packages --deps-dir --agree --world --stdin-filepath --color --max-size --quiet -h --help' files='wac' ;;
    packages,*) words='--packages --package -d --dep --no-packages --deps-dir --agree --world --color --max-size -h --help' files='wac' ;;
    graph,*) words='--output --packages --package -d --dep --no-packages --deps-dir --agree --world --color --max-size -h --help' files='wac' ;;
    package,*) words='--name --output --color --max-size -h --help' files='wasm' ;;
    targets,*) words='--world --output --packages --package -d --dep --no-packages --deps-dir --agree --color --max-size -h --help' files='wac wasm' ;;
    lsp,*) words='--stdio --max-size -h --help' ;;
    help,*) words='fmt check packages graph package targets lsp' ;;
    esac
    mapfile -t COMPREPLY < <(compgen -W "$words" -- "$word")
    if [[ -n $files && $word != -* ]]; then
        compopt -o filenames 2>/dev/null
        mapfile -t COMPREPLY < <(
            compgen -d -- "$word"
            for suffix in $files; do
                compgen -f -X "!*.$suffix" -- "$word"
            done
        )
    fi
}
complete -F _wacx wacx
