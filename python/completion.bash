# Completion of bash for the command satmegwo; made by `make -C python manual`.
_satmegwo() {
    local current=${COMP_WORDS[COMP_CWORD]} previous=${COMP_WORDS[COMP_CWORD - 1]} command= options= words= k
    for ((k = 1; k < COMP_CWORD; k++)); do
        if [[ ${COMP_WORDS[k]} != -* ]]; then
            command=${COMP_WORDS[k]}
            break
        fi
    done
    case $command in
    '') options='--help --version sheet compare distance sum pairs cells explain report lat xor spectrum counts improve pack boxfile ddt' ;;
    sheet) options='--help -n --inputs -m --outputs --base --pairs --no-pairs --lines --heading --column --sheet -o --output --limit --only -j --jobs --state --csv --json' ;;
    compare) options='--help -n --inputs -m --outputs --base --pairs --no-pairs --lines --heading --column --sheet -o --output --limit --only -j --jobs --csv --json' ;;
    distance) options='--help -n --inputs -m --outputs --base --pairs --no-pairs --lines --heading --column --sheet -o --output --order -j --jobs --state --csv --json' ;;
    sum) options='--help -n --inputs -m --outputs --base --pairs --no-pairs --lines --heading --column --sheet -o --output --limit -j --jobs --state --csv --json' ;;
    pairs) options='--help -n --inputs -m --outputs --base --pairs --no-pairs --lines --heading --column --sheet -o --output --limit --csv --json' ;;
    cells) options='--help -n --inputs -m --outputs --base --pairs --no-pairs --lines --heading --column --sheet -o --output --csv --json' ;;
    explain) options='--help -n --inputs -m --outputs --base --pairs --no-pairs --lines --heading --column --sheet -o --output --figure --limit --flips --html' ;;
    report) options='--help -n --inputs -m --outputs --base --pairs --no-pairs --lines --heading --column --sheet -o --output' ;;
    lat) options='--help -n --inputs -m --outputs --base --pairs --no-pairs --lines --heading --column --sheet -o --output --csv --json' ;;
    xor|ddt) options='--help -n --inputs -m --outputs --base --pairs --no-pairs --lines --heading --column --sheet -o --output --csv --json' ;;
    spectrum) options='--help -n --inputs -m --outputs --base --pairs --no-pairs --lines --heading --column --sheet -o --output --combination --csv --json' ;;
    counts) options='--help -n --inputs -m --outputs --base --pairs --no-pairs --lines --heading --column --sheet -o --output --csv --json' ;;
    improve) options='--help -n --inputs -m --outputs --base --pairs --no-pairs --lines --heading --column --sheet -o --output --steps --csv --json' ;;
    pack) options='--help -n --inputs -m --outputs --base --pairs --no-pairs --lines --heading --column --sheet -o --output --hex --unpack' ;;
    boxfile) options='--help -n --inputs -m --outputs --base --pairs --no-pairs --lines --heading --column --sheet -o --output' ;;
    esac
    case $previous in
    --base) words='10 16' ;;
    --figure) words='nonlinearity xor autocorrelation sac bic degree distance' ;;
    --only) words='box nonlinearity xor autocorrelation sac bic degree complete bijective' ;;
    --limit) words=all ;;
    *) [[ $command && $current != -* ]] || words=$options ;;
    esac
    mapfile -t COMPREPLY < <(compgen -W "$words" -- "$current")
}
complete -o default -F _satmegwo satmegwo
