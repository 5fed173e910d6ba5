#compdef xatm
# Completion of xatm for zsh.
local -a commands
commands=(
    'run:Run scenarios, and print what became of each branch'
    'check:Read files only, scenarios or jobs, and print how large they are, or what is wrong'
    'explain:Run a scenario, and tell its story\: a line for each event, and how it ended'
    'chart:Run a scenario of at most 200 events, and print it as a picture, in SVG'
    'threads:Run jobs on threads, and print how each ended'
    'serve:Coordinate the transactions of a driver of real databases'
    'log:Print the transactions and the heuristic ends that a decision log holds'
    'help:Print this message or the help of the given subcommand(s)'
)
local state
_arguments -C '(- *)'{-h,--help}'[Print help]' '(- *)'{-V,--version}'[Print version]' '1:command:->command' '*::word:->word'
case $state in
    command) _describe command commands ;;
    word)
        case $words[1] in
            run)
                _arguments '--trace[Print a line for each event first]' \
                    '--json[Print JSON, for other programs]' \
                    '--log=[The file of the decision log, which is made where it is missing]:PATH:_files' \
                    '(- *)'{-h,--help}'[Print help]' \
                    '*:FILE:_files'
                ;;
            check)
                _arguments '--explain[Tell all that is wrong with a file, and not its first ten faults]' \
                    '--json[Print JSON, for other programs]' \
                    '(- *)'{-h,--help}'[Print help]' \
                    '*:FILE:_files'
                ;;
            explain)
                _arguments {-o,--output=}'[Write into this file, and not to standard output]:FILE:_files' \
                    '(- *)'{-h,--help}'[Print help]' \
                    ':FILE:_files'
                ;;
            chart)
                _arguments {-o,--output=}'[Write into this file, and not to standard output]:FILE:_files' \
                    '(- *)'{-h,--help}'[Print help]' \
                    ':FILE:_files'
                ;;
            threads)
                _arguments '--log=[The file of the decision log, which is made where it is missing]:PATH:_files' \
                    '(- *)'{-h,--help}'[Print help]' \
                    ':FILE:_files'
                ;;
            serve)
                _arguments '--name=[The manager'\''s name, which stands in the identifiers of its branches\: 1 to 16 letters, digits, _ and -]:NAME: ' \
                    '*--rm=[The name of a resource manager, given once for each, from number 0\: 1 to 64 letters, digits, _ and -]:NAME: ' \
                    '--log=[The file of the decision log, which is made where it is missing]:PATH:_files' \
                    '--at-least=[Refuse a log whose incarnation is lower, with status 4, before anything is written\: one that was put back from a copy, or a new one]:INCARNATION: ' \
                    '--moves[Tell the driver which calls to make, by what it says of its transactions]' \
                    '(- *)'{-h,--help}'[Print help]' \
                    ':THREADS: ' \
                    ':RMS: '
                ;;
            log)
                _arguments '--explain[Print what the rows and records ask of an operator instead]' \
                    '--json[Print JSON, for other programs]' \
                    '--make[Make the log instead, from lines on standard input\: its names, `incarnation N`, decisions and `end`]' \
                    '--shut[Shut the log instead\: every start refuses it, with status 8, until it is opened again]' \
                    '--open[Open a log that is shut again instead, once it is settled that it is the right one]' \
                    '--add-rm=[Let the log keep the name of one more resource manager instead, which has the next number]:NAME: ' \
                    '--rename-rm[Let the log keep another name of a resource manager instead, whose number and branches stay]:OLD: :NEW: ' \
                    '(- *)'{-h,--help}'[Print help]' \
                    ':PATH:_files'
                ;;
            help) _describe command commands ;;
        esac
        ;;
esac
