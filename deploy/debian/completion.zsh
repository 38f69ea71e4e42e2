#compdef weblocks
# Completes the words of weblocks(1).

local -a commands help
local command line state
help=('(-h --help)'{-h,--help}'[print help]')
commands=(
    'run:answer each line of standard input by one line on standard output'
    'audit:do a script, and say for each manager whether its journal is legal'
    'timeline:do a script, and draw what became of each request as an SVG'
    'serve:serve a number of connections on 127.0.0.1'
    'client:send each line of standard input to a server, and print its reply'
    'daemon:serve until it is stopped, and push grants'
    'help:print the help of the program or of a command'
)

_arguments -C $help '(-V --version)'{-V,--version}'[print the version]' '1: :->command' '*:: :->words' && return 0

case $state in
command)
    _describe -t commands command commands
    ;;
words)
    command=$line[1]
    case $command in
    run | audit | timeline) _arguments $help ;;
    serve) _arguments $help '--port[port to listen on]:port' '--clients[connections after which it ends]:number' ;;
    client) _arguments $help '--port[port of the server]:port' ;;
    daemon)
        _arguments $help \
            '*--listen[where to listen (127.0.0.1:8080)]:address and port, or unix\: and a path' \
            '--connections[connections at once (10000)]:number' \
            '--per-address[connections at once from one address]:number' \
            '--managers[buckets at once that have an agent (100000)]:number' \
            '--idle[silence after which a peer is pinged (30)]:seconds' \
            '--loops[event loops (one a core)]:number' \
            '--token-file[file with a token a line]:file:_files' \
            '--open[listen beyond this machine without a token file]' \
            '*--allow-origin[origin whose pages may open any URL]:origin' \
            '--sharded[take connections for one origin each, by their target]' \
            '--status[where to show the status]:address and port' \
            '*--status-host[host by which the status may be asked for too]:name' \
            '(--epoch-file)--epoch[epoch of the fencing tokens]:number' \
            '(--epoch)--epoch-file[file that keeps the epoch]:file:_files' \
            '--while-input[end when standard input ends]' \
            '--log[what goes to standard error (info)]:level:(off error warn info debug trace)'
        ;;
    help) _describe -t commands command commands ;;
    esac
    ;;
esac
