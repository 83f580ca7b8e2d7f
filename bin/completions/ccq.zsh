#compdef ccq
# Completions of `ccq` for zsh.
_ccq() {
  local file
  local -a commands help helped
  commands=(
    'play:play a plan and write the report of its whole history'
    'audit:audit receipts and write the verdict on them'
    'judge:judge whether the calls of a log are linearizable'
    'show:show the run of a plan as a page or a trace'
    'drive:drive a queue by threads and audit their receipts'
  )
  # An array, since braces are expanded in no text that `local` takes
  help=('(- *)'{-h,--help}'[print help]')
  helped=('help:print the help of a command')
  # Behind its file a command's options are offered only once a dash is typed
  [[ $PREFIX == -* ]] || file='(-)'
  _arguments -C $help '(- *)'{-V,--version}'[print the version]' '1: :->command' '*:: :->words'
  case $state in
    command) _describe command commands -- helped ;;
    words)
      case $words[1] in
        help) _describe command commands ;;
        play) _arguments $help "${file}1:plan:_files" ;;
        audit) _arguments $help "${file}1:receipts:_files" ;;
        judge)
          _arguments $help \
            '--follow[judge in parts while the log is read]' \
            '--page[write a page that draws the calls]' \
            '--times[judge by times alone, for a coarse clock]' \
            '--capacity[items that the queue holds]:1 to 4294967295:' \
            '--skew[by how much clocks may differ]:a number:' \
            '--from[the time from which on the log is judged]:a number:' \
            '--until[the time until which the log is judged]:a number:' \
            "${file}1:log:_files"
          ;;
        show) _arguments $help '--trace[write a line of JSON for each event]' "${file}1:plan:_files" ;;
        drive)
          _arguments $help \
            '--senders[threads that send]:1 to 63:' \
            '--receivers[threads that take]:1 to 64:' \
            '--items[items that each sender sends]:0 to 1000000:' \
            '--capacity[items that may wait in the queue]:1 to 4096:' \
            '--bound[calls that one combiner serves in a row]:1 to 1024:'
          ;;
      esac
      ;;
  esac
}
_ccq "$@"
