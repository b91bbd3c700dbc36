# What the scripts share that run a proved program, exos-list, exos-audit and exos-module: how one is called, how its
# program is proved and built where there is none of the tree's sources, and what the ends are that every program has.
# shellcheck shell=sh
#
# A script finds its own folder, `here`, and sources this file. It sets these, and has two functions, usage and
# at_terminal, which says what is read where there is no FILE and standard input is a terminal:
#   script, crate    its name, and its program's crate
#   runs, writes     what its program is, and what that writes
#   nothing, cut     how it says that nothing is written, or not all
# Then it calls take_arguments, have_program, run_program and, for an end that is not its own, tell_end.

# What --help says of the build.
how_built="\
The program is proved before it is built. Where it is missing, or its sources or the kit have changed since, it is
built first, which takes some minutes: a line tells each crate that is proved. It needs the Rattle kit's \`rt\` on the path."

say() { printf '%s: %s\n' "$script" "$*" >&2; }

die() { # STATUS WORDS...
  code=$1
  shift
  say "$*"
  exit "$code"
}

# Whether a descriptor is open.
is_open() { { :; } 3>&"$1"; } 2>/dev/null # NUMBER

# Makes FILE standard input, or says in the system's words why not.
open_file() { # FILE
  [ ! -d "$1" ] || die 2 "cannot read $1: it is a directory"
  { command exec <"$1"; } 2>/dev/null && return
  said=$(LC_ALL=C cat -- "$1" 2>&1 >/dev/null </dev/null)
  die 2 "cannot read $1: ${said##*: }"
}

# Makes what the arguments name standard input; `name` is what it is called.
take_arguments() { # [ARGUMENT..]
  case ${1:-} in
    -h | --help)
      usage
      exit 0
      ;;
    --) shift ;;
    -?*) die 2 "no such option: $1 (--help says how to use it)" ;;
  esac
  [ $# -le 1 ] || die 2 "one FILE at most (--help says how to use it)"

  is_open 2 || exec 2>/dev/null
  is_open 1 || die 5 "standard output is closed: $nothing"
  name=${1--}
  case $name in
    -)
      name="standard input"
      is_open 0 || die 4 "standard input is closed: $nothing"
      if [ $# -eq 0 ] && [ -t 0 ]; then at_terminal; fi
      ;;
    *) open_file "$name" ;;
  esac
}

# The kit that rt stands in. Its programs are for x86-64: another machine needs an emulator.
find_kit() {
  rt=$(command -v rt) ||
    die 1 "rt is not on the path: $runs is built with the Rattle kit, whose bin/ has rt"
  kit=$(dirname -- "$(dirname -- "$(readlink -f -- "$rt")")")
  emulator=
  [ "$(uname -m)" = x86_64 ] || emulator=$(command -v qemu-x86_64) ||
    die 1 "qemu-x86_64 is not on the path: $runs is a program for x86-64, and this machine is $(uname -m)"
}

# The program's crate and those that it stands on, as crates.txt says.
crates_below() {
  awk -F: -v crate="$crate" '
    function visit(name, k, n, below) {
      if (!(name in on) || name in seen) return
      seen[name] = 1
      n = split(on[name], below, " ")
      for (k = 1; k <= n; k++) visit(below[k])
      print name
    }
    { sub(/#.*/, "") }
    NF > 1 { split($1, words, " "); on[words[1]] = $2 }
    END { visit(crate) }' "$here/crates.txt"
}

# A sum over all that the program is built of: the kit, crates.txt and the crates' files.
sources() {
  cd "$here/crates" || exit 1
  {
    cat "$kit/KIT-ID" ../crates.txt
    # shellcheck disable=SC2086 # a word a crate
    find $crates -name out -prune -o -type f ! -name '*.edit' -exec sha256sum {} + | LC_ALL=C sort
  } | sha256sum
}

# Whether the program is the one that was built, and of the sources that are there: so the record beside it says.
is_current() { [ -x "$program" ] && [ "$(cat "$record" 2>/dev/null)" = "$(sources) $(sha256sum <"$program")" ]; }

# Takes its turn to build, one for all scripts; the turn ends with descriptor 9.
take_turn() {
  command -v flock >/dev/null || return 0
  flock -n 9 && return
  say "the program is being built by another: waiting for it"
  flock 9
}

# What rt says as it proves and builds the program, which it then runs, with no input and nobody to tell its end; and a last line with its
# status.
asked_rt() {
  (cd "$here/crates/$crate" && rt run) 2>&1 >/dev/null </dev/null 3>&-
  echo "ended $?"
}

# Of that, a line for each crate that it proves, by its place among all, and its own words where one fails. Ends with 0 where the
# program was built, whatever a run of it with no input ended with.
tell() {
  began=$(date +%s) all=$(echo "$crates" | wc -l) of='' ended=1
  while IFS= read -r line; do
    case $line in
      'crate '*': '*)
        of=${line#crate }
        of=${of%%:*}
        ;;
      'logic=proved '*)
        say "$(echo "$crates" | grep -nxF -e "$of" | cut -d: -f1) of $all: $of proved, $(($(date +%s) - began)) s so far"
        ;;
      'rt: running out/'*) ended=0 ;;
      'ended '*) exit "$ended" ;;
      'rt: chose --jobs '* | 'rt: nothing has changed '* | 'rt: rt '* | *': begins with what a check kept in '*) ;;
      'logic=not-proved'*) say "$of is not proved" ;;
      'rt: '* | *error:* | *error\[*) [ "$ended" -eq 0 ] || say "$line" ;;
    esac
  done
  exit 1
}

# Has rt prove and build the program. rt knows what it has proved and built; the record tells later runs, which need not ask it.
build() {
  of=$(sources)
  if [ ! -x "$program" ]; then
    say "the program is not built: proving and building it, which takes some minutes"
  elif [ ! -f "$record" ]; then
    say "nothing tells of what sources the program was built: asking rt"
  else
    say "the program is not what these sources give: proving and building what has changed"
  fi
  log=$here/out/$script.log
  if ! asked_rt | tee "$log" | tell || [ ! -x "$program" ]; then
    die 1 "the program could not be built, and $nothing: $log has all that rt said"
  fi
  printf '%s %s\n' "$of" "$(sha256sum <"$program")" >"$record"
  is_current || die 1 "the sources changed while the program was built: run $script again"
}

# Finds the program, built first where it is not current.
have_program() {
  find_kit
  program=$here/crates/$crate/out/$crate
  record=$here/out/$script.built
  crates=$(crates_below)
  if ! is_current; then
    mkdir -p "$here/out"
    (take_turn && { is_current || build; }) 9>"$here/out/build.lock" || exit 1
  fi
}

# Runs the program. It tells its end by a word on descriptor 3: `end` is that word, and `status` the program's status.
run_program() {
  exec 4>&1
  end=$(${emulator:+"$emulator"} "$program" 3>&1 >&4 4>&-)
  status=$?
}

# Whether standard input is a file of text, as what is written in words is, with no byte as low as those that records of
# 01's kinds and items have.
in_words() {
  [ -f /dev/stdin ] && [ -r /dev/stdin ] && [ -s /dev/stdin ] &&
    [ "$(head -c 65536 /dev/stdin | LC_ALL=C tr -d '\t\n\r -~\200-\377' | wc -c)" -eq 0 ]
}

# Ends as the program did, by the words that every program has for it, or with none.
tell_end() {
  case $end,$status in
    0,*) exit 0 ;;
    r,*)
      [ ! -d /dev/stdin ] || die 4 "$name is a directory"
      die 4 "a read of $name failed: $cut"
      ;;
    w,*) die 5 "a write of $writes failed: what is written is cut" ;;
    p,* | ,141) exit 141 ;;
    *) die 1 "the program ended with status $status before it was done: $cut" ;;
  esac
}
