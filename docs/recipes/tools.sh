# What the recipes share; each reads it by a dot. DVIPBM names the program, without it the one built here or the one on the path.
# The exit statuses stand in docs/USING.md.
case ${1:-} in
-h | --help)
  sed -n '2,/^[^#]/s/^#\{1,\} \{0,1\}//p' "$0"
  exit 0
  ;;
esac
unset CDPATH
recipe=$(basename "$0")
here=$(cd "$(dirname "$0")" && pwd)
top=$(cd "$here/../.." && pwd)
room=
trap '[ -z "$room" ] || rm -rf "$room"' EXIT
trap 'exit 130' INT
trap 'exit 143' TERM
trap 'exit 129' HUP
# The commands that GNU parallel runs here and elsewhere are of this shell; a login shell as /bin/false would do nothing without a word.
export PARALLEL_SHELL=/bin/sh

# fail STATUS TEXT: ends the recipe with a line.
fail() {
  echo "$recipe: $2" >&2
  exit "$1"
}

# need TOOL PACKAGE: ends the recipe, with status 69, where a tool isn't there.
need() {
  command -v "$1" >/dev/null 2>&1 || fail 69 "$1 isn't installed; on Debian: apt-get install $2"
}

# usage TEXT: ends the recipe where it was given other arguments.
usage() {
  echo "usage: docs/recipes/$recipe $1" >&2
  exit 64
}

if [ -z "${DVIPBM:-}" ]; then
  DVIPBM=$top/crates/dvipbm/out/dvipbm
  [ -x "$DVIPBM" ] || DVIPBM=dvipbm
fi
[ -n "${without_program:-}" ] || command -v "$DVIPBM" >/dev/null 2>&1 ||
  fail 69 "there is no $DVIPBM: run make in the repository, or name the program by DVIPBM"

# readable FILE: ends the recipe where there is no such file, or nothing in it.
readable() {
  [ -e "$1" ] || fail 66 "$1: there is no such file"
  [ ! -d "$1" ] || fail 66 "$1: this is a folder"
  [ -r "$1" ] || fail 66 "$1: this file may not be read"
  [ ! -f "$1" ] || [ -s "$1" ] || fail 65 "$1: the file is empty"
}

# make_room FILE: makes the empty folder that $room names, beside FILE. What becomes FILE is made there, and moved when it is whole.
make_room() {
  folder=$(dirname "$1")
  [ ! -d "$1" ] || fail 73 "$1: this is a folder"
  [ -d "$folder" ] || fail 73 "$folder: there is no such folder"
  room=$(mktemp -d "$folder/.dvipbm.XXXXXX") || fail 73 "$folder: nothing can be written there"
}

# sides NAME: prints the sides of a sheet in hundredths of a millimetre; fails where there is none of that name.
sides() {
  case ${1%-landscape} in
  a3) set -- "$1" 29700 42000 ;;
  a4) set -- "$1" 21000 29700 ;;
  a5) set -- "$1" 14800 21000 ;;
  a6) set -- "$1" 10500 14800 ;;
  b5) set -- "$1" 17600 25000 ;;
  letter) set -- "$1" 21590 27940 ;;
  legal) set -- "$1" 21590 35560 ;;
  executive) set -- "$1" 18415 26670 ;;
  *) return 1 ;;
  esac
  case $1 in
  *-landscape) echo "$3 $2" ;;
  *) echo "$2 $3" ;;
  esac
}
papers='a3 a4 a5 a6 b5 letter legal executive'

# sheet_options NAME RES: prints the options for a sheet at RES dots to the inch.
sheet_options() {
  found=$(sides "$1") || fail 64 "$1: no sheet of that name; there are $papers, each also with -landscape"
  wide=$(((${found% *} * $2 + 1270) / 2540)) high=$(((${found#* } * $2 + 1270) / 2540))
  [ "$wide" -le 20000 ] && [ "$high" -le 20000 ] || fail 64 "$1 at $2 has $wide by $high dots; dvipbm draws at most 20000 a side"
  echo "--width $wide --height $high"
}

# resolution_of WIDE HIGH: prints the resolution at which a sheet has these sides; fails where none has, or several differ.
resolution_of() {
  only=
  for paper in $papers; do
    for way in '' -landscape; do
      found=$(sides "$paper$way")
      dots=$((($1 * 2540 + ${found% *} / 2) / ${found% *}))
      [ "$dots" -ge 1 ] || continue
      off=$((((${found% *} * dots + 1270) / 2540) - $1))
      case $off in 0 | 1) ;; *) continue ;; esac
      [ $(((${found#* } * dots + 1270) / 2540)) -eq "$2" ] || continue
      [ -z "$only" ] || [ "$only" = "$dots" ] || return 1
      only=$dots
    done
  done
  [ -n "$only" ] && echo "$only"
}

# read_options OPTION ..: judges options of dvipbm and --paper NAME. Sets $res, the dots to the inch, and $given, the options for dvipbm.
read_options() {
  res=300 paper='' sized='' given=''
  while [ $# -gt 0 ]; do
    case $1 in
    --tolerant | --trace | --summary)
      given="$given $1"
      shift
      continue
      ;;
    --*=*) word=${1%%=*} value=${1#*=} ;;
    --*)
      [ $# -ge 2 ] || fail 64 "$1: it needs a value"
      word=$1 value=$2
      shift
      ;;
    *) fail 64 "$1: not an option; dvipbm's and --paper NAME are" ;;
    esac
    shift
    case $word in
    --paper)
      paper=$value
      continue
      ;;
    --width | --height) sized=yes ;;
    --res | --left | --top | --workers | --cache) ;;
    *) fail 64 "$word: there is no such option" ;;
    esac
    case $value in '' | *[!0-9]* | ????????*) fail 64 "$word $value: not a whole number of at most seven digits" ;; esac
    if [ "$word" = --res ]; then res=$value; fi
    given="$given $word $value"
  done
  while [ "${res#0}" != "$res" ]; do res=${res#0}; done
  [ "${res:-0}" -ge 1 ] && [ "$res" -le 4800 ] || fail 64 "--res ${res:-0}: dvipbm takes 1 to 4800 dots to the inch"
  [ -n "$paper" ] || return 0
  [ -z "$sized" ] || fail 64 "--paper names the sheet: no --width or --height with it"
  given="$given $(sheet_options "$paper" "$res")" || exit 64
}

# resolution OPTION ..: prints the dots to the inch that these options of dvipbm ask for.
resolution() {
  read_options "$@"
  echo "$res"
}

# take_documents USAGE [OPTION ..] FONTS DOCUMENT.dvi ..: collects the fonts of all documents in the folder $fonts, and leaves in
# $room/documents, for GNU parallel, the options and the name of each, a zero byte after each of them. $before is how many arguments
# stand before the documents; $status is 1 where fonts are missing or a document is refused, which has its line.
take_documents() {
  text=$1 before=0 words=''
  shift
  while [ $# -gt 0 ]; do
    case $1 in
    --tolerant | --trace | --summary | --*=*) taken=1 ;;
    --*) taken=2 ;;
    *) break ;;
    esac
    [ $# -ge "$taken" ] || fail 64 "$1: it needs a value"
    before=$((before + taken))
    while [ "$taken" -gt 0 ]; do
      case $1 in *[!a-z0-9=-]*) fail 64 "$1: this can't be in an option" ;; esac
      words="$words $1" taken=$((taken - 1))
      shift
    done
  done
  [ $# -ge 2 ] || usage "$text"
  read_options $words
  fonts=$1 before=$((before + 1)) status=0
  shift
  need parallel parallel
  need python3 python3
  room=$(mktemp -d) || fail 73 "no temporary folder can be made"
  "$top/tools/collect-fonts" "$@" "$res" "$fonts" >&2 || status=$?
  case $status in
  0) ;;
  [12] | 66) status=1 ;;
  *) exit "$status" ;;
  esac
  DVIPBM_FONTS=$fonts "$here/losses" --null $given -- "$@" >"$room/documents"
}

# pages_of DOCUMENT: prints the name of a document's pages.
pages_of() {
  case ${1##*/} in
  *.*) echo "${1%.*}.pbm" ;;
  *) echo "$1.pbm" ;;
  esac
}

# split_pages PAGES.pbm: leaves the pages of a PBM file in $room as 0.pbm, 1.pbm and so on, and sets $count, how many there are.
split_pages() {
  need pamsplit netpbm
  readable "$1"
  [ "$(head -c 2 "$1")" = P4 ] || fail 65 "$1: not a PBM file as dvipbm writes it"
  pamsplit -quiet "$1" "$room/%d.pbm" || fail 65 "$1: not a whole PBM file"
  count=0
  while [ -f "$room/$count.pbm" ]; do count=$((count + 1)); done
}

# sheets PAGES.pbm ROOM DEVICE OUT [RES [OPTION ..]]: gives drawn pages to a device of Ghostscript, each on a sheet of its size at RES
# dots to the inch, all of the first one's; where RES is empty it is that of the sheet. In ROOM they lie meanwhile; before.ps there
# is read before them.
sheets() {
  pages=$1 room=$2 device=$3 out=$4 res=${5:-}
  shift 4
  [ $# -eq 0 ] || shift
  need pamsplit netpbm
  need pnmtops netpbm
  need gs ghostscript
  split_pages "$pages"
  size=$(head -n 2 "$room/0.pbm" | tail -n 1)
  wide=${size% *} high=${size#* }
  [ -n "$res" ] || res=$(resolution_of "$wide" "$high") ||
    fail 64 "$pages: pages of $wide by $high dots are no sheet that has a name; give their dots to the inch after $out"
  case $res in 0* | *[!0-9]* | ?????*) fail 64 "$res: no number of dots to the inch" ;; esac
  number=0
  if [ -f "$room/before.ps" ]; then echo before.ps >"$room/list"; fi
  while [ "$number" -lt "$count" ]; do
    pnmtops -quiet -dpi="$res" -equalpixels -noturn -nocenter "$room/$number.pbm" >"$room/$number.ps" ||
      fail 70 "$pages: pnmtops failed at page $((number + 1))"
    rm "$room/$number.pbm"
    echo "$number.ps" >>"$room/list"
    number=$((number + 1))
  done
  # (cups is the only device whose dots are those of the pages)
  if [ "$device" = cups ]; then set -- "-r$res" "$@"; fi
  points=$(awk "BEGIN { print \"-dDEVICEWIDTHPOINTS=\" $wide * 72 / $res, \"-dDEVICEHEIGHTPOINTS=\" $high * 72 / $res }")
  # (from within the folder, as Ghostscript reads % in the name of its output)
  (cd "$room" && gs -q -dBATCH -dNOPAUSE -sDEVICE="$device" $points -dFIXEDMEDIA "$@" -sOutputFile=out @list \
    </dev/null) >"$room/said" 2>&1 || {
    cat "$room/said" >&2
    fail 70 "$pages: gs failed"
  }
  mv -f "$room/out" "$out" || fail 73 "$out: it can't be written"
}
