#!/usr/bin/env bash
# The words set-up and answer of ./desk around the program in STAND_IN_PROGRAM; STAND_IN=no_lock: without the lock, and so on.
set -u
wrong=${STAND_IN-}
fail() { printf 'desk: %s\n' "$*" >&2; exit 1; }

take_lock() {
  [ "$wrong" != no_lock ] || return 0
  { exec 9>> "$1.lock"; } 2> /dev/null || fail "the lock can't be made: $1.lock"
  flock -w 2 9 || fail "another process has the register: $1"
}

# what the program says on standard error gives 1
run() {
  local said status
  {
    if [ "$wrong" = outlives ]; then
      said=$("$STAND_IN_PROGRAM" "$@" 2>&1 >&3)
    else
      said=$(exec setpriv --pdeathsig KILL "$STAND_IN_PROGRAM" "$@" 2>&1 >&3)
    fi
  } 3>&1
  status=$?
  [ -z "$said" ] || printf '%s\n' "$said" >&2
  [ "$status" -ne 0 ] || [ -z "$said" ] || [ "$wrong" = no_status ] || status=1
  return "$status"
}

open_file() {
  [ "$1" != - ] || return 0
  if [ ! -f "$1" ] || [ ! -r "$1" ]; then fail "can't be read: $1"; fi
  exec < "$1"
}

case $1 in
  set-up)
    open_file "$2"
    [ -n "$3" ] || fail 'the register has no name'
    take_lock "$3"
    run set-up "$3"
    ;;
  answer)
    [ -f "$2" ] || fail "no such register: $2"
    open_file "${3:--}"
    real=$(readlink -f "$2")
    take_lock "$real"
    [ "$wrong" != replaces_link ] || real=$2
    run answer "$real"
    ;;
  *) fail "no such word: $1" ;;
esac
