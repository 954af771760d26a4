#!/bin/sh
# Runs mcf, or mcf-wide, as this script is called in a release, with the words given, in the folder of the caller; a link to it serves too.
# Help, version and hints come from python/mcf/hints.
script=$(readlink -f "$0")
here=$(cd "$(dirname "$script")" && pwd) || exit 7
name=$(basename "$script")
program=$here/program/$name
. "$here/python/mcf/hints/starter.sh"
answer_help "$@"
run_program "$@"
