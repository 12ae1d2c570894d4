#!/bin/sh
# Installs Debian packages; where that fails, as where apt has no lists yet, the lists are fetched first.
#
#   install.sh PACKAGE..
set -eu
{ apt-get install -y -qq "$@" || { apt-get update -qq && apt-get install -y -qq "$@"; }; } >&2
