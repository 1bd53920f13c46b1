#!/usr/bin/env bash
# Packs rows without the header's line, for a step that speaks text: one line of base64 comes out.
set -euo pipefail
{
  echo depth,kind,id,precision,polyline
  cat
} | polytwkb pack "$@" | base64 -w 0
echo
