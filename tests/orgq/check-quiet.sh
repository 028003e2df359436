cp "$here/check/kinds.org" "$here/check/other.org" .
