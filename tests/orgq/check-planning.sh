cp "$here/check/planning.org" .
