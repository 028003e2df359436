cp "$here/check/near.org" .
