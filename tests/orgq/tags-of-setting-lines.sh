printf '#+FILETAGS: :f:g:\n* x :a:\n** y :b:a:\n' > tagged.org
