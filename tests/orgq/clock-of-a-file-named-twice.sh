ln -s work.org link.org
mkdir a
ln -s ../work.org a/b.org
