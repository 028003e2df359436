printf '* TODO Call\nAnn\n* TODO Call\nBob\n* TODO Call\nCid\n' > e.org
sed -i s/Bob/Bobby/ e.org
