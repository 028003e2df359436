printf '#+TODO: TODO WAIT(w@/!) | DONE\n* TODO a\nkept\n' > a.org
