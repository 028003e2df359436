printf '#+TODO: TODO WAIT(w@/!) | DONE\n* TODO a\n\nkept\n' > a.org
