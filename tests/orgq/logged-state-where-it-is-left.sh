printf '#+TODO: TODO WAIT(w@/!) | DONE\n* WAIT a\n- kept\n' > a.org
