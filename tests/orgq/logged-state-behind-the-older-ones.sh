printf '#+TODO: TODO(!) | DONE\n#+STARTUP: nologstatesreversed\n* DONE a\n- State "DONE"       from "TODO"       [2024-02-20 Tue 09:00]\n\nkept\n' > a.org
