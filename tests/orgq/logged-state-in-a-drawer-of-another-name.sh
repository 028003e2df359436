printf ':PROPERTIES:\n:LOG_INTO_DRAWER: NOTES\n:END:\n#+TODO: TODO WAIT(w@/!) | DONE\n* a\n** TODO b\n' > a.org
