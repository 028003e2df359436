printf '* a\n:PROPERTIES:\n:LOG_INTO_DRAWER: t\n:END:\n:LOGBOOK:\n- older\n:END:\nb\n' > a.org
