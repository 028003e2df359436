printf '#+STARTUP: lognotedone\n* TODO a\n\nkept\n' > a.org
