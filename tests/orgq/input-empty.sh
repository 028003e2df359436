exec < /dev/null
