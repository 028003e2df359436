printf '* One\r\nbody\r\n' > a.org
