. "$here/orgq/day-80.sh"
