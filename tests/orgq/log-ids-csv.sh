cat > a.org << 'EOF'
* TODO Buy bulbs :home:
body budget
* DONE Call
CLOSED: [2024-02-27 Tue 10:00]
** TODO x budget
EOF
