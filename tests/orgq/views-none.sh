export XDG_CONFIG_HOME=conf HOME=/home/ann
