exec < home.org
