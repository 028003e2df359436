printf '' > a.org
