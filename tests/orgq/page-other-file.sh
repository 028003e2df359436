echo 'My own notes' > notes.txt
