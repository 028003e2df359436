;;; org-views-files.el --- Org files in step with the engine  -*- lexical-binding: t; -*-

;; SPDX-License-Identifier: Apache-2.0 OR MIT

;;; Commentary:

;; What the engine gets is the text as Emacs has it: whatever the encoding
;; and the line ends of a file are, the engine's text is UTF-8 with line
;; feeds.  A buffer that visits a file is followed, saved or not; a file that
;; no buffer visits is read when it changed on disk.  A file without a
;; `#+TODO' line has your own keywords, those of `org-todo-keywords'.
;;
;; Each change is sent as one edit, and what was sent is remembered, so that
;; a place in an older text can be followed into the present one.

;;; Code:

(require 'cl-lib)
(require 'seq)
(require 'subr-x)
(require 'org-views-engine)

(defvar org-agenda-files)
(defvar org-directory)
(defvar org-done-keywords)
(defvar org-todo-keywords)
(defvar org-todo-sets)
(declare-function org-agenda-files "org" (&optional unrestricted archives))
(declare-function org-read-agenda-file-list "org" (&optional pair-with-expansion))

(defcustom org-views-files #'org-views-agenda-files
  "The files to ask about, in their order, or a function that gives them.
A folder stands for its files that end in `.org', not for those below it."
  :type '(choice (function :tag "Function")
                 (repeat :tag "Files and folders" file))
  :group 'org-views)

(defcustom org-views-inherit nil
  "Names of properties whose values headings inherit in match expressions."
  :type '(repeat string)
  :group 'org-views)

(defconst org-views--session 1
  "The session by which this client edits.")

(defconst org-views--most-bytes 67108864
  "How many bytes a text may have in the engine.")

(defconst org-views--most-files 256
  "How many files the engine takes.")

(defconst org-views--most-edits 1000
  "How many edits of a text are remembered.")

(defconst org-views--many-files 10
  "How many files have to be read for progress to be told.")

(defvar org-views--busy nil
  "Whether the engine is being brought in step right now.")

(defvar org-views--idle nil
  "Whether that is done in idle time, and not for a command.")

(defvar org-views--files nil
  "The files that the engine has, in its order.")

(defvar org-views--left-out nil
  "Notices of files that the engine hasn't got.")

(defvar org-views--serial 0
  "The serial that the engine has, as far as this client knows.")

(defvar org-views--inherited nil
  "The value of `org-views-inherit' that the engine was given, in a list.")

(defvar org-views--moment nil
  "The moment that the engine was given last.")

(defvar org-views--change-hook nil
  "Functions that are called where a followed text has changed.")

(defvar org-views--truenames (make-hash-table :test #'equal)
  "The truenames of paths, abbreviated; found anew for each command.")

(defvar org-views--user-tail nil
  "The tail of files without a buffer, when they were read last.")

(cl-defstruct (org-views--file (:constructor org-views--make-file)
                               (:copier nil))
  "A file in the engine.
HEAD and FOOT are how many bytes at the text's front and end are as the
engine has them; both nil where the whole text is."
  name                         ; in the engine
  path
  true                         ; the truename, abbreviated
  serial                       ; of the engine's text, as seen last
  (bytes 0)                    ; of the engine's text, without the tail
  (tail "")                    ; what the engine has after the text
  buffer                       ; the one that is followed, or nil
  stamp                        ; of a file without buffer, as it was read
  hash
  (head 0) (foot 0)
  tick                         ; of the buffer after the last change told
  own                          ; see `org-views--own'
  keywords                     ; as they were told last, lists with a bar in each
  keywords-of                  ; the serial of the text of which they were asked
  edits                        ; see `org-views--byte-now', the latest first
  trouble                      ; why the engine's text isn't the file's
  disk                         ; why the buffer's text isn't the file's
  conflict)                    ; whether another session changed the text

;;;; Texts

(defmacro org-views--with-whole-text (&rest body)
  "Do BODY in the whole buffer, and keep point, narrowing and match data."
  (declare (indent 0) (debug t))
  `(save-excursion (save-restriction (widen) (save-match-data ,@body))))

(defun org-views--size ()
  "How many bytes the current buffer has, which is widened."
  (1- (position-bytes (point-max))))

(defun org-views--plain (text raw)
  "TEXT as UTF-8, where `?' stands for what is no Unicode.
For such a character these are as many as Emacs has bytes for it, or RAW for
a raw byte, so that places stay what they are."
  (encode-coding-string
   (replace-regexp-in-string
    "[^\0-\ud7ff\ue000-\U0010ffff]"
    (lambda (it)
      (make-string (if (eq (char-charset (aref it 0)) 'eight-bit) raw (string-bytes it)) ??))
    text t t)
   'utf-8-unix))

(defun org-views--bytes (beg end)
  "The current buffer's text from BEG to END as UTF-8."
  (let ((text (buffer-substring-no-properties beg end)))
    (if enable-multibyte-characters
        (if (save-excursion
              (goto-char beg)
              (skip-chars-forward "\0-\ud7ff\ue000-\U0010ffff" end)
              (= (point) end))
            (encode-coding-string text 'utf-8-unix)
          (org-views--plain text 2))
      (org-views--plain (decode-coding-string text 'utf-8-unix) 1))))

(defconst org-views--keyword-line
  "^[ \t\r]*#\\+\\(?:seq_\\|typ_\\)?todo:"
  "The front of a line that may name keywords, in any letter case.")

(defun org-views--search-keyword-line (&optional bound)
  "Search up to BOUND for a line that names a keyword, and give its start.
Point is left within that line.  A bar alone is no keyword."
  (let ((case-fold-search t) start)
    (while (and (not start)
                (re-search-forward org-views--keyword-line bound t))
      (let ((line (match-beginning 0)))
        (skip-chars-forward "| \t\r")
        (when (or (not (eolp)) (save-excursion (search-backward "||" line t)))
          (setq start line))))
    start))

(defun org-views--blocks (beg end)
  "The blocks between BEG and END, a section, as a list of (START . STOP).
A block ends at the next line of its section that ends its name; where there
is none, there is no block."
  (let ((stops (make-hash-table :test #'equal)) blocks)
    (goto-char end)
    (while (re-search-backward "^[ \t\r]*#\\+end_\\([^ \t\r\n]+\\)[ \t\r]*$" beg t)
      (push (point) (gethash (downcase (match-string-no-properties 1)) stops)))
    (goto-char beg)
    (while (re-search-forward "^[ \t\r]*#\\+begin_\\([^ \t\r\n]+\\)" end t)
      (let* ((start (match-beginning 0))
             (name (downcase (match-string-no-properties 1)))
             (left (gethash name stops)))
        (while (and left (< (car left) start)) (pop left))
        (puthash name left stops)
        (when left
          (push (cons start (car left)) blocks)
          (goto-char (car left)))))
    (nreverse blocks)))

(defun org-views--find-own ()
  "What the current buffer, which is widened, has of lines that name keywords.
See `org-views--own'."
  (let ((case-fold-search t) (section-end 0) section-start blocks own line)
    (goto-char (point-min))
    (while (and (not (consp own)) (setq line (org-views--search-keyword-line)))
      (let ((line-end (line-end-position)))
        (when (>= line section-end)
          (goto-char line-end)
          (setq section-end (if (re-search-forward "^\\*+ " nil t)
                                (match-beginning 0)
                              (1+ (point-max))))
          (goto-char line)
          (setq section-start (if (re-search-backward "^\\*+ " nil t)
                                  (point)
                                (point-min))
                blocks (org-views--blocks section-start (min section-end (point-max)))))
        (while (and blocks (< (cdar blocks) line)) (pop blocks))
        (if (and blocks (< (caar blocks) line))
            (setq own 'blocked)
          (setq own (cons (1- (position-bytes section-start))
                          (if (> section-end (point-max))
                              (1+ (org-views--size))
                            (goto-char section-end)
                            (skip-chars-forward "*")
                            (position-bytes (point))))))
        (goto-char line-end)))
    (or own 'none)))

(defun org-views--new-keyword-line-p (head foot)
  "Whether a line that was changed names keywords.
HEAD and FOOT are how many bytes before and after it are as they were."
  (save-excursion
    (goto-char (byte-to-position (1+ (- (org-views--size) foot))))
    (let ((end (line-end-position)))
      (goto-char (byte-to-position (1+ head)))
      (forward-line 0)
      (org-views--search-keyword-line end))))

(defun org-views--own (file)
  "Whether the current buffer, the text of FILE, names keywords of its own.
If it does, (BEG . END): while these bytes stay as they are, it does.  `none'
if no line names any, so that a change can bring one about in its own lines
alone, and `blocked' if such lines stand in blocks alone, where they don't
count."
  (let* ((own (org-views--file-own file))
         (head (org-views--file-head file))
         (foot (org-views--file-foot file))
         (old (org-views--file-bytes file))
         (size (org-views--size)))
    (cond
     ((and own (not head)) own)
     ((and (consp own) (>= head (cdr own))) own)
     ((and (consp own) (> foot (- old (car own))))
      (cons (+ (car own) (- size old)) (+ (cdr own) (- size old))))
     ((and (eq own 'none) (not (org-views--new-keyword-line-p head foot)))
      own)
     (t (org-views--find-own)))))

(defun org-views--sequences ()
  "The keywords of a text that names none, as lists with a bar in each.
In an Org buffer they are those that Org has there."
  (if (and (derived-mode-p 'org-mode) org-todo-sets)
      (mapcar (lambda (set)
                (let ((done (lambda (word) (member word org-done-keywords))))
                  (append (seq-remove done set) '("|") (seq-filter done set))))
              org-todo-sets)
    (let ((value (and (boundp 'org-todo-keywords)
                      (default-value 'org-todo-keywords))))
      (mapcar (lambda (sequence)
                (let ((words (mapcar (lambda (word)
                                       (replace-regexp-in-string "(.*\\'" "" word))
                                     (seq-filter #'stringp sequence))))
                  (if (member "|" words) words
                    (append (butlast words) '("|") (last words)))))
              (if (stringp (car value)) (list value) value)))))

(defun org-views--ask-keywords ()
  "Ask which keywords the files have whose texts changed.
Nothing waits for the replies: they are here before that of a later command."
  (dolist (file org-views--files)
    (unless (eql (org-views--file-keywords-of file) (org-views--file-serial file))
      (setf (org-views--file-keywords-of file) (org-views--file-serial file))
      (org-views--send
       (concat "keywords " (org-views--file-name file)) nil
       (lambda (reply)
         (pcase reply
           (`(view ,bytes)
            (setf (org-views--file-keywords file)
                  (mapcar (lambda (line) (split-string line " " t))
                          (org-views--lines bytes))))))))))

(defun org-views--tail-of (sequences)
  "Setting lines that name the keywords SEQUENCES, as UTF-8."
  (if (equal sequences '(("TODO" "|" "DONE")))
      ""
    (org-views--plain
     (mapconcat (lambda (words) (concat "\n#+TODO: " (string-join words " ")))
                (seq-filter (lambda (words) (cdr words)) sequences)
                "")
     2)))

(defun org-views--note-refusal (file reply)
  "Note of FILE that the engine refused an edit with REPLY."
  (org-views--forget-text file)
  (pcase reply
    ((or `(err 11 . ,_) `(err 4 . ,_))
     (setf (org-views--file-conflict file) t))
    (_ (setf (org-views--file-trouble file)
             (format "refused (%s)" (string-join (cddr reply) " "))))))

(defun org-views--note-serial (serial)
  "Note that the engine answered a change of this client by SERIAL.
If it isn't the next one, another session was there between: then the next
look for others finds another serial than the one that is noted."
  (setq org-views--serial (if (= serial (1+ org-views--serial)) serial -1)))

(defun org-views--note-edit (file serial at del len)
  "Remember of FILE that SERIAL came by an edit: DEL bytes from AT became LEN."
  (let ((edits (cons (list (org-views--file-serial file) serial at del len)
                     (org-views--file-edits file))))
    (setf (org-views--file-edits file)
          (if (nthcdr (* 2 org-views--most-edits) edits)
              (seq-take edits org-views--most-edits)
            edits))))

(defun org-views--byte-now (file serial byte)
  "Where BYTE of the text that FILE had with SERIAL is now, as (BYTE . SAME).
SAME is how many bytes from there on are what they were then; nil means all.
The value is nil where the byte itself was replaced, and where what happened
since isn't known."
  (let ((rest (org-views--file-edits file))
        (wanted (org-views--file-serial file))
        edits same)
    (while (and rest (not (= wanted serial)) (= wanted (nth 1 (car rest))))
      (push (pop rest) edits)
      (setq wanted (caar edits)))
    (when (= wanted serial)
      (while (and byte edits)
        (pcase-let ((`(,_ ,_ ,at ,del ,len) (pop edits)))
          (setq byte (cond ((<= (+ at del) byte) (+ byte (- len del)))
                           ((> at byte)
                            (setq same (min (- at byte) (or same (- at byte))))
                            byte)))))
      (and byte (cons byte same)))))

(defun org-views--edit (file at del payload bytes tail own)
  "In FILE replace DEL bytes from AT on by PAYLOAD.
The text has BYTES then, TAIL after them, and OWN lines of keywords."
  (setf (org-views--file-bytes file) bytes
        (org-views--file-tail file) tail
        (org-views--file-own file) own
        (org-views--file-head file) nil
        (org-views--file-foot file) nil)
  (org-views--ask
   (format "edit %d %s %d %d %d %d" org-views--session (org-views--file-name file)
           (org-views--file-serial file) at del (length payload))
   payload
   (lambda (reply)
     (pcase reply
       (`(ok ,serial)
        (org-views--note-edit file serial at del (length payload))
        (setf (org-views--file-serial file) serial)
        (org-views--note-serial serial))
       (`(gone . ,_))
       (_ (org-views--note-refusal file reply))))))

(defun org-views--put (file)
  "Bring the engine's text of FILE in step with the current buffer.
By one edit, whose reply is given; by none where it is in step already."
  (org-views--with-whole-text
    (let* ((size (org-views--size))
           (own (org-views--own file))
           (old-tail (org-views--file-tail file))
           (tail (if (consp own) ""
                   (org-views--tail-of (org-views--sequences))))
           (all (+ (org-views--file-bytes file) (length old-tail)))
           (head (or (org-views--file-head file) size))
           (foot (or (org-views--file-foot file) 0)))
      (cond
       ((> (+ size (length tail)) org-views--most-bytes)
        (setf (org-views--file-trouble file) "over 64 MiB")
        (prog1 (unless (zerop all) (org-views--edit file 0 all "" 0 "" nil))
          ;; The engine's text is none of this buffer's.
          (setf (org-views--file-head file) 0
                (org-views--file-foot file) 0)))
       ((and (null (org-views--file-head file)) (equal tail old-tail))
        (setf (org-views--file-own file) own)
        nil)
       (t
        (unless enable-multibyte-characters (setq head 0 foot 0))
        (let* ((same (equal tail old-tail))
               (end (if same (byte-to-position (1+ (- size foot))) (point-max)))
               (text (org-views--bytes (byte-to-position (1+ head)) end)))
          (org-views--edit file head
                           (- all head (if same (+ foot (length old-tail)) 0))
                           (if same text (concat text tail))
                           size tail own)))))))

(defun org-views--look-at-disk (file)
  "Have the buffer of FILE, the current one, take what the file has on disk.
That is for a command, and for a buffer that isn't modified; else why the
texts differ is noted of FILE."
  (unless (and org-views--idle (file-remote-p buffer-file-name))
    (setf (org-views--file-disk file)
          (cond
           ((verify-visited-file-modtime) nil)
           ((not (file-readable-p buffer-file-name)) "gone from the disk; its buffer is shown")
           ((buffer-modified-p) "changed on disk, and its buffer isn't saved")
           (org-views--idle "changed on disk; g takes it")
           (t (condition-case fault
                  (progn (revert-buffer t t t) nil)
                (error (format "changed on disk, and not taken (%s)"
                               (error-message-string fault)))))))))

(defun org-views--settle-buffer (file)
  "Bring the engine's text of FILE in step with its buffer."
  (with-current-buffer (org-views--file-buffer file)
    (org-views--look-at-disk file)
    (org-views--hook)
    (let ((tick (buffer-chars-modified-tick))
          (size (org-views--with-whole-text (org-views--size))))
      ;; A change that no hook told: the buffer's tick is another one, or the
      ;; engine's text has another length.
      (unless (and (eql tick (org-views--file-tick file))
                   (or (org-views--file-head file)
                       (= size (org-views--file-bytes file))))
        (setf (org-views--file-head file) 0
              (org-views--file-foot file) 0
              (org-views--file-tick file) tick)))
    (setf (org-views--file-trouble file) nil)
    (org-views--put file)))

(defun org-views--disk-stamp (path)
  "What is another thing once the file at PATH is another one, or nil."
  (let ((it (file-attributes path)))
    (and it (list (file-attribute-modification-time it)
                  (file-attribute-status-change-time it)
                  (file-attribute-size it)
                  (file-attribute-inode-number it)))))

(defun org-views--read (path)
  "Insert the file at PATH as Emacs would visit it; say what is in the way.
That is a string, or nil if nothing is."
  (cond
   ((not (file-exists-p path)) "no such file")
   ((not (file-regular-p path)) "no regular file")
   ((not (file-readable-p path)) "not readable")
   ((string-match-p "\\.gpg\\'" path) "encrypted; it is followed once you visit it")
   ((> (or (file-attribute-size (file-attributes path)) 0) org-views--most-bytes)
    "over 64 MiB")
   (t (condition-case fault
          (progn (insert-file-contents path) nil)
        (error (erase-buffer)
               (format "not readable (%s)" (error-message-string fault)))))))

(defun org-views--settle-disk (file)
  "Bring the engine's text of FILE, which no buffer visits, in step with it."
  (let* ((path (org-views--file-path file))
         (old (org-views--file-stamp file))
         ;; Other machines aren't asked while Emacs is idle.
         (stamp (if (and old org-views--idle (file-remote-p path)) old
                  (org-views--disk-stamp path))))
    (unless (and stamp (equal stamp old))
      (with-temp-buffer
        (let ((trouble (org-views--read path))
              (hash (list (buffer-hash) (org-views--tail-of (org-views--sequences)))))
          (setf (org-views--file-stamp file) stamp
                (org-views--file-trouble file) trouble)
          (unless (equal hash (org-views--file-hash file))
            (setf (org-views--file-hash file) hash
                  (org-views--file-own file) nil
                  (org-views--file-head file) 0
                  (org-views--file-foot file) 0)
            (org-views--put file)))))))

(defun org-views--settle-once (file)
  "Bring the engine's text of FILE in step, unless another session changed it."
  (unless (org-views--file-conflict file)
    (if (org-views--file-buffer file)
        (org-views--settle-buffer file)
      (org-views--settle-disk file))))

(defun org-views--settle (file)
  "Bring the engine's text of FILE in step.
Where the engine refuses an edit and another session isn't the reason, its
text isn't what this client thought: its length is asked, and the whole text
is sent."
  (pcase (org-views--settle-once file)
    (`(err . ,_)
     (pcase (and (not (org-views--file-conflict file))
                 (org-views--ask (concat "text " (org-views--file-name file))))
       (`(view ,text)
        (setf (org-views--file-bytes file) (length text)
              (org-views--file-tail file) "")
        (org-views--settle-once file))))))

;;;; Buffers that are followed

(defvar-local org-views--file nil
  "The engine's file whose text this buffer is.")
(put 'org-views--file 'permanent-local t)

(defun org-views--before-change (_beg _end)
  "Note a change before this one that was not told."
  (let ((file org-views--file))
    (when (and file (not (eql (buffer-chars-modified-tick)
                              (org-views--file-tick file))))
      (setf (org-views--file-head file) 0
            (org-views--file-foot file) 0))))

(defun org-views--after-change (beg end _old)
  "Note that the text from BEG to END is new."
  (let ((file org-views--file) (tick (buffer-chars-modified-tick)))
    (when (and file (not (eql tick (org-views--file-tick file))))
      (setf (org-views--file-tick file) tick)
      (save-restriction
        (widen)
        (let ((head (1- (position-bytes beg)))
              (foot (- (position-bytes (point-max)) (position-bytes end))))
          (setf (org-views--file-head file)
                (min head (or (org-views--file-head file) head))
                (org-views--file-foot file)
                (min foot (or (org-views--file-foot file) foot)))))
      (run-hooks 'org-views--change-hook))))

(defun org-views--note-kill ()
  "Follow the current buffer no longer, since it is killed."
  (let ((file org-views--file))
    (when (and file (eq (current-buffer) (org-views--file-buffer file)))
      (org-views--unfollow file)
      (run-hooks 'org-views--change-hook))))

(dolist (hook '(org-views--before-change org-views--after-change org-views--note-kill))
  (put hook 'permanent-local-hook t))

(defun org-views--hook ()
  "Have hooks told of each change of the current buffer."
  (unless (and (memq #'org-views--after-change after-change-functions)
               (memq #'org-views--before-change before-change-functions))
    (add-hook 'before-change-functions #'org-views--before-change nil t)
    (add-hook 'after-change-functions #'org-views--after-change nil t)
    (add-hook 'kill-buffer-hook #'org-views--note-kill nil t)))

(defun org-views--forget-text (file)
  "Note of FILE that its text has to be read anew."
  (setf (org-views--file-stamp file) nil
        (org-views--file-hash file) nil
        (org-views--file-own file) nil
        (org-views--file-head file) 0
        (org-views--file-foot file) 0))

(defun org-views--follow (file buffer)
  "Take the text of FILE from BUFFER.
It isn't sent where it is what was read from disk."
  (let ((same (equal (car (org-views--file-hash file)) (buffer-hash buffer))))
    (org-views--forget-text file)
    (when same
      (setf (org-views--file-head file) nil
            (org-views--file-foot file) nil)))
  (setf (org-views--file-buffer file) buffer)
  (with-current-buffer buffer
    (setq org-views--file file)
    (setf (org-views--file-tick file) (buffer-chars-modified-tick))
    (org-views--hook)))

(defun org-views--unfollow (file)
  "Take the text of FILE from no buffer any more."
  (let ((buffer (org-views--file-buffer file)))
    (when (buffer-live-p buffer)
      (with-current-buffer buffer
        (remove-hook 'before-change-functions #'org-views--before-change t)
        (remove-hook 'after-change-functions #'org-views--after-change t)
        (remove-hook 'kill-buffer-hook #'org-views--note-kill t)
        (kill-local-variable 'org-views--file)))
    (setf (org-views--file-buffer file) nil
          (org-views--file-disk file) nil)
    (org-views--forget-text file)))

(defun org-views--note-visit ()
  "Follow the current buffer if it has come to visit one of the engine's files."
  (let* ((true (and buffer-file-truename (abbreviate-file-name buffer-file-truename)))
         (file (and true (cl-find true org-views--files
                                  :key #'org-views--file-true :test #'equal))))
    (when (and file (not (org-views--file-buffer file)))
      (org-views--follow file (current-buffer))
      (run-hooks 'org-views--change-hook))))

(defun org-views--visiting ()
  "A table from truenames to the buffers that visit them."
  (let ((table (make-hash-table :test #'equal)))
    (dolist (buffer (buffer-list) table)
      (let ((true (buffer-local-value 'buffer-file-truename buffer)))
        (when (and true (buffer-local-value 'buffer-file-name buffer))
          (puthash (abbreviate-file-name true) buffer table))))))

;;;; Files

(defun org-views-agenda-files ()
  "The files of `org-agenda-files'."
  (require 'org)
  (condition-case nil
      (org-agenda-files t)
    ;; A folder that can't be read is told of as such, among the others.
    (error (if (stringp org-agenda-files)
               (org-read-agenda-file-list)
             org-agenda-files))))

(defun org-views--name (path)
  "The engine's name of PATH.
A space becomes a no-break space, and what may not stand in a name a
percent sign and its number; at most the last 255 bytes are kept."
  (let* ((name (replace-regexp-in-string
                "[\0-\x1f\x7f]\\|[^\0-\ud7ff\ue000-\U0010ffff]"
                (lambda (it)
                  (let ((code (aref it 0)))
                    ;; A raw byte is 3FFF00 and the byte in Emacs.
                    (format "%%%02X" (if (> code #x3fff7f) (- code #x3fff00) code))))
                (string-replace " " "\u00a0" (abbreviate-file-name path)) t t))
         (bytes (encode-coding-string name 'utf-8-unix))
         (start (max 0 (- (length bytes) 255))))
    (while (= (logand (aref bytes start) #xc0) #x80) (cl-incf start))
    (decode-coding-string (substring bytes start) 'utf-8-unix)))

(defun org-views--free-name (path names)
  "A name for PATH that isn't in the table NAMES, and is from now on."
  (let* ((name (org-views--name path)) (free name) (k 1))
    (while (gethash free names)
      (setq k (1+ k)
            free (format "%d:%s" k (if (< (string-bytes name) 240) name
                                     (substring name (/ (length name) 2))))))
    (puthash free t names)
    free))

(defun org-views--add (path true names)
  "Add the file at PATH, of the truename TRUE, to the engine's, without text.
NAMES is a table of the names that are taken."
  (let ((name (org-views--free-name path names)))
    (org-views--ask
     (format "add %s 0" name) nil
     (lambda (reply)
       (pcase reply
         (`(ok ,serial)
          (org-views--note-serial serial)
          (setq org-views--files
                (nconc org-views--files
                       (list (org-views--make-file :name name :path path :true true
                                                   :serial serial)))))
         (`(err . ,words)
          (push (format "%s: refused (%s)" name (nth 1 words)) org-views--left-out)))))))

(defun org-views--drop (file)
  "Drop FILE from the engine's."
  (org-views--unfollow file)
  (org-views--ask
   (concat "drop " (org-views--file-name file)) nil
   (lambda (reply)
     (pcase reply
       (`(ok ,serial) (org-views--note-serial serial)))
     (setq org-views--files (delq file org-views--files)))))

(defun org-views--true (path)
  "The truename of PATH, abbreviated."
  (or (gethash path org-views--truenames)
      (puthash path (abbreviate-file-name (file-truename path)) org-views--truenames)))

(defun org-views--leave-out (path why)
  "Note that the file at PATH isn't asked about, and WHY."
  (push (format "%s: left out, %s" (org-views--name path) why)
        org-views--left-out))

(defun org-views--in-folder (path)
  "The paths for which PATH stands: itself, or a folder's files."
  (if (and (not (file-remote-p path)) (file-directory-p path))
      (directory-files path t "\\`[^.].*\\.org\\'")
    (list path)))

(defun org-views--or-left-out (path find)
  "What the function FIND gives for PATH; nil, with a notice, where it fails."
  (condition-case fault
      (funcall find path)
    (error (org-views--leave-out path (error-message-string fault)) nil)))

(defun org-views--paths ()
  "The paths of the files that are asked about, those of folders too."
  (mapcan (lambda (path)
            (org-views--or-left-out (expand-file-name path org-directory)
                                    #'org-views--in-folder))
          (if (functionp org-views-files)
              (funcall org-views-files)
            org-views-files)))

(defun org-views--wanted-files ()
  "The files that are asked about, as a list of (PATH . TRUENAME).
Each stands once; those over the engine's number are left out."
  (let ((seen (make-hash-table :test #'equal)) (count 0) files)
    (dolist (path (org-views--paths))
      (let ((true (org-views--or-left-out path #'org-views--true)))
        (unless (or (null true) (gethash true seen))
          (puthash true t seen)
          (setq count (1+ count))
          (when (<= count org-views--most-files)
            (push (cons path true) files)))))
    (when (> count org-views--most-files)
      (push (format "%d files over %d" (- count org-views--most-files)
                    org-views--most-files)
            org-views--left-out))
    (when (zerop count)
      (push (if (functionp org-views-files)
                "No files: set `org-agenda-files' or `org-views-files'"
              "No files: set `org-views-files'")
            org-views--left-out))
    (nreverse files)))

(defun org-views--set-files ()
  "Let the engine have the wanted files, in their order.
What another session changed is neither dropped nor moved."
  (setq org-views--left-out nil)
  (let* ((wanted (org-views--wanted-files))
         (trues (make-hash-table :test #'equal))
         (rest nil) (keep nil))
    (dolist (it wanted) (puthash (cdr it) t trues))
    (dolist (file (copy-sequence org-views--files))
      (cond ((org-views--file-conflict file)
             (remhash (org-views--file-true file) trues))
            ((gethash (org-views--file-true file) trues) (push file keep))
            (t (org-views--drop file))))
    (setq keep (nreverse keep)
          rest (seq-filter (lambda (it) (gethash (cdr it) trues)) wanted))
    (while (and keep rest (equal (org-views--file-true (car keep)) (cdar rest)))
      (setf (org-views--file-path (car keep)) (caar rest))
      (pop keep)
      (pop rest))
    ;; From here on the order is another one.
    (mapc #'org-views--drop keep)
    (when rest
      (let ((names (make-hash-table :test #'equal)))
        (dolist (file org-views--files) (puthash (org-views--file-name file) t names))
        (dolist (it rest) (org-views--add (car it) (cdr it) names))))))

;;;; In step

(defun org-views--look-for-others ()
  "Give the engine the moment, and look whether another session changed texts.
The reply is the engine's serial.  Where it isn't the one that this client
left, each text's serial is asked by an edit past the text's end, which
changes nothing: it is refused as `stale' or as out of range."
  (let* ((now (org-views--now))
         (serial (org-views--ask-serial (concat "at " now))))
    (setq org-views--moment now)
    (unless (= serial org-views--serial)
      (dolist (file org-views--files)
        (pcase (org-views--ask
                (format "edit %d %s %d %d 0 0" org-views--session
                        (org-views--file-name file) (org-views--file-serial file)
                        (* 2 org-views--most-bytes)))
          ((or `(err 11 . ,_) `(err 4 . ,_))
           (setf (org-views--file-conflict file) t))))
      (setq org-views--serial serial))))

(defun org-views--settle-safely (file)
  "Bring the engine's text of FILE in step; what is in the way stays its own."
  (condition-case fault
      (org-views--settle file)
    (error
     (unless (org-views--live-p) (signal (car fault) (cdr fault)))
     (org-views--forget-text file)
     (setf (org-views--file-trouble file) (error-message-string fault)))))

(defun org-views--follow-buffers ()
  "Take each file's text from the buffer that visits it, where there is one."
  (let ((buffers (org-views--visiting)))
    (dolist (file org-views--files)
      (let ((buffer (gethash (org-views--file-true file) buffers)))
        (unless (eq buffer (org-views--file-buffer file))
          (when (org-views--file-buffer file) (org-views--unfollow file))
          (when buffer (org-views--follow file buffer)))))))

(defun org-views--forget-user-keywords ()
  "Have the files without a buffer read anew where the user's keywords changed."
  (let ((tail (with-temp-buffer (org-views--tail-of (org-views--sequences)))))
    (unless (equal tail org-views--user-tail)
      (setq org-views--user-tail tail)
      (dolist (file org-views--files) (setf (org-views--file-stamp file) nil)))))

(defun org-views--settle-all ()
  "Bring the engine's texts in step, and tell of progress where many are read."
  (let* ((unread (seq-count (lambda (file)
                              (not (or (org-views--file-stamp file)
                                       (org-views--file-buffer file))))
                            org-views--files))
         (reporter (and (not org-views--idle)
                        (>= unread org-views--many-files)
                        (make-progress-reporter "Reading Org files..."
                                                0 (length org-views--files))))
         (count 0))
    (dolist (file org-views--files)
      (org-views--settle-safely file)
      (when reporter (progress-reporter-update reporter (cl-incf count))))
    (when reporter (progress-reporter-done reporter))))

(defun org-views--inherit ()
  "Tell the engine which properties headings inherit, where that is news."
  (unless (equal org-views--inherited (list org-views-inherit))
    (org-views--ask-serial (string-join (cons "inherit" org-views-inherit) " "))
    (setq org-views--inherited (list org-views-inherit))))

(defun org-views--sync (&optional idle)
  "Bring the engine in step with files and buffers; start it if need be.
IDLE says that it is done in idle time: truenames are those of the last
command then."
  (when org-views--busy (user-error "The engine is being brought in step"))
  (let ((org-views--busy t) (org-views--idle idle))
    (unless (org-views--live-p)
      (require 'org)
      (org-views--start)
      (org-views--ask-version)
      (add-hook 'find-file-hook #'org-views--note-visit))
    (unless idle (clrhash org-views--truenames))
    (org-views--inherit)
    ;; Replies come in order: after this one no edit of a wait that was quit
    ;; is under way.
    (org-views--look-for-others)
    (org-views--set-files)
    (org-views--forget-user-keywords)
    (org-views--follow-buffers)
    (org-views--settle-all)
    (org-views--ask-keywords)))

(defun org-views--forget-files (_why)
  "Follow no buffer any more, since the engine has ended."
  (mapc #'org-views--unfollow org-views--files)
  (remove-hook 'find-file-hook #'org-views--note-visit)
  (setq org-views--files nil
        org-views--left-out nil
        org-views--serial 0
        org-views--inherited nil))

(add-hook 'org-views--end-functions #'org-views--forget-files)

(defun org-views--file-named (name)
  "The engine's file NAME, which may be another session's."
  (or (cl-find name org-views--files :key #'org-views--file-name :test #'equal)
      (user-error "`%s' is no file of this Emacs" name)))

(defun org-views--notices ()
  "What has to be said of files."
  (append
   (delq nil
         (mapcar (lambda (file)
                   (let ((name (org-views--file-name file)))
                     (cond ((org-views--file-conflict file)
                            (format "%s: changed by another session (M-x org-views-resolve)"
                                    name))
                           ((org-views--file-trouble file)
                            (format "%s: left out, %s" name
                                    (org-views--file-trouble file)))
                           ((org-views--file-disk file)
                            (format "%s: %s" name (org-views--file-disk file))))))
                 org-views--files))
   org-views--left-out))

;;;; What is off

(defun org-views--engine-text (file)
  "The engine's text of FILE as a unibyte string, or nil if it has none."
  (pcase (org-views--ask (concat "text " (org-views--file-name file)))
    (`(view ,text) text)))

(defun org-views--own-text (file)
  "What the engine's text of FILE should be, its tail included."
  (concat (if (org-views--file-buffer file)
              (with-current-buffer (org-views--file-buffer file)
                (org-views--with-whole-text (org-views--bytes (point-min) (point-max))))
            (with-temp-buffer
              (org-views--read (org-views--file-path file))
              (org-views--bytes (point-min) (point-max))))
          (org-views--file-tail file)))

;;;###autoload
(defun org-views-status ()
  "List the engine's files, and compare its texts with those of Emacs.
A text that another session didn't change, and that differs, is sent whole."
  (interactive)
  (org-views--sync)
  (let ((rows
         (mapcar
          (lambda (file)
            (let* ((conflict (org-views--file-conflict file))
                   (same (or (org-views--file-trouble file)
                             (equal (org-views--engine-text file)
                                    (org-views--own-text file)))))
              (unless (or same conflict)
                (org-views--forget-text file)
                (org-views--settle file))
              (format "%-10s %9d bytes  %-6s  %s%s\n"
                      (cond (conflict "stale")
                            ((org-views--file-trouble file) "left out")
                            (same "in step")
                            (t "sent anew"))
                      (org-views--file-bytes file)
                      (if (org-views--file-buffer file) "buffer" "disk")
                      (org-views--file-name file)
                      (cond (conflict ": changed by another session (M-x org-views-resolve)")
                            ((or (org-views--file-trouble file) (org-views--file-disk file))
                             (concat ": " (or (org-views--file-trouble file)
                                              (org-views--file-disk file))))
                            (t "")))))
          org-views--files)))
    (with-help-window "*Org Views: status*"
      (princ (format "%s (%s), process %d, serial %d\n\n"
                     (string-join org-views-program " ") org-views--version
                     (process-id org-views--process) org-views--serial))
      (dolist (row rows) (princ row))
      (dolist (it org-views--left-out) (princ (format "left out   %s\n" it))))))

(defun org-views--stale-serial (file)
  "The serial that the engine's text of FILE has, or nil if it has none."
  (pcase (org-views--ask (format "edit %d %s 0 %d 0 0" org-views--session
                                 (org-views--file-name file)
                                 (* 2 org-views--most-bytes)))
    (`(err 11 ,_ ,serial) (string-to-number serial))))

(defun org-views--take (file text serial)
  "Put the engine's TEXT of FILE, of SERIAL, in place of the buffer's.
The change can be undone, and isn't saved."
  (let ((buffer (or (org-views--file-buffer file)
                    (find-file-noselect (org-views--file-path file))))
        (tail (org-views--file-tail file)))
    (with-temp-buffer
      (insert (decode-coding-string (string-remove-suffix tail text) 'utf-8-unix))
      (let ((source (current-buffer)))
        (with-current-buffer buffer
          (barf-if-buffer-read-only)
          (org-views--with-whole-text (replace-buffer-contents source 1)))))
    (unless (org-views--file-buffer file) (org-views--follow file buffer))
    (org-views--accept file text serial)))

(defun org-views--accept (file text serial)
  "Note that the engine's text of FILE is TEXT, with SERIAL.
The next question sends the buffer's whole text."
  (setf (org-views--file-serial file) serial
        (org-views--file-bytes file) (length text)
        (org-views--file-tail file) ""
        (org-views--file-conflict file) nil)
  (org-views--forget-text file))

;;;###autoload
(defun org-views-resolve ()
  "Settle what another session of the engine changed, a text at a time.
What differs is shown.  Then either the engine's text goes into the buffer,
where it can be undone and isn't saved, or yours goes to the engine, or both
stay as they are."
  (interactive)
  (org-views--sync)
  (let ((files (seq-filter #'org-views--file-conflict org-views--files)))
    (unless files (message "No other session has changed a text"))
    (dolist (file files)
      (let* ((serial (org-views--stale-serial file))
             (text (and serial (org-views--engine-text file))))
        (if (null serial)
            ;; Another session dropped it: the next question adds it.
            (progn (org-views--unfollow file)
                   (setq org-views--files (delq file org-views--files)))
          (org-views--show-differences file text)
          (pcase (car (read-multiple-choice
                       (format "%s was changed by another session" (org-views--file-name file))
                       '((?e "engine's" "take the engine's text into the buffer")
                         (?m "mine" "give the engine the text as Emacs has it")
                         (?n "neither" "leave both as they are"))))
            (?e (org-views--take file text serial))
            (?m (org-views--accept file text serial))))))
    (org-views--sync)
    (run-hooks 'org-views--change-hook)))

(defun org-views--differences (mine theirs)
  "The lines in which the texts MINE and THEIRS differ, as one change.
That is from the first line that differs to the last."
  (let* ((old (split-string mine "\n")) (new (split-string theirs "\n")) (start 1))
    (while (and old new (equal (car old) (car new)))
      (setq old (cdr old) new (cdr new) start (1+ start)))
    (setq old (reverse old) new (reverse new))
    (while (and old new (equal (car old) (car new)))
      (setq old (cdr old) new (cdr new)))
    (concat (format "--- Emacs\n+++ engine\n@@ -%d,%d +%d,%d @@\n"
                    start (length old) start (length new))
            (mapconcat (lambda (line) (concat "-" line "\n")) (reverse old) "")
            (mapconcat (lambda (line) (concat "+" line "\n")) (reverse new) ""))))

(defun org-views--show-differences (file text)
  "Show how the engine's TEXT of FILE differs from that of Emacs."
  (with-current-buffer (get-buffer-create "*Org Views: differences*")
    (let ((inhibit-read-only t))
      (erase-buffer)
      (insert (org-views--differences
               (decode-coding-string (org-views--own-text file) 'utf-8-unix)
               (decode-coding-string text 'utf-8-unix))))
    (goto-char (point-min))
    (diff-mode)
    (setq buffer-read-only t)
    (display-buffer (current-buffer))))

(provide 'org-views-files)
;;; org-views-files.el ends here
