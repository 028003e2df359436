;;; org-views.el --- Agendas of Org files by the orgviews engine  -*- lexical-binding: t; -*-

;; Author: The orgviews developers <orgviews@example.org>
;; Maintainer: The orgviews developers <orgviews@example.org>
;; URL: https://example.org/orgviews
;; Version: 0.2.0
;; Package-Requires: ((emacs "28.1"))
;; Keywords: outlines, calendar
;; SPDX-License-Identifier: Apache-2.0 OR MIT

;;; Commentary:

;; The program `orgviews' keeps Org files as texts and answers questions
;; about them: agendas, lists of tasks, match lists, clock tables.  This
;; package runs it beside Emacs, keeps it in step with your files and the
;; buffers that visit them, unsaved changes included, and shows its views.
;; In a view you act on headings as in Org's agenda, by Org's own commands.
;;
;; Install the program and this package, and ask:
;;
;;   M-x org-views-agenda   today; with a number before it, so many days
;;   M-x org-views-todo     open entries; with C-u, those with keywords
;;   M-x org-views-match    the entries of which an expression holds
;;   M-x org-views-clock    a clock table
;;
;; The files are those of `org-agenda-files', unless `org-views-files' says
;; otherwise.  A view stands in a buffer of its own.  In it:
;;
;;   RET TAB SPC   go to the heading, in another window, or show it there
;;   t , : I O $   change the keyword, the priority, the tags; clock in and
;;                 out; archive.  C-c C-s and C-c C-d set dates, C-/ undoes
;;   f b . j d w   other days, today, a date, a day, a week
;;   / F g q       filter, follow mode, ask again, leave
;;
;; Half a second after a key in any of the files' buffers the views that are
;; shown follow (`org-views-refresh').  What you do in a view is done in the
;; heading's buffer, which isn't saved.
;;
;; Options are in the group `org-views'; `org-views-status' says how each
;; file is followed, `org-views-resolve' settles what another session of the
;; engine changed, and `org-views-stop' ends the engine.

;;; Code:

(require 'calendar)
(require 'cl-lib)
(require 'crm)
(require 'seq)
(require 'subr-x)
(require 'org)
(require 'org-agenda)
(require 'org-views-engine)
(require 'org-views-files)

(declare-function org-fold-show-context "org-fold" (&optional key))
(declare-function org-show-context "org" (&optional key))
(declare-function org-clock-cancel "org-clock" ())
(declare-function org-clock-goto "org-clock" (&optional select))
(declare-function org-clock-in "org-clock" (&optional select start-time))
(declare-function org-clock-out "org-clock" (&optional switch-to-state fail-quietly at-time))
(declare-function bookmark-prop-get "bookmark" (bookmark-name-or-record prop))
(declare-function bookmark-make-record-default "bookmark" (&optional no-file no-context posn))

(defcustom org-views-days 1
  "How many days an agenda shows, 1 to 366, or `week' for the week of a day."
  :type '(choice (natnum :tag "Days") (const :tag "The week" week))
  :group 'org-views)

(defcustom org-views-refresh 0.5
  "Idle seconds after which views that are shown follow a change.
nil means never: they are asked again by \\<org-views-mode-map>\\[revert-buffer] alone."
  :type '(choice (number :tag "Seconds") (const :tag "Never" nil))
  :group 'org-views)

(defcustom org-views-separate-buffers nil
  "Whether each agenda has a buffer of its own, as other views have.
Otherwise all agendas share one."
  :type 'boolean
  :group 'org-views)

(defcustom org-views-start-with-follow-mode nil
  "Whether a new view shows the heading of the row at point as point moves."
  :type 'boolean
  :group 'org-views)

(defface org-views-date '((t :inherit org-agenda-date))
  "A day's line of an agenda."
  :group 'org-views)

(defface org-views-today '((t :inherit org-agenda-date-today))
  "Today's line of an agenda."
  :group 'org-views)

(defface org-views-weekend '((t :inherit org-agenda-date-weekend))
  "The line of a day of the weekend."
  :group 'org-views)

(defface org-views-category '((t :inherit shadow))
  "Categories of rows."
  :group 'org-views)

(defface org-views-time '((t :inherit org-time-grid))
  "Times of rows."
  :group 'org-views)

(defface org-views-scheduled '((t :inherit org-scheduled-today))
  "What is scheduled on the day."
  :group 'org-views)

(defface org-views-late '((t :inherit org-scheduled-previously))
  "What was scheduled before today."
  :group 'org-views)

(defface org-views-deadline '((t :inherit org-imminent-deadline))
  "Deadlines of the day, and those that were missed."
  :group 'org-views)

(defface org-views-warning '((t :inherit org-upcoming-deadline))
  "Deadlines that lie ahead."
  :group 'org-views)

(defface org-views-done '((t :inherit org-agenda-done))
  "Titles of entries that are done."
  :group 'org-views)

;;;; Questions

(defvar-local org-views--view nil
  "What the buffer shows.
One of (agenda DATE DAYS), where a DATE of nil is today and DAYS may be
`week', (todo KEYWORDS), (match EXPRESSION) and (clock OPTIONS).")

(defvar-local org-views--filter nil
  "The match expression that holds of the headings that are shown, or nil.")

(defvar-local org-views--places nil
  "A vector with a place for each line, as the engine wrote it.")

(defvar-local org-views--as-of nil
  "Of what the view was asked, see `org-views--world'.")

(defvar-local org-views--headline nil
  "The text of the header line.")

(defun org-views--world ()
  "What the answer to a question hangs on: the serial first."
  (list org-views--serial org-views--moment org-views--inherited
        org-views--filter))

(defun org-views--day (date days)
  "The day DAYS after DATE."
  (pcase-let* ((`(,year ,month ,day)
                (mapcar #'string-to-number (split-string date "-")))
               (new (format-time-string
                     "%F" (encode-time (list 0 0 12 (+ day days) month year nil nil t))
                     t)))
    (if (string-match-p "\\`[0-9]\\{4\\}-[0-9][0-9]-[0-9][0-9]\\'" new) new
      (user-error "The calendar ends here"))))

(defun org-views--week-start (date)
  "The first day of the week of DATE, by `org-agenda-start-on-weekday'."
  (pcase-let* ((`(,year ,month ,day)
                (mapcar #'string-to-number (split-string date "-")))
               (weekday (calendar-day-of-week (list month day year))))
    (org-views--day date (- (mod (- weekday (or org-agenda-start-on-weekday weekday))
                                 7)))))

(defun org-views--first-day (view)
  "The first day of the agenda VIEW."
  (pcase-let* ((`(agenda ,date ,days) view)
               (date (or date (substring (org-views--now) 0 10))))
    (if (eq days 'week) (org-views--week-start date) date)))

(defun org-views--length (view)
  "How many days the agenda VIEW has."
  (if (eq (nth 2 view) 'week) 7 (nth 2 view)))

(defun org-views--question-of (view &optional filter)
  "The command that asks VIEW; of a clock table with FILTER, an expression."
  (pcase view
    (`(agenda . ,_)
     (format "agenda %s %d" (org-views--first-day view) (org-views--length view)))
    (`(todo nil) "todo")
    (`(clock ,options)
     (when (and filter (string-match-p "\\(?:\\`\\| \\)match=" options))
       (user-error "This table has a match of its own"))
     (concat "clock " options (and filter (concat " match=" filter))))
    (`(,kind ,words) (format "%s %s" kind words))))

(defun org-views--commands (view filter)
  "The commands that ask VIEW, of the headings alone that match FILTER."
  (let ((question (org-views--question-of view filter)))
    (append (list question (concat "places " question))
            (and filter (not (eq (car view) 'clock))
                 (list (concat "places match " filter))))))

(defun org-views--wrong-match (expression bytes)
  "One line on EXPRESSION, whose first BYTES begin a match expression."
  (let* ((text (encode-coding-string expression 'utf-8-unix))
         (end (min (length text) (string-to-number bytes))))
    (concat "No match expression: "
            (decode-coding-string (substring text 0 end) 'utf-8-unix)
            "<here it goes wrong>"
            (decode-coding-string (substring text end) 'utf-8-unix))))

(defun org-views--why-refused (question reply)
  "One line on why QUESTION was answered by REPLY, and what to do."
  (pcase reply
    (`(gone ,why) why)
    (`(err 15 ,_ ,bytes)
     (org-views--wrong-match
      (replace-regexp-in-string
       "\\`\\(?:places \\)?\\(?:match \\|clock .*?match=\\)" "" question)
      bytes))
    (`(err 16 . ,_) (format "A pattern is no regular expression: %s" question))
    (`(err 17 . ,_) (format "No options of a clock table: %s"
                            (string-remove-prefix "clock " question)))
    ((or `(err 13 . ,_) `(err 14 . ,_))
     (format "Days are 1 to 366, in the years 1 to 9999: %s" question))
    (`(err 2 . ,_)
     (format "The engine knows no such question: %s (is `%s' a later orgviews?)"
             question (car org-views-program)))
    (`(err ,_ . ,words)
     (format "The engine refuses (%s): %s" (string-join words " ") question))
    (_ (format "The engine gave no view: %s" question))))

(defun org-views--heading-key (place)
  "What is equal for two PLACEs, as the engine wrote them, of one heading."
  (substring place 0 (string-match " [^ ]*\\'" place)))

(defun org-views--filter-lines (lines places held)
  "LINES and PLACES without those whose headings aren't among the places HELD.
What is no heading's stays."
  (let ((keys (make-hash-table :test #'equal)) kept)
    (dolist (place held)
      (puthash (org-views--heading-key place) t keys))
    (cl-mapc (lambda (line place)
               (when (or (string-empty-p place)
                         (gethash (org-views--heading-key place) keys))
                 (push (cons line place) kept)))
             lines places)
    (setq kept (nreverse kept))
    (list (mapcar #'car kept) (mapcar #'cdr kept))))

(defun org-views--answer (commands replies)
  "What REPLIES to COMMANDS say: (LINES PLACES), or one line on what is wrong."
  (let ((refused (cl-position-if-not (lambda (reply) (eq (car reply) 'view)) replies)))
    (if refused
        (org-views--why-refused (nth refused commands) (nth refused replies))
      (pcase-let ((`(,lines ,places ,held)
                   (mapcar (lambda (reply) (org-views--lines (cadr reply))) replies)))
        (cond ((/= (length lines) (length places))
               "The engine's places don't fit its view")
              ((nth 2 commands) (org-views--filter-lines lines places held))
              (t (list lines places)))))))

(defun org-views--ask-view (view &optional filter)
  "The lines of VIEW and their places, of the headings that match FILTER.
The engine is brought in step before."
  (org-views--sync)
  (let* ((commands (org-views--commands view filter))
         (answer (org-views--answer commands (org-views--ask-all commands))))
    (if (stringp answer) (user-error "%s" answer) answer)))

;;;; Rows

(defun org-views--place (line)
  "The place of LINE, counted from 1: (FILE SERIAL BYTE STAMP), or nil.
BYTE and STAMP are nil where there is none."
  (let ((place (and (<= 1 line (length org-views--places))
                    (aref org-views--places (1- line)))))
    (pcase (and place (split-string place " "))
      (`(,name ,serial ,_ ,byte ,stamp)
       (list (org-views--file-named name)
             (string-to-number serial)
             (and (not (equal byte "-")) (string-to-number byte))
             (and (not (equal stamp "-")) (string-to-number stamp)))))))

(defun org-views--row-p (line)
  "Whether LINE, counted from 1, is a heading's or a file's."
  (and (<= 1 line (length org-views--places))
       (not (string-empty-p (aref org-views--places (1- line))))))

(defconst org-views--day-line
  "^\\([0-9]\\{4\\}-[0-9][0-9]-[0-9][0-9]\\) \\([A-Z][a-z][a-z]\\) W[0-9][0-9]$"
  "A day's line of an agenda.")

(defconst org-views--labels
  '(("Scheduled: " "scheduled" org-views-scheduled)
    ("Sched\\. [0-9]+ d\\.: " "past-scheduled" org-views-late)
    ("Deadline: " "deadline" org-views-deadline)
    ("In [0-9]+ d\\.: " "upcoming-deadline" org-views-warning)
    ("[0-9]+ d\\. ago: " "deadline" org-views-deadline)
    ("([0-9]+/[0-9]+): " "block" nil))
  "Labels of an agenda's rows, with Org's names of their kinds, and faces.")

(defun org-views--take-category ()
  "Go past the category's column of the row at point, and give the category.
The column has 12 places after two spaces, unless the category fills it."
  (let ((start (+ 2 (line-beginning-position))))
    (move-to-column 14)
    (unless (and (eq (char-before) ?\s)
                 (string-match-p ":[ ]+\\'" (buffer-substring start (point))))
      (goto-char (max start (1- (point))))
      (search-forward ": " (line-end-position) 'move))
    (string-remove-suffix
     ":" (string-trim-right (buffer-substring-no-properties start (point))))))

(defun org-views--take-time ()
  "Go past the column of times at point, which is blank or has its face."
  (if (looking-at "[0-9]+:[0-9][0-9]\\(?:-[0-9]+:[0-9][0-9]\\)? +")
      (progn (put-text-property (point) (match-end 0) 'face 'org-views-time)
             (goto-char (match-end 0)))
    (skip-chars-forward " " (min (line-end-position) (+ 12 (point))))))

(defun org-views--take-label ()
  "Go past the label at point, and give the row's kind and face as a list."
  (or (cl-loop for (regexp kind face) in org-views--labels
               when (looking-at regexp)
               do (when face
                    (put-text-property (point) (match-end 0) 'face face))
               (goto-char (match-end 0))
               and return (list kind face))
      (list "timestamp" nil)))

(defun org-views--done-keywords (sequences)
  "The done ones of the keywords SEQUENCES."
  (mapcan (lambda (words) (copy-sequence (cdr (member "|" words)))) sequences))

(defun org-views--take-keyword (sequences)
  "Go past the keyword at point, one of SEQUENCES, and give it; else nil."
  (let* ((end (save-excursion (skip-chars-forward "^ \n") (point)))
         (word (buffer-substring-no-properties (point) end)))
    (when (and (not (equal word "|")) (seq-some (lambda (it) (member word it)) sequences))
      (let ((org-done-keywords (org-views--done-keywords sequences)))
        (put-text-property (point) end 'face (org-get-todo-face word)))
      (goto-char end)
      (skip-chars-forward " ")
      word)))

(defun org-views--take-priority ()
  "Go past the priority cookie at point, if there is one."
  (when (looking-at "\\[#\\([A-Z]\\|[0-9]+\\)\\] ?")
    (let ((value (match-string 1)) (end (match-end 0)))
      (put-text-property (match-beginning 0) (1+ (match-end 1)) 'face
                         (org-get-priority-face
                          (if (string-match-p "\\`[0-9]" value)
                              (string-to-number value)
                            (aref value 0))))
      (goto-char end))))

(defun org-views--tags-of (word)
  "The tags in WORD, if it is `:a:b:'."
  (and (string-prefix-p ":" word)
       (string-suffix-p ":" word)
       (not (string-match-p "[^[:alnum:]_@#%:]" word))
       (split-string word ":" t)))

(defun org-views--take-tags ()
  "Where the tags at the end of the row at point begin, and these, as a cons."
  (let* ((end (line-end-position))
         (start (save-excursion (goto-char end)
                                (skip-chars-backward "^ \n")
                                (point)))
         (tags (org-views--tags-of (buffer-substring-no-properties start end))))
    (when tags (put-text-property start end 'face 'org-tag))
    (cons (if tags start end) tags)))

(defun org-views--take-kind (view)
  "Go past times and label of VIEW's row at point: its kind and its face."
  (pcase (car view)
    ('agenda (org-views--take-time) (org-views--take-label))
    ('todo (list "todo" nil))
    (_ (list "tagsmatch" nil))))

(defun org-views--fontify-row (view sequences)
  "Give the row at point of VIEW its faces, and the properties that Org's have.
SEQUENCES are the keywords of its file."
  (pcase-let* ((beg (point))
               (category (org-views--take-category))
               (columns (point))
               (`(,kind ,face) (org-views--take-kind view))
               (keyword (org-views--take-keyword sequences))
               (title (progn (org-views--take-priority) (point)))
               (`(,title-end . ,tags) (org-views--take-tags)))
    (when (member keyword (org-views--done-keywords sequences))
      (setq face 'org-views-done))
    (put-text-property beg columns 'face 'org-views-category)
    (when face
      (put-text-property title (max title title-end) 'face face))
    (add-text-properties beg (line-end-position)
                         (list 'org-category category
                               'todo-state keyword
                               'tags tags
                               'type kind))))

(defun org-views--fontify-day (date)
  "Give the day's line at point, that of DATE, its face."
  (put-text-property
   (line-beginning-position) (line-end-position) 'face
   (cond ((equal date (substring (or org-views--moment (org-views--now)) 0 10))
          'org-views-today)
         ((looking-at-p "[0-9-]+ S") 'org-views-weekend)
         (t 'org-views-date))))

(defun org-views--fontify-line (line)
  "Give the line at point, of the number LINE, its faces and properties."
  (let ((place (ignore-errors (org-views--place line))))
    (remove-text-properties (line-beginning-position) (line-end-position) '(face nil))
    (when (org-views--row-p line)
      (add-text-properties (line-beginning-position) (line-end-position)
                           '(mouse-face highlight
                                        help-echo "mouse-2 or RET: go to the heading")))
    (cond
     ((looking-at org-views--day-line) (org-views--fontify-day (match-string 1)))
     ((eq (car org-views--view) 'clock)
      (when (looking-at "[0-9-]+ [0-9-]+$")
        (put-text-property (point) (line-end-position) 'face 'org-views-date)))
     ((looking-at-p "  ")
      (org-views--fontify-row org-views--view
                              (and place (org-views--file-keywords (car place))))))))

(defun org-views--fontify-region (beg end)
  "Give the lines between BEG and END their faces and properties."
  (save-excursion
    (goto-char beg)
    (forward-line 0)
    (let ((line (line-number-at-pos)) (inhibit-read-only t))
      (with-silent-modifications
        (while (< (point) (min end (point-max)))
          (save-excursion (org-views--fontify-line line))
          (put-text-property (point) (line-end-position) 'org-views-fontified t)
          (forward-line 1)
          (setq line (1+ line)))))))

(defun org-views--put-markers (heading stamp)
  "Have the row at point carry markers at its HEADING and its STAMP."
  (let ((inhibit-read-only t))
    (with-silent-modifications
      (add-text-properties (line-beginning-position) (line-end-position)
                           (list 'org-hd-marker heading
                                 'org-marker (or stamp heading))))))

(defun org-views--position (byte)
  "The position of BYTE of the current buffer's text; an error without one."
  (org-views--with-whole-text
    (or (byte-to-position (1+ byte))
        (user-error "The heading isn't where the engine has it: %s"
                    "M-x org-views-status compares the texts"))))

(defun org-views--markers (place)
  "Markers at the heading of PLACE, and at its stamp if it has one.
A buffer visits its file, and the place is one in that buffer's text."
  (pcase-let ((`(,file ,_ ,byte ,stamp) place))
    (with-current-buffer (org-views--file-buffer file)
      (org-views--with-whole-text
        (goto-char (org-views--position (or byte 0)))
        (unless (or (null byte) (and (bolp) (looking-at-p "\\*+ ")))
          (user-error "The heading isn't where the engine has it: %s"
                      "M-x org-views-status compares the texts"))
        (list (point-marker)
              (and stamp (copy-marker (org-views--position stamp))))))))

(defun org-views--current-p (file)
  "Whether the view was asked of the text that the buffer of FILE has now."
  (and (buffer-live-p (org-views--file-buffer file))
       (null (org-views--file-head file))
       (eql (car org-views--as-of) org-views--serial)
       (not (org-views--file-conflict file))
       (eql (org-views--file-tick file)
            (buffer-chars-modified-tick (org-views--file-buffer file)))))

(defun org-views--marked-p ()
  "Whether the row at point carries a marker at its heading."
  (let ((marker (get-text-property (line-beginning-position) 'org-hd-marker)))
    (and marker (marker-buffer marker))))

(defun org-views--ensure-row ()
  "Have the row at point carry its properties, as far as that visits no file."
  (unless (or (eobp) (get-text-property (line-beginning-position) 'org-views-fontified))
    (org-views--fontify-region (line-beginning-position) (line-end-position)))
  (unless (or (eobp) (org-views--marked-p))
    (let ((place (ignore-errors (org-views--place (line-number-at-pos)))))
      (when (and place (org-views--current-p (car place)))
        (pcase (ignore-errors (org-views--markers place))
          (`(,heading ,stamp) (org-views--put-markers heading stamp)))))))

;;;; Buffers of views

(defun org-views--buffers ()
  "The buffers of views."
  (seq-filter (lambda (buffer)
                (eq (buffer-local-value 'major-mode buffer) 'org-views-mode))
              (buffer-list)))

(defun org-views--title (view)
  "What VIEW is, for its header line."
  (pcase view
    (`(agenda . ,_)
     (let ((first (org-views--first-day view)))
       (cond ((eq (nth 2 view) 'week) (concat "Week from " first))
             ((= (nth 2 view) 1) (concat "Agenda of " first))
             (t (format "Agenda of %d days from %s on" (nth 2 view) first)))))
    (`(todo nil) "Open entries")
    (`(todo ,keywords) (concat "Entries with " keywords))
    (`(match ,expression) (concat "Entries that match " expression))
    (`(clock ,options) (concat "Clock table: " options))))

(defun org-views--update-header (&optional fault)
  "Set the header line: what is shown, and FAULT or the first notice."
  (let* ((notices (if fault (list fault) (org-views--notices)))
         (more (length (cdr notices))))
    (setq org-views--headline
          (concat " " (org-views--title org-views--view)
                  (and org-views--filter
                       (concat " / " (propertize org-views--filter
                                                 'face 'org-agenda-filter-tags)))
                  (and notices (concat " | " (propertize (car notices) 'face 'warning)))
                  (and (> more 0) (format " | %d more: M-x org-views-status" more))))
    (force-mode-line-update)))

(defun org-views--tell-end (why)
  "Have views say WHY the engine has ended, and forget where its rows stood.
Another engine counts its serials anew, so that no place of this one's is
true of its texts."
  (dolist (buffer (org-views--buffers))
    (with-current-buffer buffer
      (setq org-views--as-of nil
            org-views--places nil)
      (when why (org-views--update-header why)))))

(add-hook 'org-views--end-functions #'org-views--tell-end)

(defun org-views--row ()
  "The text of the line at point."
  (buffer-substring-no-properties (line-beginning-position) (line-end-position)))

(defun org-views--spot (position)
  "What is needed to find the row at POSITION again: a list.
It has the line's number, its text, the column and the place."
  (save-excursion
    (goto-char position)
    (let ((line (line-number-at-pos)))
      (list line (org-views--row) (- position (line-beginning-position))
            (ignore-errors (org-views--place line))))))

(defun org-views--nearest (line lines)
  "The one of LINES that is nearest to LINE, or nil without any."
  (car (seq-sort-by (lambda (it) (abs (- it line))) #'< lines)))

(defun org-views--lines-of (file byte)
  "The numbers of the lines for the heading at BYTE of FILE."
  (let ((wanted (format " %d " byte)) found)
    (dotimes (k (length org-views--places))
      (when (string-search wanted (aref org-views--places k))
        (let ((place (ignore-errors (org-views--place (1+ k)))))
          (when (and place (eq (car place) file) (eql (nth 2 place) byte)
                     (eql (nth 1 place) (org-views--file-serial file)))
            (push (1+ k) found)))))
    (nreverse found)))

(defun org-views--line-of-spot (spot)
  "The line where SPOT's row is: that of its heading, as far as that is known.
Else it is the nearest with its text.  Where there is none, as where the heading
isn't in the view any more, it is SPOT's line."
  (pcase-let ((`(,line ,_ ,_ (,file ,serial ,byte ,_)) spot))
    (let ((now (and byte (org-views--byte-now file serial byte))))
      (or (if now (org-views--nearest line (org-views--lines-of file (car now)))
            (org-views--line-of-text spot))
          line))))

(defun org-views--seek-row (text search)
  "The number of the next line that is TEXT in the direction of SEARCH, or nil."
  (save-excursion
    (let ((case-fold-search nil) line)
      (while (and (not line) (funcall search (concat text "\n") nil t))
        (save-excursion
          (goto-char (match-beginning 0))
          (when (bolp) (setq line (line-number-at-pos)))))
      line)))

(defun org-views--line-of-text (spot)
  "The line nearest to SPOT's that has its text, or nil."
  (pcase-let ((`(,line ,text) spot))
    (save-excursion
      (goto-char (point-min))
      (forward-line (1- line))
      (org-views--nearest
       line (delq nil (list (org-views--seek-row text #'search-forward)
                            (org-views--seek-row text #'search-backward)))))))

(defun org-views--goto-spot (spot)
  "Go to the row of SPOT."
  (goto-char (point-min))
  (forward-line (1- (org-views--line-of-spot spot)))
  (goto-char (min (+ (point) (nth 2 spot)) (line-end-position))))

(defun org-views--window-spot (window)
  "What is needed to have WINDOW show the same rows again."
  (list window
        (org-views--spot (window-point window))
        (count-lines (window-start window)
                     (save-excursion (goto-char (window-point window))
                                     (line-beginning-position)))
        (= (window-start window) (point-min))))

(defun org-views--restore-window (window spot above from-start)
  "Have WINDOW show the row of SPOT again, with so many rows ABOVE it as before.
If FROM-START, it showed the first line, and does again where the row is seen
then too."
  (org-views--goto-spot spot)
  (set-window-point window (point))
  (if (and from-start
           (<= (line-number-at-pos) (max 1 (1- (window-body-height window)))))
      (goto-char (point-min))
    (forward-line (- above)))
  (set-window-start window (point) t))

(defun org-views--forget-markers ()
  "Have no row carry a marker any more."
  (let ((position (point-min)) (inhibit-read-only t))
    (with-silent-modifications
      (while (setq position (text-property-not-all position (point-max)
                                                   'org-hd-marker nil))
        (dolist (name '(org-hd-marker org-marker))
          (set-marker (get-text-property position name) nil))
        (setq position (next-single-property-change position 'org-hd-marker
                                                    nil (point-max))))
      (remove-text-properties (point-min) (point-max)
                              '(org-hd-marker nil org-marker nil)))))

(defun org-views--fill (lines places)
  "Show LINES in the current buffer, and keep their PLACES.
Point, and that of each window, stays at its heading."
  (let* ((text (mapconcat (lambda (line) (concat line "\n")) lines ""))
         (same (and (= (length text) (buffer-size)) (equal text (buffer-string))))
         (spot (org-views--spot (point)))
         (windows (unless same
                    (mapcar #'org-views--window-spot
                            (get-buffer-window-list nil nil t))))
         (inhibit-read-only t))
    (org-views--forget-markers)
    (setq org-views--places (vconcat places)
          org-views--as-of (org-views--world))
    (if same
        ;; Keywords may be others, and today another day.
        (jit-lock-refontify)
      (erase-buffer)
      (insert text)
      (dolist (it windows) (apply #'org-views--restore-window it)))
    (org-views--goto-spot spot)
    (restore-buffer-modified-p nil)
    (org-views--update-header)))

(defun org-views--revert (&rest _)
  "Ask the view of the current buffer again."
  (apply #'org-views--fill
         (org-views--ask-view org-views--view org-views--filter)))

(defun org-views--buffer-name (view)
  "The name of the buffer for VIEW."
  (format "*Org Views: %s*"
          (pcase view
            ((guard (and (eq (car view) 'agenda) org-views-separate-buffers))
             (downcase (org-views--title view)))
            (`(agenda . ,_) "agenda")
            (`(todo nil) "todo")
            (`(,kind ,words) (format "%s %s" kind words)))))

(defun org-views--buffer (view &optional filter)
  "A buffer with VIEW, of the headings that match FILTER."
  (pcase-let ((`(,lines ,places) (org-views--ask-view view filter))
              (buffer (get-buffer-create (org-views--buffer-name view))))
    (with-current-buffer buffer
      (unless (derived-mode-p 'org-views-mode) (org-views-mode))
      (setq org-views--view view
            org-views--filter filter)
      (org-views--fill lines places))
    buffer))

(defun org-views--open (view)
  "Show VIEW in its buffer, and give the buffer."
  (let ((buffer (org-views--buffer view)))
    (pop-to-buffer buffer)
    buffer))

;;;; Asking

(defvar org-views--todo-history nil "Keywords that were asked.")
(defvar org-views--match-history nil "Match expressions that were asked.")
(defvar org-views--clock-history nil "Options of clock tables that were asked.")

(defconst org-views--clock-words
  '("block=today" "block=yesterday" "block=thisweek" "block=lastweek"
    "block=thismonth" "block=lastmonth" "block=thisyear" "block=lastyear"
    "maxlevel=" "step=day" "step=week" "effort" "match=" "file=")
  "Options of clock tables, as they are completed.")

(defvar org-views--tags nil
  "The tags of the engine's files as ((PROCESS . SERIAL) . TAGS).")

(defun org-views--keywords ()
  "All keywords of the engine's files, and the user's own."
  (seq-uniq
   (remove "|" (apply #'append
                      (append (org-views--sequences)
                              (seq-mapcat #'org-views--file-keywords
                                          org-views--files))))))

(defun org-views--all-tags ()
  "All tags of the engine's files, inherited ones too."
  (unless (equal (car org-views--tags) (cons org-views--process org-views--serial))
    (let ((rows (car (org-views--ask-view '(match "{.}")))) tags)
      (dolist (row rows)
        (let ((space (cl-position ?\s row :from-end t)))
          (setq tags (nconc (org-views--tags-of (substring row (1+ (or space -1))))
                            tags))))
      (setq org-views--tags (cons (cons org-views--process org-views--serial)
                                  (delete-dups tags)))))
  (cdr org-views--tags))

(defun org-views--word-table (character words)
  "A completion table over what the function WORDS gives.
It completes the last word of a text; CHARACTER is a regexp of one of its
characters."
  (let ((last (format "%s*\\'" character)) found)
    (lambda (string predicate action)
      (let ((start (string-match last string)))
        (unless found (setq found (funcall words)))
        (if (eq (car-safe action) 'boundaries)
            (cons 'boundaries
                  (cons start (length (cdr action))))
          (completion-table-with-context
           (substring string 0 start) found (substring string start)
           predicate action))))))

(defun org-views--match-words ()
  "Words of match expressions."
  (org-views--sync)
  (append (org-views--all-tags) (org-views--keywords)
          '("TODO=\"" "PRIORITY=\"" "LEVEL=" "ITEM={" "CATEGORY=\"" "FILE={"
            "SCHEDULED<\"<today>\"" "DEADLINE<\"<+7d>\"")))

(defun org-views--read-words (prompt table history &optional initial)
  "Read words with PROMPT, completed by TABLE; HISTORY is the variable of such.
A space and a question mark are themselves.  INITIAL stands there first."
  (let ((minibuffer-local-completion-map
         (make-composed-keymap
          (let ((map (make-sparse-keymap)))
            (define-key map " " #'self-insert-command)
            (define-key map "?" #'self-insert-command)
            map)
          minibuffer-local-completion-map)))
    (completing-read prompt table nil nil initial history)))

(defun org-views--read-match (prompt)
  "Read a match expression with PROMPT."
  (org-views--read-words
   prompt
   (org-views--word-table "[^-+&|/!]" #'org-views--match-words)
   'org-views--match-history))

(defun org-views--read-keywords ()
  "Read keywords, one of which an entry is to have."
  (org-views--sync)
  (string-join (delete "" (completing-read-multiple
                           "Keywords, with commas between: "
                           (org-views--keywords) nil nil nil
                           'org-views--todo-history))
               "|"))

;;;###autoload
(defun org-views-agenda (&optional days)
  "Show the agenda of DAYS days from today on; without it of `org-views-days'.
Interactively, DAYS is the prefix argument."
  (interactive (list (and current-prefix-arg
                          (prefix-numeric-value current-prefix-arg))))
  (org-views--open (list 'agenda nil (if (numberp days) days org-views-days))))

;;;###autoload
(defun org-views-todo (&optional keywords)
  "Show the open entries, or those with one of KEYWORDS.
These stand with bars between; a prefix argument asks for them."
  (interactive (list (and current-prefix-arg (org-views--read-keywords))))
  (org-views--open (list 'todo (and keywords (not (string-empty-p keywords)) keywords))))

;;;###autoload
(defun org-views-match (expression)
  "Show the entries that match EXPRESSION, as work+TODO=\"WAIT\"."
  (interactive (list (org-views--read-match "Match: ")))
  (org-views--open (list 'match expression)))

;;;###autoload
(defun org-views-clock (options)
  "Show the clock table of OPTIONS, as block=thisweek maxlevel=2."
  (interactive
   (list (org-views--read-words
          "Clock table: "
          (org-views--word-table "[^ ]" (lambda () org-views--clock-words))
          'org-views--clock-history
          (or (car org-views--clock-history) "block=thisweek maxlevel=2"))))
  (org-views--open (list 'clock options)))

;;;; Other days

(defun org-views--turn-to (view)
  "Show VIEW, another agenda, in the current buffer."
  (unless (eq (car org-views--view) 'agenda)
    (user-error "This view is no agenda"))
  (pcase-let ((`(,lines ,places) (org-views--ask-view view org-views--filter)))
    (setq org-views--view view)
    (org-views--fill lines places)
    (goto-char (point-min))))

(defun org-views--agenda ()
  "The view of the current buffer, which is an agenda."
  (if (eq (car org-views--view) 'agenda) org-views--view
    (user-error "This view is no agenda")))

(defun org-views-forward (&optional count)
  "Show the days after those that are shown, COUNT times as many ahead."
  (interactive "p" org-views-mode)
  (let ((view (org-views--agenda)))
    (org-views--turn-to
     (list 'agenda
           (org-views--day (org-views--first-day view)
                           (* (org-views--length view) (or count 1)))
           (nth 2 view)))))

(defun org-views-backward (&optional count)
  "Show the days before those that are shown, COUNT times as many back."
  (interactive "p" org-views-mode)
  (org-views-forward (- (or count 1))))

(defun org-views-today ()
  "Show the agenda of today."
  (interactive nil org-views-mode)
  (org-views--turn-to (list 'agenda nil (nth 2 (org-views--agenda)))))

(defun org-views-goto-date (date)
  "Show the agenda from DATE on."
  (interactive (progn (org-views--agenda) (list (org-read-date))) org-views-mode)
  (org-views--turn-to (list 'agenda date (nth 2 (org-views--agenda)))))

(defun org-views--date-at-point ()
  "The day of the row at point; nil where it is today."
  (save-excursion
    (end-of-line)
    (let ((date (if (re-search-backward org-views--day-line nil t)
                    (match-string-no-properties 1)
                  (org-views--first-day (org-views--agenda)))))
      (unless (equal date (substring (org-views--now) 0 10)) date))))

(defun org-views-day ()
  "Show the agenda of the day of the row at point alone."
  (interactive nil org-views-mode)
  (org-views--turn-to (list 'agenda (and (org-views--agenda)
                                         (org-views--date-at-point))
                            1)))

(defun org-views-week ()
  "Show the agenda of the week of the row at point.
It begins as `org-agenda-start-on-weekday' says."
  (interactive nil org-views-mode)
  (org-views--turn-to (list 'agenda (and (org-views--agenda)
                                         (org-views--date-at-point))
                            'week)))

(defun org-views-filter (expression)
  "Show the rows alone whose headings match EXPRESSION.
An empty one brings all rows back."
  (interactive (list (org-views--read-match "Filter by match (empty for none): "))
               org-views-mode)
  (let ((filter (and (not (string-empty-p expression)) expression)))
    (pcase-let ((`(,lines ,places) (org-views--ask-view org-views--view filter)))
      (setq org-views--filter filter)
      (org-views--fill lines places))))

;;;; From a row to its heading

(defun org-views--heading-same-p (file now)
  "Whether the heading line of FILE at NOW is what it was.
NOW is as `org-views--byte-now' gives it; a buffer visits the file."
  (pcase-let ((`(,byte . ,same) now))
    (with-current-buffer (org-views--file-buffer file)
      (org-views--with-whole-text
        (goto-char (org-views--position byte))
        (and (bolp)
             (or (null same)
                 (and (zerop (forward-line 1))
                      (bolp)
                      (<= (- (position-bytes (point)) 1 byte) same))))))))

(defun org-views--row-at-point ()
  "The place of the row at point; an error where there is none."
  (or (org-views--place (line-number-at-pos))
      (user-error "No heading stands on this line")))

(defun org-views--look-again (why)
  "Ask the view again, and signal an error: WHY, and what to do.
Where several rows read as the one at point did, nobody but the person can
tell which of them was meant."
  (let ((row (org-views--row)))
    (org-views--revert)
    (let ((count (seq-count (lambda (it) (equal it row))
                            (split-string (buffer-substring-no-properties
                                           (point-min) (point-max))
                                          "\n" t))))
      (user-error "%s; %s" why
                  (if (> count 1)
                      (format "%d rows read as it did, choose one" count)
                    "look at what is shown now")))))

(defun org-views--place-now (place)
  "PLACE, one in the text of which the view was asked, in the present text.
Where its heading line was changed since, the view is asked again, and an
error says so."
  (pcase-let* ((`(,file ,serial ,byte ,stamp) place)
               (now (org-views--byte-now file serial (or byte 0))))
    (unless (or (null byte)
                (and now (org-views--heading-same-p file now)))
      (org-views--look-again "This row has changed"))
    (list file
          (org-views--file-serial file)
          (and byte (car now))
          (and stamp (car (org-views--byte-now file serial stamp))))))

(defun org-views--visit-file (file)
  "Have a buffer visit FILE."
  (unless (buffer-live-p (org-views--file-buffer file))
    (let ((path (org-views--file-path file)))
      (unless (file-exists-p path)
        (user-error "There is no file %s any more" path))
      (find-file-noselect path))))

(defun org-views--heading ()
  "A marker at the heading of the row at point, in the buffer of its file.
Of a file's row in a clock table it is the text's start.
Where the text was changed since the view was asked, it is the same heading
still, or an error is signaled."
  (unless org-views--as-of
    (org-views--look-again "The engine was started anew"))
  (let* ((place (org-views--row-at-point))
         (file (car place)))
    (org-views--visit-file file)
    (org-views--sync)
    (unless (buffer-live-p (org-views--file-buffer file))
      (user-error "No buffer visits %s" (org-views--file-path file)))
    (when (org-views--file-conflict file)
      (user-error "%s was changed by another session: M-x org-views-resolve"
                  (org-views--file-name file)))
    (pcase-let ((`(,heading ,stamp)
                 (org-views--markers (org-views--place-now place))))
      ;; An answer that came meanwhile may have brought other rows.
      (when (equal place (org-views--place (line-number-at-pos)))
        (org-views--put-markers heading stamp))
      heading)))

(defun org-views--reveal (marker)
  "Go to MARKER in the current buffer, and let it be seen."
  (unless (<= (point-min) marker (point-max)) (widen))
  (push-mark nil t)
  (goto-char marker)
  (when (derived-mode-p 'org-mode)
    (if (fboundp 'org-fold-show-context)
        (org-fold-show-context 'agenda)
      (with-suppressed-warnings ((obsolete org-show-context))
        (org-show-context 'agenda))))
  (run-hooks 'org-agenda-after-show-hook))

(defun org-views-visit (&optional delete-other-windows)
  "Go to the heading of the row at point, in this window.
With DELETE-OTHER-WINDOWS, the prefix argument, it fills the frame."
  (interactive "P" org-views-mode)
  (let ((marker (org-views--heading)))
    (push-mark nil t)
    (pop-to-buffer-same-window (marker-buffer marker))
    (when delete-other-windows (delete-other-windows))
    (org-views--reveal marker)))

(defun org-views-visit-other-window ()
  "Go to the heading of the row at point, in another window."
  (interactive nil org-views-mode)
  (let ((marker (org-views--heading)))
    (push-mark nil t)
    (pop-to-buffer (marker-buffer marker) t)
    (org-views--reveal marker)))

(defvar-local org-views--shown nil
  "The window and the heading that were shown last, as a cons.")

(defun org-views-show ()
  "Show the heading of the row at point in another window, and stay here."
  (interactive nil org-views-mode)
  (let* ((marker (org-views--heading))
         (window (display-buffer (marker-buffer marker) t)))
    (unless (window-live-p window)
      (user-error "No window shows %s" (marker-buffer marker)))
    (setq org-views--shown (cons window (marker-position marker)))
    (with-selected-window window
      (org-views--reveal marker)
      (recenter (/ (window-body-height) 4)))))

(defun org-views-show-and-scroll-up (&optional lines)
  "Show the heading of the row at point; asked again, scroll its text by LINES."
  (interactive "P" org-views-mode)
  (let ((window (car org-views--shown)))
    (if (and (eq last-command this-command) (window-live-p window)
             (not (eq window (selected-window))))
        (with-selected-window window (scroll-up lines))
      (org-views-show))))

(defun org-views-show-scroll-down (&optional lines)
  "Scroll the text that was shown last down by LINES."
  (interactive "P" org-views-mode)
  (let ((window (car org-views--shown)))
    (unless (and (window-live-p window) (not (eq window (selected-window))))
      (user-error "No heading is shown"))
    (with-selected-window window (scroll-down lines))))

(defun org-views-mouse-visit (event)
  "Go to the heading of the row at which EVENT was, in another window."
  (interactive "e" org-views-mode)
  (mouse-set-point event)
  (org-views-visit-other-window))

(defun org-views-mouse-show (event)
  "Show the heading of the row at which EVENT was, and stay here."
  (interactive "e" org-views-mode)
  (mouse-set-point event)
  (org-views-show))

(defvar-local org-views--followed nil
  "The row that follow mode showed last, as a line and its text.")

(defun org-views--show-followed ()
  "Show the heading of the row at point if it is another one than before."
  (let* ((line (line-number-at-pos)) (row (list line (org-views--row))))
    (unless (or (equal row org-views--followed) (not (org-views--row-p line)))
      (setq org-views--followed row)
      (condition-case fault (org-views-show)
        (error (message "%s" (error-message-string fault)))))))

(define-minor-mode org-views-follow-mode
  "Show the heading of the row at point as point moves."
  :lighter " Follow"
  :interactive (org-views-mode)
  (setq org-views--followed nil)
  (when org-views-follow-mode (org-views--show-followed)))

(defun org-views--post-command ()
  "Have the row at point carry its properties, and follow if that is asked."
  (org-views--ensure-row)
  (when (and org-views-follow-mode (eq (window-buffer) (current-buffer)))
    (org-views--show-followed)))

(defun org-views--goto-row (count)
  "Go COUNT rows ahead; an error where there are not so many."
  (let ((line (line-number-at-pos)) (step (if (< count 0) -1 1)))
    (dotimes (_ (abs count))
      (setq line (+ line step))
      (while (and (<= 1 line (length org-views--places)) (not (org-views--row-p line)))
        (setq line (+ line step))))
    (unless (<= 1 line (length org-views--places))
      (user-error "No more rows"))
    (goto-char (point-min))
    (forward-line (1- line))))

(defun org-views-next-row (&optional count)
  "Go COUNT rows ahead, over days and totals."
  (interactive "p" org-views-mode)
  (org-views--goto-row (or count 1)))

(defun org-views-previous-row (&optional count)
  "Go COUNT rows back, over days and totals."
  (interactive "p" org-views-mode)
  (org-views--goto-row (- (or count 1))))

(defun org-views--next-error (count reset)
  "Go COUNT rows ahead, from the first one if RESET, and to its heading."
  (when reset (goto-char (point-min)))
  (cond
   ((/= count 0) (org-views--goto-row count))
   ((not (org-views--row-p (line-number-at-pos))) (org-views--goto-row 1)))
  (dolist (window (get-buffer-window-list nil nil t))
    (set-window-point window (point)))
  (org-views-visit-other-window))

;;;; Acting on headings

(defun org-views--log-at-once ()
  "Write what Org logs of a change now, unless it asks for a note.
So it belongs to the same undo step as the change."
  (when (and (bound-and-true-p org-log-setup)
             (not (eq org-log-note-how 'note)))
    (org-add-log-note)))

(defvar-local org-views--elsewhere nil
  "What this view's acts changed in other buffers than the heading's.
For each entry of `org-agenda-undo-list' with such changes it has (ENTRY HASH
CHANGE ..), where HASH is that of the heading's buffer before the act.  A
CHANGE is (BUFFER PATH BEFORE AFTER SAVED): its undo lists before and after
the act, and whether the act saved it.")

(defun org-views--undo-list (buffer)
  "The undo list of BUFFER without the boundaries at its front."
  (let ((list (buffer-local-value 'buffer-undo-list buffer)))
    (while (and (consp list) (null (car list))) (pop list))
    list))

(defun org-views--undo-lists ()
  "A table from the buffers that visit files to their undo lists.
Each is given a boundary, so that what comes is apart from what was."
  (let ((lists (make-hash-table :test #'eq)))
    (dolist (buffer (buffer-list) lists)
      (when (buffer-local-value 'buffer-file-name buffer)
        (with-current-buffer buffer (undo-boundary))
        (puthash buffer (org-views--undo-list buffer) lists)))))

(defun org-views--changes-since (lists entry)
  "What differs from LISTS in buffers that the undo ENTRY doesn't have."
  (let (changes)
    (dolist (buffer (buffer-list) changes)
      (let ((path (buffer-local-value 'buffer-file-name buffer))
            (before (gethash buffer lists))
            (after (org-views--undo-list buffer)))
        (when (and path (consp after) (not (eq before after)) (not (memq buffer entry)))
          (with-current-buffer buffer (undo-boundary))
          (push (list buffer path before after (not (buffer-modified-p buffer)))
                changes))))))

(defmacro org-views--noting-elsewhere (buffer &rest body)
  "Do BODY, an act on BUFFER, and keep note of what it does elsewhere."
  (declare (indent 1) (debug t))
  `(let ((lists (org-views--undo-lists))
         (hash (buffer-hash ,buffer))
         (last (car org-agenda-undo-list)))
     ,@body
     (let* ((entry (car org-agenda-undo-list))
            (changes (unless (eq entry last) (org-views--changes-since lists entry))))
       (when changes (push (cons entry (cons hash changes)) org-views--elsewhere)))))

(defun org-views--call (command)
  "Call COMMAND interactively at the heading of the row at point.
That is done in the heading's buffer, as if it were called there; the view
follows at once."
  (unless (or (null org-views--as-of) (nth 2 (org-views--row-at-point)))
    (user-error "This row is a file's, not a heading's"))
  (let ((heading (org-views--heading)))
    (unless (with-current-buffer (marker-buffer heading) (derived-mode-p 'org-mode))
      (user-error "%s isn't in Org mode" (marker-buffer heading)))
    (org-views--noting-elsewhere (marker-buffer heading)
      (org-with-remote-undo (marker-buffer heading)
        (org-with-point-at heading
          (let ((org-loop-over-headlines-in-active-region nil))
            (call-interactively command)
            (org-views--log-at-once)))))
    (org-views--revert)))

(defun org-views-change-todo ()
  "Change the keyword of the row's heading, as `org-todo' does."
  (interactive nil org-views-mode)
  (org-views--call #'org-todo))

(defun org-views-schedule ()
  "Schedule the row's heading, as `org-schedule' does."
  (interactive nil org-views-mode)
  (org-views--call #'org-schedule))

(defun org-views-deadline ()
  "Give the row's heading a deadline, as `org-deadline' does."
  (interactive nil org-views-mode)
  (org-views--call #'org-deadline))

(defun org-views-priority ()
  "Set the priority of the row's heading, as `org-priority' does."
  (interactive nil org-views-mode)
  (org-views--call #'org-priority))

(defun org-views-priority-up ()
  "Raise the priority of the row's heading."
  (interactive nil org-views-mode)
  (org-views--call #'org-priority-up))

(defun org-views-priority-down ()
  "Lower the priority of the row's heading."
  (interactive nil org-views-mode)
  (org-views--call #'org-priority-down))

(defun org-views-set-tags ()
  "Set the tags of the row's heading, as `org-set-tags-command' does."
  (interactive nil org-views-mode)
  (org-views--call #'org-set-tags-command))

(defun org-views-set-effort ()
  "Set the effort of the row's heading, as `org-set-effort' does."
  (interactive nil org-views-mode)
  (org-views--call #'org-set-effort))

(defun org-views-add-note ()
  "Add a note to the row's heading, as `org-add-note' does."
  (interactive nil org-views-mode)
  (org-views--call #'org-add-note))

(defun org-views-archive ()
  "Archive the row's heading, as `org-archive-subtree' does."
  (interactive nil org-views-mode)
  (org-views--call #'org-archive-subtree))

(defun org-views-refile ()
  "Refile the row's heading, as `org-refile' does."
  (interactive nil org-views-mode)
  (org-views--call #'org-refile))

(defun org-views-clock-in ()
  "Start the clock on the row's heading."
  (interactive nil org-views-mode)
  (org-views--call #'org-clock-in))

(defun org-views--call-clock (command)
  "Call COMMAND, which acts on the heading that is clocked."
  (call-interactively command)
  (org-views--revert))

(defun org-views-clock-out ()
  "Stop the running clock."
  (interactive nil org-views-mode)
  (org-views--call-clock #'org-clock-out))

(defun org-views-clock-cancel ()
  "Cancel the running clock."
  (interactive nil org-views-mode)
  (org-views--call-clock #'org-clock-cancel))

(defun org-views-clock-goto ()
  "Go to the heading that is clocked."
  (interactive nil org-views-mode)
  (org-clock-goto))

(defun org-views--undoable-p (change)
  "Whether the buffer of CHANGE is as the act left it, on disk too."
  (pcase-let ((`(,buffer ,_ ,before ,after ,_) change))
    (and (buffer-live-p buffer)
         (eq after (org-views--undo-list buffer))
         (or (null before) (cl-tailp before after))
         (verify-visited-file-modtime buffer))))

(defun org-views--undo-change (change)
  "Undo CHANGE in its buffer, and save that where the act saved it."
  (pcase-let ((`(,buffer ,_ ,before ,list ,saved) change))
    (with-current-buffer buffer
      (let ((saved (and saved (not (buffer-modified-p)))) (inhibit-read-only t))
        (undo-boundary)
        (while (and list (not (eq list before)))
          (setq list (primitive-undo 1 list))
          (while (and list (null (car list))) (pop list)))
        (undo-boundary)
        (when (and saved (buffer-modified-p))
          (let ((inhibit-message t)) (save-buffer 0)))))))

(defun org-views--undo-entry (entry)
  "Undo ENTRY, the next one of Org's remote undo, in all its buffers.
What an act wrote elsewhere is taken back once the heading's buffer is as it
was before, so that nothing is lost; what stays is told.  Where that undoes
an undo, and can't be done elsewhere, it is refused."
  (pcase-let ((`(,hash . ,changes) (cdr (assq entry org-views--elsewhere)))
              (again (eq (car entry) 'org-agenda-undo)))
    (cond
     ((not again)
      (org-agenda-undo)
      (let ((same (and changes (equal hash (buffer-hash (nth 4 entry))))) stays)
        (dolist (change changes)
          (if (and same (org-views--undoable-p change))
              (org-views--undo-change change)
            (push (abbreviate-file-name (nth 1 change)) stays)))
        (when stays
          (message "`%s' undone in %s alone; what it wrote stays in %s"
                   (car entry) (buffer-name (nth 4 entry)) (string-join stays ", ")))))
     ((seq-every-p #'org-views--undoable-p changes)
      (mapc #'org-views--undo-change changes)
      (org-agenda-undo))
     (t (user-error "That can't be done again: %s has changed since"
                    (abbreviate-file-name (nth 1 (seq-find (lambda (change) (not (org-views--undoable-p change)))
                                                           changes))))))))

(defun org-views-undo ()
  "Undo what was done last from this view, in the buffers where it was done.
So a heading that was archived or refiled is back, and its copy is gone."
  (interactive nil org-views-mode)
  (setq this-command 'org-agenda-undo)
  (let* ((entry (car (if (eq this-command last-command) org-agenda-pending-undo-list
                       org-agenda-undo-list)))
         (buffer (nth 4 entry)))
    (if (buffer-live-p buffer)
        (org-views--noting-elsewhere buffer
          (org-views--undo-entry entry))
      (org-agenda-undo)))
  (org-views--revert))

;;;; Links and bookmarks

(defun org-views--store-link ()
  "Store a link to the heading of the row at point, for `org-store-link'."
  (when (and (derived-mode-p 'org-views-mode)
             (org-views--row-p (line-number-at-pos)))
    (let ((link (org-with-point-at (org-views--heading) (org-store-link nil))))
      (when (and link (string-match org-link-bracket-re link))
        (org-link-store-props :type "file"
                              :link (match-string 1 link)
                              :description (match-string 2 link))
        t))))

(defun org-views--open-link (path _)
  "Show the view that PATH names, as `agenda 7', `todo' or `match work'."
  (let* ((words (split-string path " "))
         (rest (string-join (cdr words) " ")))
    (pcase (car words)
      ("agenda" (org-views-agenda (and (cdr words) (string-to-number rest))))
      ("todo" (org-views-todo rest))
      ("match" (org-views-match rest))
      ("clock" (org-views-clock rest))
      (_ (user-error "No view is named `%s'" path)))))

(org-link-set-parameters "org-views"
                         :follow #'org-views--open-link
                         :store #'org-views--store-link)

(defun org-views--bookmark ()
  "A bookmark of the current view."
  `(,(concat "Org Views: " (org-views--title org-views--view))
    ,@(bookmark-make-record-default t t)
    (view . ,org-views--view)
    (filter . ,org-views--filter)
    (handler . org-views-bookmark-jump)))

;;;###autoload
(defun org-views-bookmark-jump (bookmark)
  "Go to the view of BOOKMARK."
  (set-buffer (org-views--buffer (bookmark-prop-get bookmark 'view)
                                 (bookmark-prop-get bookmark 'filter)))
  (goto-char (min (or (bookmark-prop-get bookmark 'position) 1) (point-max))))

;;;; The mode

(defvar org-views-mode-map
  (let ((map (make-sparse-keymap)))
    (define-key map (kbd "RET") #'org-views-visit)
    (define-key map (kbd "TAB") #'org-views-visit-other-window)
    (define-key map (kbd "SPC") #'org-views-show-and-scroll-up)
    (define-key map (kbd "DEL") #'org-views-show-scroll-down)
    (define-key map [follow-link] 'mouse-face)
    (define-key map [mouse-2] #'org-views-mouse-visit)
    (define-key map [mouse-3] #'org-views-mouse-show)
    (define-key map "t" #'org-views-change-todo)
    (define-key map (kbd "C-c C-t") #'org-views-change-todo)
    (define-key map (kbd "C-c C-s") #'org-views-schedule)
    (define-key map (kbd "C-c C-d") #'org-views-deadline)
    (define-key map (kbd "C-c C-q") #'org-views-set-tags)
    (define-key map (kbd "C-c C-w") #'org-views-refile)
    (define-key map "," #'org-views-priority)
    (define-key map "+" #'org-views-priority-up)
    (define-key map "-" #'org-views-priority-down)
    (define-key map ":" #'org-views-set-tags)
    (define-key map "e" #'org-views-set-effort)
    (define-key map "z" #'org-views-add-note)
    (define-key map "I" #'org-views-clock-in)
    (define-key map "O" #'org-views-clock-out)
    (define-key map "X" #'org-views-clock-cancel)
    (define-key map "J" #'org-views-clock-goto)
    (define-key map "$" #'org-views-archive)
    (define-key map [remap undo] #'org-views-undo)
    (define-key map "f" #'org-views-forward)
    (define-key map "b" #'org-views-backward)
    (define-key map "." #'org-views-today)
    (define-key map "j" #'org-views-goto-date)
    (define-key map "d" #'org-views-day)
    (define-key map "w" #'org-views-week)
    (define-key map "/" #'org-views-filter)
    (define-key map "F" #'org-views-follow-mode)
    (define-key map "n" #'next-line)
    (define-key map "p" #'previous-line)
    (define-key map "N" #'org-views-next-row)
    (define-key map "P" #'org-views-previous-row)
    (define-key map "s" #'org-save-all-org-buffers)
    (define-key map "o" #'delete-other-windows)
    map)
  "Keys of views.")

(defconst org-views--imenu
  `((nil ,org-views--day-line 0)
    (nil "^[0-9-]\\{10\\} [0-9-]\\{10\\}$" 0))
  "Days, and the steps of a clock table.")

(define-derived-mode org-views-mode special-mode "Org-Views"
  "Rows of a view of the orgviews engine.
\\{org-views-mode-map}"
  :group 'org-views
  (setq truncate-lines t
        buffer-undo-list t)
  (setq-local revert-buffer-function #'org-views--revert
              next-error-function #'org-views--next-error
              imenu-generic-expression org-views--imenu
              bookmark-make-record-function #'org-views--bookmark
              org-agenda-undo-list nil
              org-agenda-pending-undo-list nil
              nobreak-char-display nil
              header-line-format
              '(:eval (string-replace "%" "%%" (or org-views--headline ""))))
  (jit-lock-register #'org-views--fontify-region)
  (add-hook 'post-command-hook #'org-views--post-command nil t)
  (add-hook 'window-buffer-change-functions #'org-views--later nil t)
  (when org-views-start-with-follow-mode (org-views-follow-mode)))

;;;; Views follow

(defvar org-views--timer nil
  "The timer that brings shown views up to date, or nil.")

(defun org-views--later (&rest _)
  "Bring shown views up to date once Emacs has been idle for a while."
  (when (and org-views-refresh (not org-views--timer))
    (setq org-views--timer
          (if (current-idle-time)
              ;; An idle timer would wait for the next time without keys.
              (run-with-timer org-views-refresh nil #'org-views--refresh)
            (run-with-idle-timer org-views-refresh nil #'org-views--refresh)))))

(add-hook 'org-views--change-hook #'org-views--later)

(defun org-views--refresh ()
  "Ask the views that are shown again, and show each answer when it comes."
  (setq org-views--timer nil)
  (let ((shown (seq-filter (lambda (buffer) (get-buffer-window buffer 'visible))
                           (org-views--buffers))))
    (cond
     ((null shown))
     ((or org-views--busy org-views--queue (null (current-idle-time)))
      (org-views--later))
     ((not (org-views--live-p)))
     (t
      (condition-case fault
          (with-local-quit
            (org-views--sync 'idle)
            (mapc #'org-views--ask-later shown))
        (error
         (dolist (buffer shown)
           (when (buffer-live-p buffer)
             (with-current-buffer buffer
               (org-views--update-header (error-message-string fault)))))))))))

(defun org-views--ask-later (buffer)
  "Ask the view of BUFFER if it is out of date, and fill it with the answer."
  (with-current-buffer buffer
    (if (equal org-views--as-of (org-views--world))
        (org-views--update-header)
      (let* ((asked (list org-views--view org-views--filter))
             (commands (apply #'org-views--commands asked)))
        (org-views--send-all
         commands
         (lambda (replies)
           (when (buffer-live-p buffer)
             (with-current-buffer buffer
               (when (equal asked (list org-views--view org-views--filter))
                 (let ((answer (org-views--answer commands replies)))
                   (if (stringp answer)
                       (org-views--update-header answer)
                     (apply #'org-views--fill answer))))))))))))

(defun org-views-unload-function ()
  "End the engine and follow no buffer before this library is unloaded."
  (when org-views--timer (cancel-timer org-views--timer))
  (setq org-views--timer nil)
  (org-views-stop)
  (remove-hook 'org-views--end-functions #'org-views--tell-end)
  (remove-hook 'org-views--change-hook #'org-views--later)
  nil)

(provide 'org-views)
;;; org-views.el ends here
