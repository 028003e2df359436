;;; org-views-agenda.el --- Org's own agenda, of headings that the engine names  -*- lexical-binding: t; -*-

;; SPDX-License-Identifier: Apache-2.0 OR MIT

;;; Commentary:

;; In `org-views-agenda-mode' Org's agendas, lists and matches, and custom
;; commands made of them, look only at those headings that the engine names.
;; All else is Org: at each such heading Org's own functions are called,
;; restricted to it as by `org-agenda-set-restriction-lock', so they decide
;; whether there is a row, and make its line.
;;
;; So what is named has to hold each heading that has a row; one too many
;; costs its visit alone.  A few stamps give rows in Org and none in the
;; engine, as one in a property drawer.  They are searched for in the texts,
;; and their headings count as named.  Where a setting makes Org show what is
;; not named, Org looks itself, and the header line of the agenda says why.

;;; Code:

(require 'cl-lib)
(require 'seq)
(require 'subr-x)
(require 'org)
(require 'org-agenda)
(require 'org-views-engine)
(require 'org-views-files)

(defvar org-select-this-todo-keyword)
(defvar org-habit-show-all-today)
(declare-function dir-locals-find-file "files" (file))
(declare-function org-element-at-point "org-element" (&optional pom cached-only))
(declare-function org-element-property "org-element" (property element &rest _))
(declare-function org-element-type "org-element" (element &rest _))

(defcustom org-views-agenda-entry-skips '(org-agenda-skip-entry-if)
  "Functions of `org-agenda-skip-function' that skip their own entry at most.
With any other one Org looks itself, since it may skip what follows, too."
  :type '(repeat function)
  :group 'org-views)

(cl-defstruct (org-views-agenda--run (:copier nil))
  "What is known while an agenda is made.
OFF is why Org looks itself at all, WHYS why it did so for a file or a block."
  (answers (make-hash-table :test #'equal))   ; question -> table of name -> bytes
  (inherited (make-hash-table :test #'equal)) ; (buffer . position) -> see there
  (ready (make-hash-table :test #'equal))     ; (buffer . position) of sections
  (prepared (make-hash-table :test #'equal))  ; paths of files that Org prepared
  (visits 0)                                  ; how many sections Org was led to
  settled                                     ; files whose buffers are in step
  looked                                      ; whether anything was looked at
  off whys)

(defvar org-views-agenda--run nil
  "The `org-views-agenda--run' of the agenda that is being made, or nil.")

(defvar org-views-agenda--last nil
  "The last `org-views-agenda--run'.")

(defvar org-views-agenda--bounds nil
  "What Org sees while it is led to one section: (BEG . END), or t for all.")

;;;; When Org looks itself

(defconst org-views-agenda--usual
  '((any (org-agenda-skip-archived-trees . t) (org-agenda-skip-comment-trees . t)
         (org-agenda-archives-mode))
    (agenda (org-agenda-prefer-last-repeat))
    (todo (org-agenda-todo-list-sublevels . t))
    (tags (org-tags-match-list-sublevels t indented) (org-use-tag-inheritance . t)
          (org-tags-exclude-from-inheritance)))
  "Values of options; with another one Org shows what may not be named.
Behind an option stands its value, or a list of those that it may have.")

(defun org-views-agenda--odd-option (kind)
  "The name of an option that leads a block of KIND to other headings, or nil."
  (cl-loop for (option . usual) in (append (alist-get 'any org-views-agenda--usual)
                                           (alist-get kind org-views-agenda--usual))
           unless (or (not (boundp option))
                      (equal (symbol-value option) usual)
                      (and usual (listp usual) (memq (symbol-value option) usual)))
           return (symbol-name option)))

(defun org-views-agenda--skips-p (form)
  "Whether FORM, an `org-agenda-skip-function', may skip more than its entry."
  (and form
       (not (memq (if (consp form) (car form) form) org-views-agenda-entry-skips))))

(defun org-views-agenda--iso (date)
  "DATE, as Org has it, in the engine's writing."
  (format "%04d-%02d-%02d" (nth 2 date) (nth 0 date) (nth 1 date)))

(defun org-views-agenda--today ()
  "Org's present day, in the engine's writing."
  (org-views-agenda--iso (calendar-gregorian-from-absolute (org-today))))

(defun org-views-agenda--why-not (kind)
  "Why Org has to look itself for a block of KIND, or nil."
  (cond ((org-views-agenda--run-off org-views-agenda--run))
        ((org-views-agenda--odd-option kind))
        ((org-views-agenda--skips-p org-agenda-skip-function) "org-agenda-skip-function")
        ((org-views-agenda--skips-p org-agenda-skip-function-global)
         "org-agenda-skip-function-global")
        ((featurep 'org-inlinetask) "org-inlinetask")
        ;; Org has another day than the clock, or midnight was crossed.
        ((not (string-prefix-p (org-views-agenda--today) org-views--moment))
         "org-extend-today-until")))

(defconst org-views-agenda--usual-match
  (let* ((term (concat "\\(?:[[:alnum:]_@#%]+\\|{[[:alnum:] _@#%-]+}"
                       "\\|LEVEL\\(?:<=\\|>=\\|<>\\|[<=>]\\)[0-9]+"
                       "\\|[[:alnum:]_]+\\(?:<=\\|>=\\|<>\\|[<=>]\\)"
                       "\\(?:\"[^\"{}\\\\\n]*\"\\|{[[:alnum:] _@#%-]+}\\)\\)"))
         (both (format "[-+]?%s\\(?:\\(?:[-+]\\|&[-+]?\\)%s\\)*" term term)))
    (format "\\`\\(?:%s\\(?:|%s\\)*\\)?\\(?:/!?\\(?:%s\\(?:|%s\\)*\\)?\\)?\\'"
            both both both both))
  "Match expressions that the engine reads as Org does.")

(defun org-views-agenda--group-p (match)
  "Whether MATCH may name a group of tags."
  (and org-group-tags
       (seq-some (lambda (group) (string-search (car group) match))
                 (append org-tag-groups-alist-for-agenda org-tag-groups-alist))))

(defun org-views-agenda--names-p (match &rest names)
  "Whether MATCH compares one of the properties NAMES, or any if there are none."
  (let ((case-fold-search t))
    (string-match-p (concat (if names (concat "\\_<" (regexp-opt names)) "") "[<=>]") match)))

(defun org-views-agenda--why-not-match (match)
  "Why Org has to look itself for MATCH, or nil."
  (cond ((org-views-agenda--why-not 'tags))
        ((not (and match (< (length match) 1000)
                   (string-match-p org-views-agenda--usual-match match)))
         "an expression that the engine reads otherwise")
        ((org-views-agenda--names-p
          match "TIMESTAMP" "TIMESTAMP_IA" "CLOCKSUM" "CLOCKSUM_T" "BLOCKED" "FILE"
          "TAGS" "ALLTAGS")
         "a property of Org's own")
        ((org-views-agenda--group-p match) "a group of tags")
        ((and org-odd-levels-only (org-views-agenda--names-p match "LEVEL"))
         "org-odd-levels-only")
        ((and org-use-property-inheritance (org-views-agenda--names-p match))
         "org-use-property-inheritance")))

(defun org-views-agenda--holds-p (regexp)
  "Whether REGEXP is found in the current buffer, in any letter case."
  (org-with-wide-buffer
   (goto-char (point-min))
   (let ((case-fold-search t)) (re-search-forward regexp nil t))))

(defun org-views-agenda--line-p (text &optional other)
  "Whether a line of the current buffer begins with TEXT, in any letter case.
With OTHER, whether a second one does as well."
  (org-with-wide-buffer
   (goto-char (point-min))
   (let ((case-fold-search t) (left (if other 2 1)))
     (while (and (> left 0) (search-forward text nil t))
       (when (save-excursion (goto-char (match-beginning 0))
                             (skip-chars-backward " \t")
                             (bolp))
         (setq left (1- left))))
     (zerop left))))

(defconst org-views-agenda--time
  (let ((time "\\(?:[01]?[0-9]\\|2[0-3]\\):[0-5][0-9]"))
    (format "\\(?: [[:alpha:]]+\\)?\\(?: %s\\(?:-%s\\)?\\)?" time time))
  "What may follow a date in a usual stamp: the name of the day, times.")

(defconst org-views-agenda--early-date
  "[12][0-9]\\{3\\}-\\(?:0[1-9]\\|1[0-2]\\)-\\(?:0[1-9]\\|1[0-9]\\|2[0-8]\\)"
  "A date on a day that each month has.")

(defconst org-views-agenda--date
  (concat "\\(?:" org-views-agenda--early-date
          "\\|[12][0-9]\\{3\\}-\\(?:\\(?:0[13-9]\\|1[0-2]\\)-\\(?:29\\|30\\)"
          "\\|\\(?:0[13578]\\|1[02]\\)-31\\)\\)")
  "A date that there is, but no 29 February.")

(defconst org-views-agenda--usual-closed
  (concat "CLOSED: \\[" org-views-agenda--date org-views-agenda--time "\\]")
  "What usually says when a task was closed.")

(defun org-views-agenda--planning-p ()
  "Whether the line at point begins as a planning line, in any letter case."
  (let ((case-fold-search t))
    (looking-at-p "[ \t]*\\(?:scheduled\\|deadline\\|closed\\):")))

(defun org-views-agenda--odd-closed-p ()
  "Whether a line of the current buffer has CLOSED in an odd way."
  (org-with-wide-buffer
   (goto-char (point-min))
   (cl-loop while (let ((case-fold-search t)) (search-forward "closed:" nil t))
            thereis (and (not (save-excursion
                                (goto-char (match-beginning 0))
                                (let ((case-fold-search nil))
                                  (looking-at-p org-views-agenda--usual-closed))))
                         (progn (forward-line 0)
                                (or (org-views-agenda--planning-p)
                                    (progn (end-of-line) nil)))))))

(defun org-views-agenda--why-not-here (match)
  "Why Org has to look itself for MATCH in the current buffer, or nil."
  (cond ((org-views-agenda--line-p "#+setupfile:") "#+SETUPFILE")
        ((and (org-views-agenda--names-p match "CATEGORY")
              (or (org-views-agenda--line-p "#+category:" t)
                  (org-views-agenda--holds-p "^[ \t]*#\\+property:[ \t]*category")))
         "CATEGORY")
        ((and (org-views-agenda--names-p match "CLOSED") (org-views-agenda--odd-closed-p))
         "CLOSED in another writing")
        ((and (org-views-agenda--names-p match)
              (org-views-agenda--holds-p "^[ \t]*:[^ \t\n]\\{1,200\\}:\t"))
         "a tab behind the name of a property")
        ((and (org-views-agenda--names-p match "PRIORITY")
              (or (/= org-priority-default ?B)
                  (org-views-agenda--line-p "#+priorities:")))
         "PRIORITY")))

(defun org-views-agenda--own-way (path why)
  "Have Org prepare the file at PATH for its own way there; note WHY."
  (let ((run org-views-agenda--run)
        ;; What all files have of these is known already.
        (org-todo-keywords-for-agenda org-todo-keywords-for-agenda)
        (org-done-keywords-for-agenda org-done-keywords-for-agenda)
        (org-todo-keyword-alist-for-agenda org-todo-keyword-alist-for-agenda)
        (org-tag-alist-for-agenda org-tag-alist-for-agenda)
        (org-tag-groups-alist-for-agenda org-tag-groups-alist-for-agenda))
    (cl-pushnew why (org-views-agenda--run-whys run) :test #'equal)
    (unless (gethash path (org-views-agenda--run-prepared run))
      (puthash path t (org-views-agenda--run-prepared run))
      (let ((org-views-agenda--run nil))
        (org-agenda-prepare-buffers (list path))))))

;;;; Which headings the engine names

(defun org-views-agenda--sync ()
  "Bring the engine in step with its files and those that are asked about."
  ;; A block may bind `org-agenda-files': no file goes for that.
  (let* ((wanted (org-agenda-files nil 'ifmode))
         (org-views-files
          (delete-dups (append (mapcar #'org-views--file-path org-views--files)
                               (mapcar #'expand-file-name wanted)))))
    (org-views--sync)
    ;; Replies come in order: the keywords of all files are here then.
    (org-views--ask "version"))
  (when org-views-agenda--run
    (clrhash (org-views-agenda--run-answers org-views-agenda--run))))

(defun org-views-agenda--engine-file (path)
  "The engine's file of PATH, whether it is in step or not, or nil."
  (cl-find (org-views--true (expand-file-name path)) org-views--files
           :key #'org-views--file-true :test #'equal))

(defun org-views-agenda--file (path)
  "The engine's file of PATH, or the reason why it has none that is in step."
  (let ((file (org-views-agenda--engine-file path)))
    (cond ((null file) (format "%s: not in the engine" (file-name-nondirectory path)))
          ((org-views--file-conflict file)
           (format "%s: changed by another session" (org-views--file-name file)))
          ((org-views--file-trouble file)
           (format "%s: %s" (org-views--file-name file) (org-views--file-trouble file)))
          (t file))))

(defun org-views-agenda--read-places (view)
  "A table from names to the serial and the bytes of headings, of VIEW's places."
  (let ((table (make-hash-table :test #'equal)) (start 0))
    (while (string-match "^\\([^ \n]+\\) \\([0-9]+\\) [0-9]+ \\([0-9]+\\) " view start)
      (setq start (match-end 0))
      (let* ((name (decode-coding-string (match-string 1 view) 'utf-8-unix))
             (held (or (gethash name table)
                       (puthash name (list (string-to-number (match-string 2 view))) table))))
        (push (string-to-number (match-string 3 view)) (cdr held))))
    (maphash (lambda (_ held) (setcdr held (sort (delete-dups (cdr held)) #'<))) table)
    table))

(defun org-views-agenda--ask (question)
  "The table of places that answers QUESTION, or nil where it is refused."
  (let ((answers (org-views-agenda--run-answers org-views-agenda--run)))
    (or (gethash question answers)
        (pcase (org-views--ask (concat "places " question))
          (`(view ,view)
           (puthash question (org-views-agenda--read-places view) answers))))))

(defun org-views-agenda--merge (&rest lists)
  "The numbers in LISTS, in order, each once."
  (delete-consecutive-dups (sort (apply #'append (append lists '(nil))) #'<)))

(defun org-views-agenda--bytes (file questions)
  "The bytes at which the headings of FILE stand that one of QUESTIONS names.
Throw to `own' why, where the engine can't say."
  (apply #'org-views-agenda--merge
         (mapcar
          (lambda (question)
            (let ((table (org-views-agenda--ask question)))
              (unless table (throw 'own (concat "the engine refuses: " question)))
              (pcase (gethash (org-views--file-name file) table)
                (`(,serial . ,bytes)
                 (unless (= serial (org-views--file-serial file))
                   (throw 'own (format "%s: its text has moved" (org-views--file-name file))))
                 bytes))))
          questions)))

(defun org-views-agenda--keyword-question (words)
  "The question for the entries with one of WORDS, with bars between.
Of `*' it is that for all that have a keyword, of nil for those that are open."
  (cond ((null words) "todo")
        ((equal words "*")
         (let ((rows (seq-mapcat #'org-views--file-keywords org-views--files)))
           (concat "todo " (string-join (delete-dups (remove "|" (apply #'append rows))) "|"))))
        (t (concat "todo " (string-join (split-string words "|" t) "|")))))

(defun org-views-agenda--warning-days ()
  "Up to how many days ahead Org may warn where the engine doesn't, or nil."
  (let ((days (max (abs org-deadline-warning-days)
                   (if (integerp org-agenda-skip-deadline-prewarning-if-scheduled)
                       org-agenda-skip-deadline-prewarning-if-scheduled
                     0))))
    (unless (and (<= 0 org-deadline-warning-days 14)
                 (not (integerp org-agenda-skip-deadline-prewarning-if-scheduled)))
      days)))

(defun org-views-agenda--questions (date types)
  "The questions for the headings that have rows of TYPES on DATE."
  (let ((today (org-agenda-today-p date))
        (days (org-views-agenda--warning-days)))
    (delq nil
          (list
           (and (cl-intersection types '(:deadline :deadline* :scheduled :scheduled* :timestamp))
                (format "agenda %s 1" (org-views-agenda--iso date)))
           (and today (memq :todo types)
                (org-views-agenda--keyword-question org-select-this-todo-keyword))
           (and today days (cl-intersection types '(:deadline :deadline*))
                (format "match DEADLINE>=\"<today>\"+DEADLINE<=\"<+%dd>\"" (1+ days)))
           (and today (bound-and-true-p org-habit-show-all-today)
                (featurep 'org-habit)
                "match STYLE=\"habit\"")))))

(defun org-views-agenda--match-question (match)
  "The question for the headings that fit MATCH.
Org's patterns are found in any letter case, the engine's in their own."
  (concat "match " (replace-regexp-in-string "{" "{(?i)" match t t)))

;;;; Which headings the engine doesn't name

;; What has a row in Org and may have none in the engine is odd: a stamp of
;; another writing than the usual one, and one where the engine reads none.
;; It is looked for once in each text, and then again in what has changed.

(defconst org-views-agenda--repeated
  (cl-flet ((every (units)
              (format " [.+]?\\+[1-9][0-9]\\{0,3\\}[%s]\\(?:/[1-9][0-9]\\{0,3\\}[dwmy]\\)?"
                      units)))
    (concat "\\(?:" org-views-agenda--early-date org-views-agenda--time
            "\\(?:" (every "dwmy") "\\)?"
            "\\|" org-views-agenda--date org-views-agenda--time
            "\\(?:" (every "dw") "\\)?\\)"))
  "A usual date with times, and a repeater if it has one.
Months and years are counted otherwise from a day that a month may lack.")

(defconst org-views-agenda--usual-plain
  (concat "<\\(?:" org-views-agenda--repeated ">"
          "\\|" org-views-agenda--date org-views-agenda--time ">--<"
          org-views-agenda--date org-views-agenda--time ">\\)\\(?:[^-]\\|$\\)")
  "A usual stamp or range that is none of a planning line, and what follows.")

(defconst org-views-agenda--usual-planning
  (concat "[ \t]*\\(?:\\(?:CLOSED: \\[[^]\n]\\{0,60\\}\\]"
          "\\|SCHEDULED: <" org-views-agenda--repeated ">"
          "\\|DEADLINE: <" org-views-agenda--repeated
          "\\(?: -[1-9][0-9]\\{0,3\\}[dw]\\)?>\\)[ \t]*\\)\\{1,3\\}$")
  "A usual planning line.")

(cl-defstruct (org-views-agenda--section (:copier nil))
  "A section from START to STOP, and what was looked at in it.
PLANNING is its planning line, as (BEG . END), or nil.  LINE is the end of
the line that was looked at last, CLOCK whether that is a clock's.  SPANS is
a list of (BEG . END) in which drawers and blocks lie, or `unknown'."
  start stop planning (line 0) clock (spans 'unknown))

(defun org-views-agenda--section-here (beg end)
  "The section at point, between BEG and END."
  (save-excursion
    (end-of-line)
    (let ((start (if (re-search-backward "^\\*+ " beg t) (point) beg)) planning)
      (goto-char start)
      (when (looking-at-p "\\*+ ")
        (forward-line 1)
        (when (org-views-agenda--planning-p)
          (setq planning (cons (point) (line-end-position)))))
      (when (= (point) start) (end-of-line))
      (make-org-views-agenda--section
       :start start :planning planning
       :stop (if (re-search-forward "^\\*+ " end t) (match-beginning 0) end)))))

(defun org-views-agenda--span (section opener closer)
  "From the first OPENER to the last CLOSER in SECTION, as (BEG . END), or nil."
  (let ((start (org-views-agenda--section-start section))
        (stop (org-views-agenda--section-stop section))
        (case-fold-search t))
    (save-excursion
      (goto-char start)
      (let ((first (and (re-search-forward opener stop t) (point))))
        (goto-char stop)
        (and first (re-search-backward closer start t) (cons first (point)))))))

(defun org-views-agenda--enclosed-p (section)
  "Whether point in SECTION may be in a drawer or a block, or a clock's line."
  (when (eq (org-views-agenda--section-spans section) 'unknown)
    (setf (org-views-agenda--section-spans section)
          (delq nil (list (org-views-agenda--span section "^[ \t]*:[^ \t\n]\\{1,200\\}:[ \t]*$"
                                                  "^[ \t]*:END:")
                          (org-views-agenda--span section "^[ \t]*#\\+begin_"
                                                  "^[ \t]*#\\+end_")))))
  (when (> (point) (org-views-agenda--section-line section))
    (setf (org-views-agenda--section-line section) (line-end-position)
          (org-views-agenda--section-clock section)
          (save-excursion (forward-line 0) (looking-at-p "[ \t]*CLOCK:"))))
  (or (org-views-agenda--section-clock section)
      (seq-some (lambda (span) (< (car span) (point) (cdr span)))
                (org-views-agenda--section-spans section))))

(defun org-views-agenda--odd-day ()
  "The day on which the odd stamp at point gives rows, or t if on several.
The value is nil where no stamp stands there."
  (cond ((looking-at-p "<\\(?:%%(\\)\\|%%(") t)
        ((not (looking-at-p "<[0-9]\\{4\\}-")) nil)
        ((looking-at "<\\([0-9]\\{4\\}-[0-9][0-9]-[0-9][0-9]\\)[^+>\n]\\{0,60\\}>\\(?:[^-]\\|$\\)")
         (match-string-no-properties 1))
        (t t)))

(defun org-views-agenda--odd-planning-p ()
  "Whether the planning line at point is odd."
  (or (not (looking-at-p org-views-agenda--usual-planning))
      ;; Of a keyword that stands twice the engine takes the last stamp.
      (looking-at-p ".*\\(DEADLINE\\|SCHEDULED\\|CLOSED\\):.*\\_<\\1:")))

(defun org-views-agenda--odd-here (section)
  "The day of what is odd at point in SECTION, or t if it is odd on each, or nil.
Go behind what was looked at."
  (let ((start (point)) (planning (org-views-agenda--section-planning section)))
    (if (and planning (<= (car planning) start (cdr planning)))
        (progn (goto-char (car planning))
               (prog1 (org-views-agenda--odd-planning-p)
                 (goto-char (cdr planning))))
      (let ((usual (and (looking-at org-views-agenda--usual-plain) (match-end 0))))
        (prog1 (and (or (not usual) (org-views-agenda--enclosed-p section))
                    (org-views-agenda--odd-day))
          (goto-char (if usual (max (1+ start) (1- usual)) (1+ start))))))))

(defun org-views-agenda--odd-stamps (beg end)
  "What is odd from BEG to END, where sections begin, as a list of (BYTE . DAY).
BYTE is that of the section's start; DAY is t where it is odd on each day."
  (let ((case-fold-search nil) (stop beg) section odd)
    (goto-char beg)
    (while (re-search-forward "<\\|%%(" end t)
      (goto-char (match-beginning 0))
      (when (>= (point) stop)
        (setq section (org-views-agenda--section-here beg end)
              stop (org-views-agenda--section-stop section)))
      (let ((day (org-views-agenda--odd-here section)))
        (when day
          (push (cons (1- (position-bytes (org-views-agenda--section-start section))) day)
                odd))))
    odd))

(defun org-views-agenda--odd-headings (beg end)
  "Headings from BEG to END in which a tab ends the first word, as (BYTE . t).
Org takes no such word for a keyword."
  (let (odd)
    (goto-char beg)
    (while (re-search-forward "^\\*+ +[^ \t\n]+\t+[^: \t\n]" end t)
      (push (cons (1- (position-bytes (line-beginning-position))) t) odd))
    odd))

(defun org-views-agenda--find-odd (beg end)
  "What is odd from BEG to END, where sections begin, in order of bytes."
  (org-views--with-whole-text
    (sort (nconc (org-views-agenda--odd-headings beg end)
                 (org-views-agenda--odd-stamps beg end))
          (lambda (a b) (< (car a) (car b))))))

(cl-defstruct (org-views-agenda--search (:copier nil))
  "What was searched for in a text.
ODD is a list of (BYTE . DAY), OTHER says that Org reads this text otherwise
than the engine, and SETUP that its settings are known once it is visited."
  serial odd other setup)

(defvar org-views-agenda--searches (make-hash-table :test #'eq :weakness 'key)
  "The `org-views-agenda--search' of each of the engine's files.")

(defun org-views-agenda--search-text (serial)
  "Search the current buffer, which is widened: the text that has SERIAL."
  (make-org-views-agenda--search
   :serial serial
   :odd (org-views-agenda--find-odd (point-min) (point-max))
   :other (org-views-agenda--other-text-p)
   :setup (org-views-agenda--setup-p)))

(defun org-views-agenda--other-text-p ()
  "Whether Org hides other trees of the current buffer than the engine does.
For the engine carriage returns and tabs are blanks around the word COMMENT,
and a priority of two digits may stand before it."
  (let ((case-fold-search nil))
    (save-excursion
      (goto-char (point-min))
      (or (save-excursion (search-forward "\r" nil t))
          (cl-loop while (search-forward "COMMENT" nil t)
                   thereis (let ((line (line-beginning-position)))
                             (prog1 (and (save-excursion (goto-char line)
                                                         (looking-at-p "\\*+ "))
                                         (or (eq (char-after) ?\t)
                                             (save-excursion (search-backward "\t" line t))
                                             (looking-back "\\[#[^]\n]\\{2,9\\}\\] +COMMENT"
                                                           (max line (- (point) 30)))))
                               (end-of-line))))))))

(defun org-views-agenda--setup-p ()
  "Whether Org has other settings in the current buffer than a reader of its text.
They may stand elsewhere, or count in another order than they stand."
  (or (org-views-agenda--line-p "#+setupfile:")
      (org-views-agenda--line-p "#+typ_todo:")
      (org-views-agenda--line-p "#+seq_todo:")
      (org-views--with-whole-text
        (goto-char (point-min))
        (or (save-excursion (search-forward "-*-" (line-end-position) t))
            (progn (goto-char (max (point-min) (- (point-max) 3000)))
                   (search-forward "Local Variables:" nil t))))))

(defun org-views-agenda--changed (file serial)
  "Which bytes of FILE have changed since its text had SERIAL.
The value is (BEG END MORE), for the present text and how much longer it is,
or nil where that isn't known."
  (let ((wanted (org-views--file-serial file)) (rest (org-views--file-edits file))
        edits beg (end 0) (more 0))
    (while (and rest (/= wanted serial) (= wanted (nth 1 (car rest))))
      (push (pop rest) edits)
      (setq wanted (caar edits)))
    (when (= wanted serial)
      (pcase-dolist (`(,_ ,_ ,at ,del ,len) edits)
        (setq beg (min at (or beg at))
              end (max (+ at len) (if (< end at) end (+ end (- len del))))
              more (+ more (- len del))))
      (list (or beg 0) end more))))

(defun org-views-agenda--search-again (search file)
  "Bring SEARCH of FILE, which the current buffer visits, up to date.
The value is nil where it has to be made anew."
  (pcase (org-views-agenda--changed file (org-views-agenda--search-serial search))
    (`(,beg ,end ,more)
     (let ((size (org-views--size)))
       (when (<= end size)
         (org-views--with-whole-text
           (goto-char (byte-to-position (1+ beg)))
           (end-of-line)
           (let* ((from (if (re-search-backward "^\\*+ " nil t) (point) (point-min)))
                  (to (progn (goto-char (byte-to-position (1+ end)))
                             (forward-line 1)
                             (if (re-search-forward "^\\*+ " nil t) (match-beginning 0)
                               (point-max))))
                  (first (1- (position-bytes from))) (last (1- (position-bytes to))))
             (setf (org-views-agenda--search-odd search)
                   (nconc (seq-take-while (lambda (it) (< (car it) first))
                                          (org-views-agenda--search-odd search))
                          (org-views-agenda--find-odd from to)
                          (mapcar (lambda (it) (cons (+ more (car it)) (cdr it)))
                                  (seq-drop-while (lambda (it) (< (+ more (car it)) last))
                                                  (org-views-agenda--search-odd search))))
                   (org-views-agenda--search-serial search) (org-views--file-serial file)
                   (org-views-agenda--search-other search)
                   (or (org-views-agenda--search-other search)
                       (save-restriction (narrow-to-region from to)
                                         (org-views-agenda--other-text-p))))
             search)))))))

(defun org-views-agenda--search (file buffer)
  "The `org-views-agenda--search' of FILE, which BUFFER visits if it isn't nil.
Throw to `own' why, where its text can't be searched."
  (condition-case fault
      (org-views-agenda--search-now file buffer)
    (error (throw 'own (format "%s: %s" (org-views--file-name file)
                               (error-message-string fault))))))

(defun org-views-agenda--search-now (file buffer)
  "The `org-views-agenda--search' of FILE, which BUFFER visits if it isn't nil."
  (let ((search (gethash file org-views-agenda--searches))
        (serial (org-views--file-serial file)))
    (cond
     ((and search (= serial (org-views-agenda--search-serial search))) search)
     (buffer
      (with-current-buffer buffer
        (or (and search (not (org-views-agenda--search-other search))
                 (org-views-agenda--search-again search file))
            (puthash file (org-views--with-whole-text (org-views-agenda--search-text serial))
                     org-views-agenda--searches))))
     (t
      (with-temp-buffer
        (when (or (org-views--read (org-views--file-path file))
                  (not (equal (org-views--file-stamp file)
                              (org-views--disk-stamp (org-views--file-path file)))))
          (throw 'own (format "%s: it changes on disk" (org-views--file-name file))))
        (puthash file (org-views-agenda--search-text serial) org-views-agenda--searches))))))

(defun org-views-agenda--odd-bytes (search day)
  "The bytes of the headings that are odd on DAY by SEARCH; on any day if it is t."
  (cl-loop for (byte . it) in (org-views-agenda--search-odd search)
           when (or (eq day t) (eq it t) (equal it day)) collect byte))

(defun org-views-agenda--odd-marks (file)
  "The bytes of headings whose keyword or priority Org may read otherwise.
FILE has the keywords; Org takes them where a sign follows at once, and a
priority anywhere in the title."
  (let* ((words (remove "|" (apply #'append (org-views--file-keywords file))))
         (word (concat "\\*+ +" (regexp-opt words)))
         (case-fold-search nil) bytes)
    (cl-flet ((note () (push (1- (position-bytes (line-beginning-position))) bytes)))
      (save-excursion
        (goto-char (point-min))
        (while (re-search-forward (concat "^" word "\\>[^ \t\n]") nil t) (note))
        (goto-char (point-min))
        (while (search-forward "[#" nil t)
          (forward-line 0)
          (when (and (looking-at-p "\\*+ ")
                     (not (looking-at-p (concat "\\(?:\\*+\\|" word "\\) +\\[#"))))
            (note))
          (end-of-line))))
    bytes))

(defun org-views-agenda--sections-with (text)
  "The bytes of the sections of the current buffer, which is widened, with TEXT."
  (let ((case-fold-search nil) bytes)
    (save-excursion
      (goto-char (point-min))
      (while (search-forward text nil t)
        (save-excursion
          (end-of-line)
          (push (1- (position-bytes (if (re-search-backward "^\\*+ " nil t) (point)
                                      (point-min))))
                bytes))
        (unless (re-search-forward "^\\*+ " nil 'move) (goto-char (point-max)))))
    (nreverse bytes)))

;;;; What a heading inherits

;; Before Org 9.6 its functions read this from text properties, which
;; `org-agenda-prepare-buffers' gives to whole buffers.  Statistics are text
;; properties in later versions, too.

(defconst org-views-agenda--early-p (version< org-version "9.6")
  "Whether Org's functions read what a heading inherits from text properties.")

(defvar-local org-views-agenda--category nil
  "The category of headings that have none, after the buffer's tick.")

(defun org-views-agenda--keyword-category ()
  "The category that the last `#+CATEGORY' line gives, or nil."
  (goto-char (point-max))
  (cl-loop while (search-backward "#+CATEGORY:" nil t)
           for element = (and (save-excursion (skip-chars-backward " \t") (bolp))
                              (org-element-at-point))
           when (eq (org-element-type element) 'keyword)
           return (org-element-property :value element)))

(defun org-views-agenda--last-category (end)
  "The category that the last such property from point to END gives, or nil."
  (save-excursion
    (let ((case-fold-search t) (regexp (org-re-property "CATEGORY")) category)
      (while (re-search-forward regexp end t)
        (let ((value (match-string-no-properties 3)))
          (when (org-at-property-p) (setq category value))))
      category)))

(defun org-views-agenda--drawer-category ()
  "The category that the drawer before the first heading gives, or nil."
  (goto-char (point-min))
  (org-views-agenda--last-category
   (save-excursion (if (re-search-forward "^\\*+ " nil t) (match-beginning 0) (point-max)))))

(defun org-views-agenda--file-category ()
  "The category of the current buffer's headings that have none."
  (let ((tick (buffer-chars-modified-tick)) (case-fold-search t))
    (unless (eql (car org-views-agenda--category) tick)
      (setq org-views-agenda--category
            (cons tick
                  (org-with-wide-buffer
                   (or (org-views-agenda--drawer-category)
                       (org-views-agenda--keyword-category)
                       (cond ((null org-category) (file-name-base buffer-file-name))
                             ((symbolp org-category) (symbol-name org-category))
                             (t org-category)))))))
    (cdr org-views-agenda--category)))

(defun org-views-agenda--inherited ()
  "What those below the heading at point have of it, as a list.
These are the category, whether it is an archive, whether a comment, the
statistics, and its tags behind those of the headings above it."
  (let* ((table (org-views-agenda--run-inherited org-views-agenda--run))
         (key (cons (current-buffer) (point))))
    (or (gethash key table)
        (puthash
         key
         (pcase-let*
             ((end (save-excursion (outline-next-heading) (point)))
              (case-fold-search nil)
              (line (buffer-substring-no-properties (point) (line-end-position)))
              (own (org-get-tags nil t))
              (`(,category ,archived ,comment ,stats ,tags)
               (save-excursion
                 (if (org-up-heading-safe)
                     (org-views-agenda--inherited)
                   (list (org-views-agenda--file-category) nil nil nil nil)))))
           (list (or (org-views-agenda--last-category end) category)
                 (or archived (org-views-agenda--archive-p line))
                 (or comment (org-in-commented-heading-p t))
                 (or (org-views-agenda--stats line) stats)
                 (append tags own)))
         table))))

(defun org-views-agenda--archive-p (line)
  "Whether Org takes the heading LINE for that of an archived tree."
  (let ((case-fold-search t))
    (string-match-p (regexp-quote (org-make-tag-string (list org-archive-tag))) line)))

(defun org-views-agenda--stats (line)
  "What Org takes for the statistics of the heading LINE, or nil."
  (and (string-match "\\`\\*+ .*\\[\\([0-9]*\\)\\(?:%\\|/\\([0-9]*\\)\\)\\]" line)
       (let ((done (string-to-number (match-string 1 line)))
             (all (and (match-end 2) (string-to-number (match-string 2 line)))))
         (cond ((null all) done) ((= all 0) 0) (t (/ (* done 100) all))))))

(defun org-views-agenda--put-stats (start end)
  "Give the section from START to END its statistics, as Org does.
Those of a heading's own cookie begin behind it; before it are its parent's."
  (goto-char start)
  (let ((stats (nth 3 (org-views-agenda--inherited)))
        (cookie (save-excursion
                  (and (re-search-forward "^\\*+ .*\\[[0-9]*\\(?:%\\|/[0-9]*\\)\\]"
                                          (line-end-position) t)
                       (point))))
        (above (save-excursion
                 (and (org-up-heading-safe) (nth 3 (org-views-agenda--inherited))))))
    (when (and cookie above) (put-text-property start cookie 'org-stats above))
    (when stats (put-text-property (or cookie start) end 'org-stats stats))))

(defun org-views-agenda--put-inherited (start end)
  "Give the section from START to END what it has and inherits."
  (goto-char start)
  (pcase-let ((`(,category ,archived ,comment . ,_) (org-views-agenda--inherited))
              (effort (and (not (memq 'effort org-agenda-ignore-properties))
                           (org-entry-get start org-effort-property 'selective)))
              (warn (and (not (memq 'appt org-agenda-ignore-properties))
                         (org-entry-get start "APPT_WARNTIME" 'selective))))
    (remove-text-properties start end '(:org-archived nil :org-comment nil))
    (put-text-property start end 'org-category category)
    (when archived (put-text-property start end :org-archived t))
    (when comment (put-text-property start end :org-comment t))
    (when effort
      (add-text-properties start end (list 'effort effort 'effort-minutes
                                           (org-duration-to-minutes effort))))
    (when warn (put-text-property start end 'org-appt-warntime warn))))

(defun org-views-agenda--ready (start end)
  "Give the section from START to END its text properties for Org."
  (let ((key (cons (current-buffer) start))
        (table (org-views-agenda--run-ready org-views-agenda--run)))
    (unless (gethash key table)
      (puthash key t table)
      (goto-char start)
      (let ((heading (looking-at-p "\\*+ ")))
        (with-silent-modifications
          (when (and heading (not (memq 'stats org-agenda-ignore-properties)))
            (org-views-agenda--put-stats start end))
          (when org-views-agenda--early-p
            (if heading (org-views-agenda--put-inherited start end)
              (put-text-property start end 'org-category
                                 (org-views-agenda--file-category)))))))))

;;;; To the headings

(defun org-views-agenda--other-keywords-p (file)
  "Whether Org has other keywords in the current buffer than the engine in FILE."
  (let ((here (org-views--sequences)) (there (org-views--file-keywords file)))
    (cl-flet ((flat (rows find) (sort (delete-dups (seq-mapcat find rows)) #'string<))
              (open (row) (seq-take-while (lambda (it) (not (equal it "|"))) row))
              (done (row) (cdr (member "|" row))))
      (not (and (equal (flat here #'open) (flat there #'open))
                (equal (flat here #'done) (flat there #'done)))))))

(defun org-views-agenda--visit (path file)
  "The buffer that visits PATH; the engine's FILE is in step with it then.
Throw to `own' why, where Org has to look itself."
  (let ((buffer (org-get-agenda-file-buffer path))
        (serial (org-views--file-serial file)))
    (unless (memq file (org-views-agenda--run-settled org-views-agenda--run))
      (unless (eq buffer (org-views--file-buffer file))
        (when (org-views--file-buffer file) (org-views--unfollow file))
        (org-views--follow file buffer))
      (org-views--settle-safely file)
      (unless (= serial (org-views--file-serial file))
        (org-views--ask-keywords)
        (org-views--ask "version")
        (clrhash (org-views-agenda--run-answers org-views-agenda--run)))
      (push file (org-views-agenda--run-settled org-views-agenda--run)))
    (with-current-buffer buffer
      (cond ((stringp (org-views-agenda--file path))
             (throw 'own (org-views-agenda--file path)))
            ((not (derived-mode-p 'org-mode))
             (throw 'own (format "%s: not in Org mode" (org-views--file-name file))))
            ((org-views-agenda--other-keywords-p file)
             (throw 'own (format "%s: Org has other keywords" (org-views--file-name file))))))
    buffer))

(defun org-views-agenda--restriction ()
  "What of the current buffer Org is restricted to, as (BEG . END), or nil.
Throw to `own' why, where it doesn't begin with a heading."
  (when (eq (current-buffer) org-agenda-restrict)
    (let ((beg (marker-position org-agenda-restrict-begin))
          (end (marker-position org-agenda-restrict-end)))
      (unless (or (= beg (point-min))
                  (save-excursion (goto-char beg) (looking-at-p "^\\*+ ")))
        (throw 'own "a restriction within a section"))
      (cons beg end))))

(defun org-views-agenda--sections (bytes)
  "The sections at BYTES of the current buffer, as a list of (START . END).
Its text is widened.  Throw to `own' why, where no heading is there."
  (let* ((within (org-views-agenda--restriction))
         (beg (if within (car within) (point-min)))
         (end (if within (cdr within) (point-max)))
         sections)
    (save-excursion
      (dolist (byte bytes)
        (let ((start (byte-to-position (1+ byte))))
          (unless (and start
                       (progn (goto-char start)
                              (or (looking-at-p "^\\*+ ") (= start (point-min)))))
            (throw 'own (format "%s: its text has moved" (buffer-name))))
          (when (and (<= beg start) (< start end))
            (forward-line (if (looking-at-p "\\*+ ") 1 0))
            (push (cons start (if (re-search-forward "^\\*+ " end t) (match-beginning 0) end))
                  sections)))))
    (nreverse sections)))

;;;; Days and lists

(defconst org-views-agenda--order
  '(("deadline" :deadline :deadline*) ("upcoming-deadline" :deadline :deadline*)
    ("scheduled" :scheduled :scheduled*) ("past-scheduled" :scheduled :scheduled*)
    ("block" :timestamp) ("timestamp" :timestamp) ("sexp" :sexp)
    ("closed" :closed) ("clock" :closed) ("state" :closed))
  "Kinds of rows, with the types of `org-agenda-entry-types' that give them.")

(defun org-views-agenda--rank (types)
  "A function that gives the rank of a row among rows of TYPES.
Org makes all rows of a type before those of the next, deadlines first, and
those of ranges before those of stamps.  Where two have the same place by the
sorting strategy, that order stays."
  (let* ((types (org-uniquify types))
         (rank (lambda (type)
                 (if (memq type '(:deadline :deadline*)) 0
                   (* 2 (1+ (or (cl-position type types) (length types)))))))
         (ranks (mapcar (lambda (it)
                          (cons (car it)
                                (+ (if (equal (car it) "timestamp") 1 0)
                                   (apply #'min (mapcar rank (cdr it))))))
                        org-views-agenda--order))
         (todo (funcall rank :todo)))
    (lambda (row)
      (alist-get (get-text-property 0 'type row) ranks todo nil #'equal))))

(defun org-views-agenda--in-order (rows types)
  "ROWS, which stand by headings, in the order in which Org has those of TYPES."
  (let ((rank (org-views-agenda--rank types)) shelves)
    (dolist (row rows)
      (let ((it (funcall rank row)))
        (push row (alist-get it shelves))))
    (mapcan (lambda (shelf) (nreverse (cdr shelf)))
            (sort shelves (lambda (a b) (< (car a) (car b)))))))

(defun org-views-agenda--types-at (section date types)
  "Those of TYPES that could give a row of SECTION on DATE."
  (pcase-let ((`(,start . ,end) section) (case-fold-search nil))
    (cl-flet ((holds (text) (goto-char start) (search-forward text end t)))
      (seq-filter
       (lambda (type)
         (pcase type
           ((or :deadline :deadline*) (holds org-deadline-string))
           ((or :scheduled :scheduled*) (holds org-scheduled-string))
           (:timestamp (or (holds "<") org-agenda-include-inactive-timestamps))
           (:sexp (holds "%%("))
           (:closed (holds (concat "[" (org-views-agenda--iso date))))
           (:todo (org-agenda-today-p date))
           (_ t)))
       types))))

(defmacro org-views-agenda--lead (section &rest body)
  "Do BODY, which leads Org to SECTION of the current buffer."
  (declare (indent 1) (debug t))
  `(let ((org-views-agenda--bounds (or (org-views-agenda--restriction) t)))
     (cl-incf (org-views-agenda--run-visits org-views-agenda--run))
     (org-views-agenda--ready (car ,section) (cdr ,section))
     ,@body))

(defun org-views-agenda--rows-at (section fun path date types)
  "The rows of SECTION, made by FUN of PATH, DATE and TYPES."
  (let ((types (org-views-agenda--types-at section date types)))
    (when types
      (org-views-agenda--lead section
        (let ((org-agenda-restrict (current-buffer))
              (org-agenda-restrict-begin (car section))
              (org-agenda-restrict-end (cdr section)))
          (apply fun path date types))))))

(defun org-views-agenda--search-for (date types)
  "The texts that lead to rows of TYPES on DATE which the engine doesn't name."
  (and (or (memq :closed types)
           (and org-agenda-include-inactive-timestamps (memq :timestamp types)))
       (list (concat "[" (org-views-agenda--iso date)))))

(defun org-views-agenda--odd-of (file buffer date types)
  "The bytes of headings of FILE that are odd on DATE for TYPES.
BUFFER visits it, or is nil.  Throw to `own' why, where Org has to look itself."
  (let ((search (org-views-agenda--search file buffer)))
    (when (org-views-agenda--search-other search)
      (throw 'own (format "%s: carriage returns or tabs" (org-views--file-name file))))
    (unless (equal types '(:todo))
      (org-views-agenda--odd-bytes search (org-views-agenda--iso date)))))

(defun org-views-agenda--cold-p (path file date types)
  "Whether no row of TYPES on DATE stands in FILE, at PATH, which no buffer visits.
Throw to `own' why, where that isn't known."
  (and (not (org-find-base-buffer-visiting path))
       (not (org-views-agenda--search-for date types))
       (null (org-views-agenda--odd-of file nil date types))
       (null (org-views-agenda--bytes file (org-views-agenda--questions date types)))))

(defun org-views-agenda--all-bytes (file date types)
  "The bytes of the headings of FILE, which the current buffer visits, that count.
DATE and TYPES are what Org asks."
  (apply #'org-views-agenda--merge
         (org-views-agenda--odd-of file (current-buffer) date types)
         (org-views-agenda--bytes file (org-views-agenda--questions date types))
         (mapcar #'org-views-agenda--sections-with
                 (org-views-agenda--search-for date types))))

(defun org-views-agenda--rows (fun path date types)
  "The rows of TYPES on DATE in the file at PATH, made by FUN.
Throw to `own' why, where Org has to look itself."
  (let ((why (org-views-agenda--why-not (if (equal types '(:todo)) 'todo 'agenda)))
        (file (org-views-agenda--file path)))
    (when (or why (stringp file)) (throw 'own (or why file)))
    (unless (org-views-agenda--cold-p path file date types)
      (with-current-buffer (org-views-agenda--visit path file)
        (save-excursion
          (save-restriction
            (widen)
            (org-views-agenda--in-order
             (mapcan (lambda (section)
                       (org-views-agenda--rows-at section fun path date types))
                     (org-views-agenda--sections
                      (org-views-agenda--all-bytes file date types)))
             types)))))))

(defun org-views-agenda--get-day-entries (fun path date &rest types)
  "Around FUN, which is `org-agenda-get-day-entries' of PATH, DATE and TYPES."
  (if (null org-views-agenda--run)
      (apply fun path date types)
    (setf (org-views-agenda--run-looked org-views-agenda--run) t)
    (let ((rows (catch 'own
                  (org-views-agenda--rows fun path date (or types org-agenda-entry-types)))))
      (if (listp rows) rows
        (org-views-agenda--own-way path rows)
        (apply fun path date types)))))

;;;; Matches

(defun org-views-agenda--scan-section (section fun matcher todo-only)
  "The rows of SECTION, made by FUN with MATCHER and TODO-ONLY."
  (org-views-agenda--lead section
    (goto-char (car section))
    (let ((org-file-tags
           (append org-file-tags
                   ;; Later versions know the headings above a section.
                   (and org-views-agenda--early-p
                        (org-up-heading-safe)
                        (mapcar (lambda (tag) (org-add-prop-inherited (copy-sequence tag)))
                                (nth 4 (org-views-agenda--inherited)))))))
      (save-restriction
        (narrow-to-region (car section) (cdr section))
        (funcall fun 'agenda matcher todo-only)))))

(defun org-views-agenda--matching-bytes (file match todo-only)
  "The bytes of the headings of FILE that fit MATCH; with TODO-ONLY, of tasks."
  (let ((bytes (org-views-agenda--bytes file (list (org-views-agenda--match-question match)))))
    (if (not todo-only) bytes
      (let ((tasks (make-hash-table)))
        (dolist (byte (org-views-agenda--bytes
                       file (list (org-views-agenda--keyword-question "*"))))
          (puthash byte t tasks))
        (seq-filter (lambda (byte) (gethash byte tasks)) bytes)))))

(defun org-views-agenda--matched (fun match matcher todo-only)
  "The rows of MATCH, made by FUN with MATCHER and TODO-ONLY.
Throw to `own' why, where Org has to look itself."
  (let* ((path (buffer-file-name (buffer-base-buffer)))
         (file (org-views-agenda--file path))
         (why (or (org-views-agenda--why-not-match match)
                  (org-views-agenda--why-not-here match))))
    (when (or why (stringp file)) (throw 'own (or why file)))
    (org-views-agenda--visit path file)
    (when (org-views-agenda--search-other (org-views-agenda--search file (current-buffer)))
      (throw 'own (format "%s: carriage returns or tabs" (org-views--file-name file))))
    (save-excursion
      (save-restriction
        (widen)
        (mapcan (lambda (section)
                  (org-views-agenda--scan-section section fun matcher todo-only))
                (org-views-agenda--sections
                 (org-views-agenda--merge
                  (org-views-agenda--odd-bytes
                   (org-views-agenda--search file (current-buffer)) t)
                  (and (or todo-only (string-search "/" match)
                           (org-views-agenda--names-p match "TODO" "PRIORITY"))
                       (org-views-agenda--odd-marks file))
                  (org-views-agenda--matching-bytes file match todo-only))))))))

(defun org-views-agenda--scan-tags (fun action matcher todo-only &optional level)
  "Around FUN, which is `org-scan-tags' of ACTION, MATCHER, TODO-ONLY and LEVEL."
  (if (not (and org-views-agenda--run (eq action 'agenda) (null level)))
      (funcall fun action matcher todo-only level)
    (setf (org-views-agenda--run-looked org-views-agenda--run) t)
    (let ((rows (catch 'own
                  (org-views-agenda--matched fun org-agenda-query-string matcher todo-only))))
      (if (listp rows) rows
        (org-views-agenda--own-way (buffer-file-name (buffer-base-buffer)) rows)
        (funcall fun action matcher todo-only level)))))

;;;; Around Org's commands

(defvar-local org-views-agenda--settings nil
  "The lines that may be settings when Org read them last, after the buffer's tick.")

(defun org-views-agenda--setting-lines ()
  "The lines of the current buffer that may be settings, as one text."
  (org-with-wide-buffer
   (goto-char (point-min))
   (let (lines)
     (while (search-forward "#+" nil t)
       (when (save-excursion (goto-char (match-beginning 0))
                             (skip-chars-backward " \t") (bolp))
         (push (buffer-substring-no-properties (point) (line-end-position)) lines)))
     (string-join lines "\n"))))

(defun org-views-agenda--read-settings ()
  "Have Org read the current buffer's settings, where they have changed.
Org does so before each agenda, over the whole text."
  (let ((tick (buffer-chars-modified-tick)) (case-fold-search t))
    (unless (and (eql tick (car org-views-agenda--settings))
                 (not (string-match-p "^setupfile:" (cdr org-views-agenda--settings))))
      (let ((lines (org-views-agenda--setting-lines)))
        (unless (and (equal lines (cdr org-views-agenda--settings))
                     (not (string-match-p "^setupfile:" lines)))
          (org-with-wide-buffer (org-set-regexps-and-options 'tags-only)))
        (setq org-views-agenda--settings (cons tick lines))))))

(defun org-views-agenda--note-words (words done)
  "Note that an agenda file has the keywords WORDS, of which DONE are done."
  (if (version< org-version "9.7")
      (setq org-todo-keywords-for-agenda (append org-todo-keywords-for-agenda words)
            org-done-keywords-for-agenda (append org-done-keywords-for-agenda done))
    (dolist (word words) (cl-pushnew word org-todo-keywords-for-agenda :test #'equal))
    (dolist (word done) (cl-pushnew word org-done-keywords-for-agenda :test #'equal))))

(defun org-views-agenda--note-tags ()
  "Note the keys of keywords, the tags and their groups of the current buffer."
  (if (version< org-version "9.7")
      (setq org-todo-keyword-alist-for-agenda
            (append org-todo-keyword-alist-for-agenda org-todo-key-alist)
            org-tag-alist-for-agenda
            (org--tag-add-to-alist org-tag-alist-for-agenda org-current-tag-alist))
    (setq org-todo-keyword-alist-for-agenda
          (org--tag-add-to-alist org-todo-key-alist org-todo-keyword-alist-for-agenda)
          org-tag-alist-for-agenda
          (org--tag-add-to-alist org-current-tag-alist org-tag-alist-for-agenda)))
  (when org-group-tags
    (dolist (group org-tag-groups-alist)
      (let ((old (assoc (car group) org-tag-groups-alist-for-agenda)))
        (if old (setcdr old (org-uniquify (append (cdr old) (cdr group))))
          (push (copy-sequence group) org-tag-groups-alist-for-agenda))))))

(defun org-views-agenda--visit-for-settings (path file)
  "Visit PATH, the engine's FILE, if its settings are known only then: its buffer.
Throw to `own' why, where Org has to look itself."
  (and (or (dir-locals-find-file path)
           (org-views-agenda--search-setup (org-views-agenda--search file nil)))
       (org-views-agenda--visit path file)))

(defun org-views-agenda--note-settings (path)
  "Note the keywords and tags of the agenda file at PATH.
Where no buffer visits it, they are the keywords that the engine has."
  (let* ((file (org-views-agenda--file path))
         (buffer (cond ((stringp file)
                        (and (file-exists-p path) (org-get-agenda-file-buffer path)))
                       ((org-find-base-buffer-visiting path))
                       ;; Where Org has to look itself, it will come to that.
                       ((bufferp (catch 'own (org-views-agenda--visit-for-settings path file)))
                        (org-find-base-buffer-visiting path)))))
    (cond
     (buffer
      (with-current-buffer buffer
        (when (derived-mode-p 'org-mode)
          (org-views-agenda--read-settings)
          (org-views-agenda--note-words org-todo-keywords-1 org-done-keywords)
          (org-views-agenda--note-tags))))
     ((not (stringp file))
      (dolist (words (org-views--file-keywords file))
        (org-views-agenda--note-words (remove "|" words) (cdr (member "|" words))))))))

(defun org-views-agenda--prepare-buffers (fun files)
  "Around FUN, which is `org-agenda-prepare-buffers' of FILES.
No text is gone over, and no file is visited for that."
  (if (or (null org-views-agenda--run)
          (org-views-agenda--run-off org-views-agenda--run))
      (funcall fun files)
    (setq org-tag-alist-for-agenda nil
          org-tag-groups-alist-for-agenda nil)
    (mapc #'org-views-agenda--note-settings files)
    (setq org-todo-keywords-for-agenda (org-uniquify org-todo-keywords-for-agenda)
          org-todo-keyword-alist-for-agenda
          (org-uniquify org-todo-keyword-alist-for-agenda))))

(defun org-views-agenda--see-all (fun &rest args)
  "Around FUN of ARGS, which may look around an entry: have it see what Org sees."
  (if (null org-views-agenda--bounds)
      (apply fun args)
    (save-restriction
      (if (consp org-views-agenda--bounds)
          (narrow-to-region (car org-views-agenda--bounds) (cdr org-views-agenda--bounds))
        (widen))
      (apply fun args))))

(defun org-views-agenda--all-own-way (why)
  "Have Org prepare all files for its own way in a block; note WHY."
  (when (and org-views-agenda--run (not (org-views-agenda--run-off org-views-agenda--run)))
    (setf (org-views-agenda--run-looked org-views-agenda--run) t)
    (dolist (path (org-agenda-files nil 'ifmode))
      (org-views-agenda--own-way path why))))

(defun org-views-agenda--before-search (&rest _)
  "Have Org prepare all files, since `org-search-view' is a block of an agenda."
  (org-views-agenda--all-own-way "a search for text"))

(defvar-local org-views-agenda--whys nil
  "Why Org looked itself for the agenda in this buffer, in a list.")

(defun org-views-agenda--tell (run)
  "Have the agenda's header line say where Org looked itself in RUN."
  (let ((buffer (get-buffer org-agenda-buffer-name))
        (off (org-views-agenda--run-off run)))
    (when (and buffer (or off (org-views-agenda--run-looked run)))
      (with-current-buffer buffer
        (setq org-views-agenda--whys
              (delete-dups (append (and org-agenda-multi org-views-agenda--whys)
                                   (if off (list off)
                                     (reverse (org-views-agenda--run-whys run))))))
        (when org-views-agenda--whys
          (setq header-line-format
                (string-replace "%" "%%" (concat " Org looked itself: "
                                                 (string-join org-views-agenda--whys ", ")))))))))

(defun org-views-agenda--begin ()
  "A new `org-views-agenda--run', for which the engine is in step."
  (let ((run (make-org-views-agenda--run)))
    (condition-case fault
        (org-views-agenda--sync)
      (error (setf (org-views-agenda--run-off run) (error-message-string fault))))
    run))

(defun org-views-agenda--complete ()
  "Give the engine the agenda files that a block has of its own."
  (when (seq-some (lambda (path) (null (org-views-agenda--engine-file path)))
                  (org-agenda-files nil 'ifmode))
    (org-views-agenda--sync)))

(defun org-views-agenda--around (fun &rest args)
  "Around FUN of ARGS, one of Org's commands that make an agenda."
  (if org-views-agenda--run
      (progn (unless (org-views-agenda--run-off org-views-agenda--run)
               (org-views-agenda--complete))
             (apply fun args))
    (let ((org-views-agenda--run (org-views-agenda--begin))
          ;; Else a third of the time goes into collections of garbage.
          (gc-cons-threshold (max gc-cons-threshold 67108864)))
      (setq org-views-agenda--last org-views-agenda--run)
      (prog1 (apply fun args)
        (org-views-agenda--tell org-views-agenda--run)))))

(defun org-views-agenda--series (fun name series)
  "Around FUN, which is `org-agenda-run-series' of NAME and SERIES.
A block that is a function of its own may look at any file."
  (org-views-agenda--around
   (lambda ()
     (let ((own (seq-find (lambda (it)
                            (not (memq (car it) '(agenda agenda* alltodo todo tags tags-todo
                                                         search stuck))))
                          (car series))))
       (when own
         (org-views-agenda--all-own-way (format "a block of %s" (car own))))
       (funcall fun name series)))))

(defconst org-views-agenda--advice
  '((org-agenda-list . org-views-agenda--around)
    (org-todo-list . org-views-agenda--around)
    (org-tags-view . org-views-agenda--around)
    (org-agenda-run-series . org-views-agenda--series)
    (org-agenda-prepare-buffers . org-views-agenda--prepare-buffers)
    (org-agenda-get-day-entries . org-views-agenda--get-day-entries)
    (org-scan-tags . org-views-agenda--scan-tags)
    (org-agenda-skip-eval . org-views-agenda--see-all)
    (org-agenda-format-item . org-views-agenda--see-all))
  "Org's functions, and what goes around them in `org-views-agenda-mode'.")

;;;###autoload
(define-minor-mode org-views-agenda-mode
  "Have Org's own agendas look only at headings that the engine names.
Rows are made by Org, as without the mode.  Where Org has to look itself, the
header line of the agenda says why."
  :global t
  :group 'org-views
  (pcase-dolist (`(,fun . ,around) org-views-agenda--advice)
    (if org-views-agenda-mode
        (advice-add fun :around around)
      (advice-remove fun around)))
  (if org-views-agenda-mode
      (advice-add 'org-search-view :before #'org-views-agenda--before-search)
    (advice-remove 'org-search-view #'org-views-agenda--before-search)))

(provide 'org-views-agenda)
;;; org-views-agenda.el ends here
