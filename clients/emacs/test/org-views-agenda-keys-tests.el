;;; org-views-agenda-keys-tests.el --- Keys of Org's agenda in the mode  -*- lexical-binding: t; -*-

;; SPDX-License-Identifier: Apache-2.0 OR MIT

;;; Commentary:

;; Keys are pressed in an agenda of `org-views-agenda-mode', and after each
;; its effect is looked at.  Then the agenda is asked again, in the mode and
;; by Org alone, and both have to be the same buffer.  The same runs in a
;; terminal by `org-views-agenda-keys-tests-in-terminal'.

;;; Code:

(require 'cl-lib)
(require 'ert)
(require 'org-capture)
(require 'org-clock)
(require 'org-views-agenda-tests)

(defvar org-views-agenda-keys-tests--said nil
  "What was looked at, as a list of (NAME . WELL), the latest first.")

(defun org-views-agenda-keys-tests--look (name well)
  "Note under NAME whether it is WELL."
  (push (cons name (and well t)) org-views-agenda-keys-tests--said))

(defun org-views-agenda-keys-tests--press (keys)
  "Press KEYS, as `kbd' writes them."
  (condition-case fault
      (execute-kbd-macro (kbd keys))
    (error (org-views-agenda-keys-tests--look
            (format "%s: %s" keys (error-message-string fault)) nil))))

(defun org-views-agenda-keys-tests--show ()
  "Go to the agenda."
  (switch-to-buffer org-agenda-buffer-name))

(defun org-views-agenda-keys-tests--goto (text)
  "Go to the row with TEXT."
  (goto-char (point-min))
  (org-views-agenda-keys-tests--look (concat "there is a row with " text)
                                     (search-forward text nil t))
  (beginning-of-line))

(defun org-views-agenda-keys-tests--shown-p (regexp)
  "Whether REGEXP is found in the agenda."
  (save-excursion (goto-char (point-min)) (re-search-forward regexp nil t)))

(defun org-views-agenda-keys-tests--path (name)
  "The path of the test's file NAME."
  (expand-file-name name org-views-agenda-tests-folder))

(defun org-views-agenda-keys-tests--written-p (name regexp)
  "Whether REGEXP is found in the buffer of the file NAME."
  (with-current-buffer (find-file-noselect (org-views-agenda-keys-tests--path name))
    (org-with-wide-buffer (goto-char (point-min)) (re-search-forward regexp nil t))))

(defun org-views-agenda-keys-tests--same (name)
  "Note under NAME whether the agenda, asked again, is the same as Org's."
  (let ((line (line-number-at-pos)) ours own)
    (org-views-agenda-tests--forget-rows)
    (org-views-agenda-keys-tests--press "r")
    (setq ours (org-views-agenda-tests-lines))
    (org-views-agenda-keys-tests--look (concat name ": Org didn't look itself")
                                       (null (org-views-agenda-tests--whys)))
    (org-views-agenda-mode -1)
    (org-views-agenda-tests--forget-rows)
    (org-views-agenda-keys-tests--press "r")
    (setq own (org-views-agenda-tests-lines))
    (org-views-agenda-mode 1)
    (let ((difference (org-views-agenda-tests--difference ours own)))
      (org-views-agenda-keys-tests--look
       (if difference (format "%s: %S" name difference) (concat name ": the same buffer"))
       (null difference)))
    (goto-char (point-min))
    (forward-line (1- line))))

(defun org-views-agenda-keys-tests--tasks ()
  "Keys that change tasks: keyword, undo, bulk."
  (org-agenda-list nil nil 'day)
  (org-views-agenda-keys-tests--show)
  (org-views-agenda-keys-tests--look "a buffer of org-agenda-mode"
                                     (derived-mode-p 'org-agenda-mode))
  (org-views-agenda-keys-tests--same "a day")
  (org-views-agenda-keys-tests--goto "Write the importer")
  (org-views-agenda-keys-tests--press "t d")
  (org-views-agenda-keys-tests--look
   "t d: done in the file"
   (org-views-agenda-keys-tests--written-p "work.org" "DONE \\[#A\\] Write the importer"))
  (org-views-agenda-keys-tests--look "t d: done in the row"
                                     (save-excursion (beginning-of-line) (looking-at-p ".*DONE")))
  (org-views-agenda-keys-tests--look
   "t d: unsaved"
   (buffer-modified-p (find-buffer-visiting (org-views-agenda-keys-tests--path "work.org"))))
  (org-views-agenda-keys-tests--same "after t d")
  (org-views-agenda-keys-tests--goto "Back up the laptop")
  (org-views-agenda-keys-tests--press "t d")
  (org-views-agenda-keys-tests--look
   "t on a repeated task shifts it"
   (not (org-views-agenda-keys-tests--written-p
         "home.org" (concat "Back up the laptop\nSCHEDULED: <"
                            (substring (org-views-agenda-sets-day -3) 0 10)))))
  (setq last-command nil)
  (org-views-agenda-keys-tests--press "C-/")
  (org-views-agenda-keys-tests--look
   "undo shifts it back"
   (org-views-agenda-keys-tests--written-p
    "home.org" (concat "Back up the laptop\nSCHEDULED: <"
                       (substring (org-views-agenda-sets-day -3) 0 10))))
  (org-views-agenda-keys-tests--same "after undo")
  (dolist (row '("Water the office plants" "Tax letter"))
    (org-views-agenda-keys-tests--goto row)
    (org-views-agenda-keys-tests--press "m"))
  (org-views-agenda-keys-tests--look "m marks two" (= (length org-agenda-bulk-marked-entries) 2))
  (org-views-agenda-keys-tests--press "B s +3d RET")
  (let ((day (substring (org-views-agenda-sets-day 3) 0 10)))
    (org-views-agenda-keys-tests--look
     "B s: in the one file" (org-views-agenda-keys-tests--written-p
                             "work.org" (concat "Water the office plants.*\nSCHEDULED: <" day)))
    (org-views-agenda-keys-tests--look
     "B s: in the other" (org-views-agenda-keys-tests--written-p
                          "home.org" (concat "Tax letter\nSCHEDULED: <" day))))
  (org-views-agenda-keys-tests--same "after m m B s"))

(defun org-views-agenda-keys-tests--days ()
  "Keys that change what is shown."
  (org-views-agenda-keys-tests--press "g")
  (org-views-agenda-keys-tests--same "after g")
  (org-views-agenda-keys-tests--press "l")
  (org-views-agenda-keys-tests--look
   "l: log mode" (and org-agenda-show-log
                      (org-views-agenda-keys-tests--shown-p "Closed:\\|Clocked:")))
  (org-views-agenda-keys-tests--same "after l")
  (org-views-agenda-keys-tests--press "l")
  (org-views-agenda-keys-tests--press "v w")
  (org-views-agenda-keys-tests--look "v w: a week" (eq org-agenda-current-span 'week))
  (org-views-agenda-keys-tests--same "after v w")
  (org-views-agenda-keys-tests--press "f")
  (org-views-agenda-keys-tests--same "after f")
  (org-views-agenda-keys-tests--press "b")
  (org-views-agenda-keys-tests--press "b")
  (org-views-agenda-keys-tests--same "after b b")
  (org-views-agenda-keys-tests--press ".")
  (org-views-agenda-keys-tests--press "v d")
  (org-views-agenda-keys-tests--look "v d: a day" (eq org-agenda-current-span 'day))
  (org-views-agenda-keys-tests--same "after v d")
  (org-views-agenda-keys-tests--press "D")
  (org-views-agenda-keys-tests--look "D: the diary" org-agenda-include-diary)
  (org-views-agenda-keys-tests--same "after D")
  (org-views-agenda-keys-tests--press "D")
  (org-views-agenda-keys-tests--press "R")
  (org-views-agenda-keys-tests--look "R: a clock report"
                                     (org-views-agenda-keys-tests--shown-p "Total time"))
  (org-views-agenda-keys-tests--same "after R")
  (org-views-agenda-keys-tests--press "R")
  (org-agenda-list nil nil 'day)
  (org-views-agenda-keys-tests--show)
  (org-views-agenda-keys-tests--goto "Answers from the agency")
  (org-views-agenda-keys-tests--press "<")
  (org-views-agenda-keys-tests--look
   "<: rows of the category alone"
   (save-excursion
     (goto-char (point-min))
     (cl-loop until (eobp)
              always (or (null (get-text-property (point) 'org-hd-marker))
                         (equal (get-text-property (point) 'org-category) "work")
                         (invisible-p (point)))
              do (forward-line 1))))
  (org-views-agenda-keys-tests--press "<"))

(defun org-views-agenda-keys-tests--entries ()
  "Keys that capture, plan, tag, clock, kill and archive entries."
  (org-views-agenda-keys-tests--press "k t")
  (org-views-agenda-keys-tests--show)
  (org-views-agenda-keys-tests--press "r")
  (org-views-agenda-keys-tests--look "k t: captured, and in the agenda"
                                     (org-views-agenda-keys-tests--shown-p "captured"))
  (org-views-agenda-keys-tests--same "after k t")
  (org-views-agenda-keys-tests--goto "Compare totals")
  (org-views-agenda-keys-tests--press "C-c C-d +1d RET")
  (org-views-agenda-keys-tests--same "after C-c C-d")
  (org-views-agenda-keys-tests--goto "Compare totals")
  (org-views-agenda-keys-tests--press "+")
  (org-views-agenda-keys-tests--look
   "+: a priority"
   (org-views-agenda-keys-tests--written-p "home.org" "TODO \\[#.\\] Compare totals"))
  (org-views-agenda-keys-tests--same "after +")
  (org-views-agenda-keys-tests--goto "Compare totals")
  (org-agenda-set-tags "paper" 'on)
  (org-views-agenda-keys-tests--same "after a tag")
  (org-views-agenda-keys-tests--goto "Compare totals")
  (org-views-agenda-keys-tests--press "I")
  (org-views-agenda-keys-tests--look "I: the clock runs" (org-clocking-p))
  (org-views-agenda-keys-tests--same "after I")
  (org-views-agenda-keys-tests--press "O")
  (org-views-agenda-keys-tests--look "O: it doesn't any more" (not (org-clocking-p)))
  (org-views-agenda-keys-tests--same "after O")
  (org-views-agenda-keys-tests--goto "Run")
  (org-views-agenda-keys-tests--press "C-k")
  (org-views-agenda-keys-tests--look
   "C-k: gone in the file" (not (org-views-agenda-keys-tests--written-p "habits.org" "TODO Run")))
  (setq last-command nil)
  (org-views-agenda-keys-tests--press "C-/")
  (org-views-agenda-keys-tests--look
   "undo brings it back" (org-views-agenda-keys-tests--written-p "habits.org" "TODO Run"))
  (org-views-agenda-keys-tests--same "after C-k and undo")
  (org-views-agenda-keys-tests--goto "Run")
  (org-views-agenda-keys-tests--press "C-k")
  (org-views-agenda-keys-tests--same "after C-k")
  (org-views-agenda-keys-tests--goto "Answers from the agency")
  (org-views-agenda-keys-tests--press "$")
  (org-views-agenda-keys-tests--look
   "$: gone in the file"
   (not (org-views-agenda-keys-tests--written-p "work.org" "Answers from the agency")))
  (org-views-agenda-keys-tests--look
   "$: in the archive"
   (org-views-agenda-keys-tests--written-p "work.org_archive" "Answers from the agency"))
  (org-views-agenda-keys-tests--show)
  (org-views-agenda-keys-tests--same "after $")
  (org-views-agenda-keys-tests--goto "Read the 14")
  (org-views-agenda-keys-tests--press "RET")
  (org-views-agenda-keys-tests--look
   "RET: at the heading"
   (with-current-buffer (window-buffer)
     (and (derived-mode-p 'org-mode)
          (save-excursion (org-back-to-heading t)
                          (looking-at-p "\\*\\* TODO Read the 14")))))
  (org-views-agenda-keys-tests--show)
  (org-views-agenda-keys-tests--press "F")
  (org-views-agenda-keys-tests--look "F: follow mode" org-agenda-follow-mode)
  (org-views-agenda-keys-tests--press "F")
  (org-views-agenda-keys-tests--press "E")
  (org-views-agenda-keys-tests--look "E: entry text" org-agenda-entry-text-mode)
  (org-views-agenda-keys-tests--press "E"))

(defun org-views-agenda-keys-tests--append ()
  "A list behind the agenda, by A."
  (org-views-agenda-keys-tests--press "A t")
  (org-views-agenda-keys-tests--look "A t: the list is behind it"
                                     (org-views-agenda-keys-tests--shown-p "Global list of TODO"))
  (org-views-agenda-keys-tests--same "after A t"))

(defun org-views-agenda-keys-tests--lists ()
  "Keys in lists and matches, and what others do meanwhile."
  (org-todo-list nil)
  (org-views-agenda-keys-tests--show)
  (org-views-agenda-keys-tests--same "a list")
  (org-views-agenda-keys-tests--press "2 r")
  (org-views-agenda-keys-tests--same "2 r: the second keyword")
  (org-tags-view nil "money")
  (org-views-agenda-keys-tests--show)
  (org-views-agenda-keys-tests--same "a match")
  (org-views-agenda-keys-tests--goto "Compare totals")
  (org-views-agenda-keys-tests--press "t d")
  (org-views-agenda-keys-tests--same "a match after t d")
  (with-current-buffer (find-buffer-visiting (org-views-agenda-keys-tests--path "home.org"))
    (goto-char (point-max))
    (insert "* TODO typed just now :money:\nDEADLINE: " (format-time-string "<%F %a 24:00>") "\n")
    (goto-char (point-min))
    (search-forward "* Money")
    (insert " and more"))
  (org-views-agenda-keys-tests--same "a match after typing")
  (org-views-agenda-keys-tests--look "what was typed is there"
                                     (org-views-agenda-keys-tests--shown-p "typed just now"))
  (org-agenda-list nil nil 'day)
  (org-views-agenda-keys-tests--show)
  (org-views-agenda-keys-tests--same "a day after typing")
  (org-views-agenda-keys-tests--look "and there as well"
                                     (org-views-agenda-keys-tests--shown-p "typed just now"))
  (with-current-buffer (find-buffer-visiting (org-views-agenda-keys-tests--path "home.org"))
    (goto-char (point-max))
    (search-backward " 24:00")
    (delete-region (match-beginning 0) (match-end 0)))
  (org-views-agenda-keys-tests--same "after typing in it")
  (let ((path (org-views-agenda-keys-tests--path "inbox.org")))
    (with-current-buffer (find-file-noselect path)
      (save-buffer)
      (kill-buffer))
    (write-region (concat "* TODO from outside\nSCHEDULED: " (format-time-string "<%F %a>") "\n")
                  nil path 'append 'quiet))
  (org-views-agenda-keys-tests--press "r")
  (org-views-agenda-keys-tests--look "what another program wrote is there"
                                     (org-views-agenda-keys-tests--shown-p "from outside"))
  (org-views-agenda-keys-tests--same "after another program"))

(defun org-views-agenda-keys-tests--restrictions ()
  "Restriction locks, sticky agendas, and an engine that isn't there."
  (with-current-buffer (find-file-noselect (org-views-agenda-keys-tests--path "home.org"))
    (goto-char (point-min))
    (search-forward "* Garden")
    (org-agenda-set-restriction-lock 'subtree))
  (org-agenda-list nil nil 'day)
  (org-views-agenda-keys-tests--show)
  (org-views-agenda-keys-tests--look
   "a lock on a tree" (and (org-views-agenda-keys-tests--shown-p "Guests")
                           (not (org-views-agenda-keys-tests--shown-p "Standup"))))
  (org-views-agenda-keys-tests--same "a lock on a tree")
  (org-views-agenda-keys-tests--press "C-c C-x >")
  (org-views-agenda-keys-tests--look "the lock is gone" (null org-agenda-restrict))
  (org-views-agenda-keys-tests--show)
  (org-views-agenda-keys-tests--same "after the lock")
  (with-current-buffer (find-file-noselect (org-views-agenda-keys-tests--path "home.org"))
    (org-agenda-set-restriction-lock 'file))
  (org-todo-list nil)
  (org-views-agenda-keys-tests--show)
  (org-views-agenda-keys-tests--same "a lock on a file")
  ;; Org's own command takes no lock on a file away.
  (put 'org-agenda-files 'org-restrict nil)
  (dlet ((org-agenda-sticky t))
    (org-agenda nil "a")
    (let ((first (window-buffer)))
      (set-buffer first)
      (org-views-agenda-keys-tests--look "sticky: a buffer of its own"
                                         (equal (buffer-name) "*Org Agenda(a)*"))
      (org-views-agenda-keys-tests--same "a sticky agenda")
      (org-agenda nil "t")
      (set-buffer (window-buffer))
      (org-views-agenda-keys-tests--look "sticky: the list has another"
                                         (not (eq first (current-buffer))))
      (org-views-agenda-keys-tests--same "a sticky list")
      (org-agenda nil "a")
      (set-buffer (window-buffer))
      (org-views-agenda-keys-tests--look "sticky: back in the first"
                                         (eq first (current-buffer)))
      (org-views-agenda-keys-tests--same "the first again")
      (dolist (buffer (buffer-list))
        (when (string-prefix-p "*Org Agenda(" (buffer-name buffer)) (kill-buffer buffer)))))
  (let ((org-views-program '("no-such-program-of-views")))
    (org-views-stop)
    (org-agenda-list nil nil 'day)
    (org-views-agenda-keys-tests--show)
    (org-views-agenda-keys-tests--look "without the program Org looks itself"
                                       (org-views-agenda-keys-tests--shown-p "Standup"))
    (org-views-agenda-keys-tests--look
     "and the header says why"
     (string-match-p "Org looked itself: No program" (or header-line-format ""))))
  (org-views-agenda-keys-tests--press "r")
  (org-views-agenda-keys-tests--look "with it, nothing is said" (null header-line-format))
  (org-views-agenda-keys-tests--same "after its coming back"))

(defun org-views-agenda-keys-tests--all ()
  "Press all keys, and give what isn't well."
  (setq org-views-agenda-keys-tests--said nil)
  (org-views-agenda-tests-with #'org-views-agenda-sets-real
    (dlet ((org-log-done 'time)
           (org-archive-location "%s_archive::")
           (org-agenda-confirm-kill nil)
           (org-clock-persist nil)
           (org-agenda-include-diary nil)
           (diary-file (org-views-agenda-sets-write org-views-agenda-tests-folder "diary" ""))
           (org-capture-templates
            `(("t" "T" entry
               (file ,(org-views-agenda-keys-tests--path "inbox.org"))
               "* TODO captured %?\nSCHEDULED: %t" :immediate-finish t))))
      (org-views-agenda-mode 1)
      (org-views-agenda-keys-tests--tasks)
      (org-views-agenda-keys-tests--days)
      (org-views-agenda-keys-tests--entries)
      (org-views-agenda-keys-tests--append)
      (org-views-agenda-keys-tests--lists)
      (org-views-agenda-keys-tests--restrictions)
      (org-agenda-remove-restriction-lock)))
  (mapcar #'car (seq-remove #'cdr org-views-agenda-keys-tests--said)))

(ert-deftest org-views-agenda-keys ()
  "Keys do in an agenda of the mode what they do in Org's."
  (should-not (org-views-agenda-keys-tests--all))
  (should (>= (length org-views-agenda-keys-tests--said) 100)))

(defun org-views-agenda-keys-tests-in-terminal ()
  "Press all keys in this terminal, write what isn't well into SAID, and end."
  (let ((wrong (org-views-agenda-keys-tests--all))
        (count (length org-views-agenda-keys-tests--said)))
    (write-region (format "%s%d checks of keys, %d wrong\n"
                          (mapconcat (lambda (it) (concat it "\n")) wrong "")
                          count (length wrong))
                  nil (getenv "SAID") nil 'quiet)
    (kill-emacs (if wrong 1 0))))

(defun org-views-agenda-keys-tests-be-ready (folder)
  "Have Org's agenda at `C-c a' in the mode, over files in FOLDER, for typed keys."
  (setq org-agenda-files (org-views-agenda-sets-real folder)
        org-log-done 'time)
  (org-views-agenda-mode 1)
  (global-set-key (kbd "C-c a") #'org-agenda)
  (find-file (expand-file-name "home.org" folder)))

(provide 'org-views-agenda-keys-tests)
;;; org-views-agenda-keys-tests.el ends here
