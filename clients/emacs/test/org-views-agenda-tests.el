;;; org-views-agenda-tests.el --- Org's agenda with and without the mode  -*- lexical-binding: t; -*-

;; SPDX-License-Identifier: Apache-2.0 OR MIT

;;; Commentary:

;; Each view is made twice, in `org-views-agenda-mode' and by Org alone, each
;; time over files that no buffer visits.  The buffers have to be equal: each
;; line, all text properties of each character, and all overlays.

;;; Code:

(require 'cl-lib)
(require 'ert)
(require 'org)
(require 'org-agenda)
(require 'org-habit)
(require 'org-views-agenda)
(require 'org-views-agenda-sets)

(set-language-environment "UTF-8")
(setq org-views-program (list (or (getenv "ORG_VIEWS_PROGRAM") "orgviews"))
      make-backup-files nil
      auto-save-default nil
      create-lockfiles nil
      vc-handled-backends nil
      enable-local-variables nil
      org-agenda-show-current-time-in-grid nil
      org-agenda-window-setup 'current-window)

(defvar org-views-agenda-tests-folder nil "The folder of the test that runs.")

;;;; What an agenda is made of

(defvar org-views-agenda-tests--known nil
  "The texts of values that were met before, a table, since many rows share one.")

(defun org-views-agenda-tests--string (value)
  "The string VALUE as text, with its properties in an order of their own."
  (let ((pos 0) runs)
    (while (and pos (< pos (length value)))
      (push (cons pos (org-views-agenda-tests--pairs (text-properties-at pos value))) runs)
      (setq pos (next-property-change pos value)))
    (format "%S %S" (substring-no-properties value) runs)))

(defun org-views-agenda-tests--plain (value)
  "VALUE as text, without what is another object in each run."
  (cond ((markerp value)
         (if (marker-buffer value)
             (format "@%s:%d" (buffer-name (marker-buffer value)) (marker-position value))
           "@gone"))
        ((bufferp value) (buffer-name value))
        ((or (stringp value) (consp value) (vectorp value))
         (or (gethash value org-views-agenda-tests--known)
             (puthash value
                      (pcase value
                        ((pred stringp) (org-views-agenda-tests--string value))
                        (`(,head . ,tail) (concat (org-views-agenda-tests--plain head) " . "
                                                  (org-views-agenda-tests--plain tail)))
                        (_ (mapconcat #'org-views-agenda-tests--plain value " ")))
                      org-views-agenda-tests--known)))
        (t (format "%S" value))))

(defun org-views-agenda-tests--pairs (plist)
  "The properties in PLIST as sorted texts.
What says how the view is made again is left out."
  (sort (cl-loop for (name value) on plist by #'cddr
                 unless (memq name '(org-series-cmd org-redo-cmd org-last-args))
                 collect (format "%s %s" name (org-views-agenda-tests--plain value)))
        #'string<))

(defun org-views-agenda-tests--line (beg end)
  "What stands from BEG to END: text, properties by columns, and overlays."
  (let ((pos beg) runs)
    (while (< pos end)
      (push (cons (- pos beg) (org-views-agenda-tests--pairs (text-properties-at pos))) runs)
      (setq pos (next-property-change pos nil end)))
    (list (buffer-substring-no-properties beg end)
          (nreverse runs)
          (sort (mapcar (lambda (it)
                          (format "%d-%d %s" (- (overlay-start it) beg) (- (overlay-end it) beg)
                                  (org-views-agenda-tests--pairs (overlay-properties it))))
                        (overlays-in beg end))
                #'string<))))

(defun org-views-agenda-tests-lines ()
  "What is in the agenda's buffer, a list for each line."
  (with-current-buffer (if (derived-mode-p 'org-agenda-mode) (current-buffer)
                         org-agenda-buffer-name)
    (save-excursion
      (save-restriction
        (setq org-views-agenda-tests--known (make-hash-table :test #'eq))
        (widen)
        (goto-char (point-min))
        (cl-loop until (eobp)
                 collect (org-views-agenda-tests--line (point) (line-end-position))
                 do (forward-line 1))))))

(defun org-views-agenda-tests--forget-files ()
  "Kill all buffers of Org files."
  (dolist (buffer (buffer-list))
    (when (and (buffer-live-p buffer)
               (string-suffix-p ".org" (or (buffer-file-name buffer) "")))
      (with-current-buffer buffer (set-buffer-modified-p nil))
      (kill-buffer buffer))))

(defun org-views-agenda-tests--forget-rows ()
  "Take away what is left in Org's code of former rows.
The space behind a keyword is a constant of a function that gives it
properties, so that an agenda has some of those of the one before."
  (let ((code (indirect-function 'org-agenda-highlight-todo)))
    (when (byte-code-function-p code)
      (seq-do (lambda (it) (when (stringp it) (set-text-properties 0 (length it) nil it)))
              (aref code 2)))))

(defun org-views-agenda-tests--made (make fresh)
  "The lines of the agenda after the function MAKE, or its error.
With FRESH no buffer visits a file before."
  (when fresh (org-views-agenda-tests--forget-files))
  (org-views-agenda-tests--forget-rows)
  (condition-case fault
      (progn (funcall make) (org-views-agenda-tests-lines))
    (error (list (list (error-message-string fault) nil nil)))))

(defun org-views-agenda-tests--difference (ours own)
  "How the lines OURS of the mode and OWN of Org differ, as a list."
  (let ((ours-text (mapcar #'car ours)) (own-text (mapcar #'car own)))
    (cond ((not (equal ours-text own-text))
           (list :lost (cl-set-difference own-text ours-text :test #'equal)
                 :more (cl-set-difference ours-text own-text :test #'equal)))
          ((not (equal ours own))
           (cl-loop for a in ours for b in own
                    unless (equal a b)
                    return (list :line (car a)
                                 :ours (cl-set-difference (append (nth 1 a) (nth 2 a))
                                                          (append (nth 1 b) (nth 2 b))
                                                          :test #'equal)
                                 :own (cl-set-difference (append (nth 1 b) (nth 2 b))
                                                         (append (nth 1 a) (nth 2 a))
                                                         :test #'equal)))))))

(defun org-views-agenda-tests--whys ()
  "Why Org looked itself in the last agenda of the mode."
  (let ((run org-views-agenda--last))
    (append (and (org-views-agenda--run-off run) (list (org-views-agenda--run-off run)))
            (org-views-agenda--run-whys run))))

(defun org-views-agenda-tests-both (name make why &optional visited)
  "What is wrong with the view NAME after MAKE, as a list, or nil.
WHY is a regular expression for why Org looks itself; nil says that it
doesn't.  With VISITED the buffers of files stay."
  (let (ours whys difference)
    (org-views-agenda-mode 1)
    (setq ours (org-views-agenda-tests--made make (not visited))
          whys (org-views-agenda-tests--whys))
    (org-views-agenda-mode -1)
    (setq difference (org-views-agenda-tests--difference
                      ours (org-views-agenda-tests--made make (not visited))))
    (cond (difference (cons name difference))
          ((if why (not (seq-some (lambda (it) (string-match-p why it)) whys)) whys)
           (list name :why whys)))))

(defmacro org-views-agenda-tests-with (make &rest body)
  "Do BODY with the files of MAKE, a function that takes a folder for them."
  (declare (indent 1) (debug t))
  `(let* ((org-views-agenda-tests-folder (make-temp-file "org views agenda" t))
          (default-directory org-views-agenda-tests-folder)
          (org-agenda-files (funcall ,make org-views-agenda-tests-folder))
          (org-views-files #'org-views-agenda-files)
          (org-agenda-buffer-name "*Org Agenda*"))
     (unwind-protect
         ;; Org waits two seconds after each wrong diary expression.
         (cl-letf (((symbol-function 'sleep-for) #'ignore)) ,@body)
       (org-views-agenda-mode -1)
       (org-views-stop)
       (org-views-agenda-tests--forget-files)
       (when (get-buffer "*Org Agenda*") (kill-buffer "*Org Agenda*"))
       (delete-directory org-views-agenda-tests-folder t))))

;;;; Views

(defun org-views-agenda-tests-list (&optional span start)
  "A function for an agenda of SPAN from START on."
  (lambda () (org-agenda-list nil start (or span 'week))))

(defmacro org-views-agenda-tests-let (bindings &rest body)
  "A function that does BODY with BINDINGS."
  (declare (indent 1) (debug (sexp body)))
  `(lambda () (dlet ,bindings ,@body)))

(defconst org-views-agenda-tests--matches
  '("work" "deep-billing" "work|money" "+PRIORITY=\"A\"" "TODO=\"WAIT\"" "Effort<\"1:00\""
    "LEVEL=2+errand" "SCHEDULED<\"<today>\"" "DEADLINE<=\"<+7d>\"" "CLOSED>=\"<-5d>\""
    "CATEGORY=\"billing\"" "work/NEXT" "work/!" "-work" "{ERR}" "{h}" "ITEM={buy}"
    "STYLE=\"habit\"" "-garden+money|LEVEL>2/TODO|NEXT" "ORDERED=\"t\"&LEVEL=1")
  "Match expressions that the engine is asked.")

(defconst org-views-agenda-tests--own-matches
  '("Effort>=1:00" "{err.*}" "TIMESTAMP<\"<today>\"" "(work|money)" "ALLTAGS={work}")
  "Match expressions for which Org looks itself.")

(defconst org-views-agenda-tests--prefix
  '((agenda . " %i %-12:c%?-12t% s %e %l %b%(format \"%s\" (org-get-outline-path))")
    (todo . " %i %-12:c %e %b %(or (org-entry-get nil \"CATEGORY\" t) \"\")")
    (tags . " %c %b") (search . " "))
  "A prefix with what stands above a heading.")

(defun org-views-agenda-tests--skip ()
  "Skip an entry below a project; for `org-agenda-skip-function'."
  (let ((end (save-excursion (outline-next-heading) (point))))
    (and (save-excursion (and (org-up-heading-safe) (equal (org-get-todo-state) "PROJ")))
         end)))

(defun org-views-agenda-tests--blocked ()
  "Make the list with blocked tasks dimmed."
  (let ((org-enforce-todo-dependencies t) (org-agenda-dim-blocked-tasks t)
        (block #'org-block-todo-from-children-or-siblings-or-parent))
    (add-hook 'org-blocker-hook block)
    (unwind-protect (org-todo-list nil)
      (remove-hook 'org-blocker-hook block))))

(defun org-views-agenda-tests--diary ()
  "Make an agenda with the entries of a diary."
  (let ((diary (org-views-agenda-sets-write
                org-views-agenda-tests-folder "diary"
                (format-time-string "%B %-d, %Y") " 8:15 From the diary\n")))
    (dlet ((org-agenda-include-diary t) (diary-file diary))
      (org-agenda-list nil nil 'week))))

(defun org-views-agenda-tests--custom (key)
  "Make the custom agenda KEY."
  (let ((org-agenda-custom-commands
         `(("x" "Mine" ((agenda "" ((org-agenda-span 3))) (todo "NEXT") (tags-todo "home")
                        (alltodo "" ((org-agenda-sorting-strategy '(priority-down))))
                        (tags "deep"))
            ((org-agenda-compact-blocks nil)))
           ("y" "Files" ((agenda "" ((org-agenda-files '(,(nth 0 org-agenda-files)))))
                         (todo "TODO" ((org-agenda-files '(,(nth 1 org-agenda-files)))))))
           ("z" "Skip" ((agenda "")
                        (todo "TODO" ((org-agenda-skip-function
                                       '(org-agenda-skip-subtree-if 'regexp "x"))))
                        (tags "work")))
           ("f" "Filter" ((agenda "" ((org-agenda-tag-filter-preset '("+work"))))))
           ("e" "Elsewhere" agenda "" ((org-agenda-files '("elsewhere.org"))))
           ("s" "Search" ((search "report") (agenda "") (tags "deep")))
           ("k" "Stuck" ((stuck "") (todo "NEXT"))))))
    (org-views-agenda-sets-write org-views-agenda-tests-folder "elsewhere.org"
                                 "* TODO In a file of its own\nSCHEDULED: "
                                 (format-time-string "<%F %a>") "\n")
    (let ((org-directory org-views-agenda-tests-folder))
      (org-agenda nil key))))

(defconst org-views-agenda-tests--views
  `(("day" ,(org-views-agenda-tests-list 'day))
    ("week" ,(org-views-agenda-tests-list))
    ("month" ,(org-views-agenda-tests-list 'month))
    ("week before" ,(org-views-agenda-tests-list 'week (- (org-today) 9)))
    ("80 days" ,(org-views-agenda-tests-list 80 (- (org-today) 40)))
    ("todo" ,(lambda () (org-todo-list nil)))
    ("todo NEXT|WAIT" ,(lambda () (org-todo-list "NEXT|WAIT")))
    ("todo DONE" ,(lambda () (org-todo-list "DONE")))
    ("todo *" ,(lambda () (org-todo-list "*")))
    ("todo 2" ,(lambda () (org-todo-list 2)))
    ("tags-todo LEVEL" ,(lambda () (org-tags-view '(4) "LEVEL<3-deep")))
    ("tags-todo work" ,(lambda () (org-tags-view '(4) "work")))
    ("log" ,(org-views-agenda-tests-let ((org-agenda-show-log t)) (org-agenda-list)))
    ("log of all" ,(org-views-agenda-tests-let ((org-agenda-show-log '(closed clock state)))
                     (org-agenda-list nil (- (org-today) 20) 21)))
    ("log alone" ,(org-views-agenda-tests-let ((org-agenda-show-log 'only)) (org-agenda-list)))
    ("clock check" ,(org-views-agenda-tests-let ((org-agenda-show-log 'clockcheck))
                      (org-agenda-list nil (- (org-today) 5) 'day)))
    ("clock report" ,(org-views-agenda-tests-let ((org-agenda-clockreport-mode t))
                       (org-agenda-list nil (- (org-today) 5) 'week)))
    ("habits all today" ,(org-views-agenda-tests-let ((org-habit-show-all-today t))
                           (org-agenda-list nil nil 'day)))
    ("types" ,(org-views-agenda-tests-let ((org-agenda-entry-types '(:timestamp :deadline)))
                (org-agenda-list)))
    ("types with todo"
     ,(org-views-agenda-tests-let
          ((org-agenda-entry-types '(:todo :deadline :sexp :scheduled :timestamp)))
        (org-agenda-list nil nil 'day)))
    ("with an hour" ,(lambda () (org-agenda-list nil nil 'week t)))
    ("warning 60" ,(org-views-agenda-tests-let ((org-deadline-warning-days 60))
                     (org-agenda-list nil nil 'day)))
    ("warning 3" ,(org-views-agenda-tests-let ((org-deadline-warning-days 3))
                    (org-agenda-list nil nil 'day)))
    ("warning -30" ,(org-views-agenda-tests-let ((org-deadline-warning-days -30))
                      (org-agenda-list nil nil 'day)))
    ("sorting"
     ,(org-views-agenda-tests-let
          ((org-agenda-sorting-strategy '((agenda priority-down effort-up alpha-up))))
        (org-agenda-list)))
    ("unsorted" ,(org-views-agenda-tests-let ((org-agenda-sorting-strategy '((agenda))))
                   (org-agenda-list)))
    ("sorting todo"
     ,(org-views-agenda-tests-let
          ((org-agenda-sorting-strategy
            '((todo stats-up todo-state-up effort-down deadline-up))))
        (org-todo-list nil)))
    ("prefix" ,(org-views-agenda-tests-let
                   ((org-agenda-prefix-format org-views-agenda-tests--prefix))
                 (org-agenda-list)))
    ("prefix todo" ,(org-views-agenda-tests-let
                        ((org-agenda-prefix-format org-views-agenda-tests--prefix))
                      (org-todo-list nil)))
    ("skip if done" ,(org-views-agenda-tests-let ((org-agenda-skip-scheduled-if-done t)
                                                  (org-agenda-skip-deadline-if-done t)
                                                  (org-agenda-skip-timestamp-if-done t))
                       (org-agenda-list)))
    ("skip if deadline"
     ,(org-views-agenda-tests-let ((org-agenda-skip-scheduled-if-deadline-is-shown t)
                                   (org-agenda-skip-timestamp-if-deadline-is-shown t))
        (org-agenda-list)))
    ("skip warning"
     ,(org-views-agenda-tests-let ((org-agenda-skip-deadline-prewarning-if-scheduled t))
        (org-agenda-list nil nil 'day)))
    ("skip warning 30"
     ,(org-views-agenda-tests-let ((org-agenda-skip-deadline-prewarning-if-scheduled 30))
        (org-agenda-list nil nil 'day)))
    ("no future repeats" ,(org-views-agenda-tests-let ((org-agenda-show-future-repeats nil))
                            (org-agenda-list nil nil 'month)))
    ("next repeat" ,(org-views-agenda-tests-let ((org-agenda-show-future-repeats 'next))
                      (org-agenda-list nil nil 'month)))
    ("delayed" ,(org-views-agenda-tests-let ((org-scheduled-delay-days 2)
                                             (org-agenda-skip-scheduled-delay-if-deadline t))
                  (org-agenda-list)))
    ("todo ignoring" ,(org-views-agenda-tests-let ((org-agenda-todo-ignore-scheduled 'future)
                                                   (org-agenda-todo-ignore-deadlines 'near))
                        (org-todo-list nil)))
    ("todo without dates" ,(org-views-agenda-tests-let ((org-agenda-todo-ignore-with-date t))
                             (org-todo-list nil)))
    ("skip an entry" ,(org-views-agenda-tests-let
                          ((org-agenda-skip-function
                            '(org-agenda-skip-entry-if 'todo '("WAIT"))))
                        (org-todo-list nil)))
    ("skip by the parent"
     ,(org-views-agenda-tests-let
          ((org-agenda-skip-function #'org-views-agenda-tests--skip)
           (org-views-agenda-entry-skips '(org-views-agenda-tests--skip)))
        (org-todo-list nil)))
    ("skip a tree" ,(org-views-agenda-tests-let
                        ((org-agenda-skip-function
                          '(org-agenda-skip-subtree-if 'todo '("PROJ"))))
                      (org-todo-list nil))
     "\\`org-agenda-skip-function\\'")
    ("inactive" ,(org-views-agenda-tests-let ((org-agenda-include-inactive-timestamps t))
                   (org-agenda-list)))
    ("diary" org-views-agenda-tests--diary)
    ("blocked" org-views-agenda-tests--blocked)
    ("last repeat" ,(org-views-agenda-tests-let ((org-agenda-prefer-last-repeat t))
                      (org-agenda-list))
     "\\`org-agenda-prefer-last-repeat\\'")
    ("no sublevels" ,(org-views-agenda-tests-let ((org-agenda-todo-list-sublevels nil))
                       (org-todo-list nil))
     "\\`org-agenda-todo-list-sublevels\\'")
    ("indented" ,(org-views-agenda-tests-let ((org-tags-match-list-sublevels 'indented))
                   (org-tags-view nil "work")))
    ("no tags of parents" ,(org-views-agenda-tests-let ((org-use-tag-inheritance nil))
                             (org-tags-view nil "deep"))
     "\\`org-use-tag-inheritance\\'")
    ("inherited properties" ,(org-views-agenda-tests-let ((org-use-property-inheritance t))
                               (org-agenda-list)))
    ("inherited in a match" ,(org-views-agenda-tests-let ((org-use-property-inheritance t))
                               (org-tags-view nil "ORDERED=\"t\""))
     "\\`org-use-property-inheritance\\'")
    ("archives" ,(org-views-agenda-tests-let ((org-agenda-skip-archived-trees nil))
                   (org-agenda-list nil nil 'day))
     "\\`org-agenda-skip-archived-trees\\'")
    ("later day" ,(org-views-agenda-tests-let ((org-extend-today-until 24))
                    (org-agenda-list nil nil 'day))
     "\\`org-extend-today-until\\'")
    ("stuck" org-agenda-list-stuck-projects "\\`org-agenda-skip-function\\'")
    ,@(mapcar (lambda (key) (list (concat "custom " key)
                                  (lambda () (org-views-agenda-tests--custom key))))
              '("x" "y" "f" "e"))
    ("custom z" ,(lambda () (org-views-agenda-tests--custom "z")) "org-agenda-skip-function")
    ("custom s" ,(lambda () (org-views-agenda-tests--custom "s")) "search")
    ("custom k" ,(lambda () (org-views-agenda-tests--custom "k")) "org-agenda-skip-function")
    ,@(mapcar (lambda (match) (list (concat "tags " match)
                                    (lambda () (org-tags-view nil match))))
              org-views-agenda-tests--matches)
    ,@(mapcar (lambda (match) (list (concat "tags " match)
                                    (lambda () (org-tags-view nil match)) "expression\\|own"))
              org-views-agenda-tests--own-matches))
  "Views, each with its name, a function that makes it, and why Org looks itself.")

(defun org-views-agenda-tests-wrong (views)
  "What is wrong with VIEWS."
  (delq nil (mapcar (lambda (view)
                      (org-views-agenda-tests-both (nth 0 view) (nth 1 view) (nth 2 view)))
                    views)))

(ert-deftest org-views-agenda-views ()
  "Each view of the realistic files is what Org makes alone."
  (should (> (length org-views-agenda-tests--views) 62))
  (org-views-agenda-tests-with #'org-views-agenda-sets-real
    (should-not (org-views-agenda-tests-wrong org-views-agenda-tests--views))))

(provide 'org-views-agenda-tests)
;;; org-views-agenda-tests.el ends here
