;;; acts.el --- Acts of Org itself on made files  -*- lexical-binding: t; -*-

;; SPDX-License-Identifier: Apache-2.0 OR MIT

;;; Commentary:

;; emacs -Q --batch -l acts.el FOLDER
;; does each act of FOLDER/acts to its file of FOLDER/files, at half past ten on 28 February 2024, with all logging off, or as Org
;; itself and the file have it where the act begins with `log-', and tags where they are.  It writes what Org leaves as
;; FOLDER/emacs/CASE.org.  Where Org ends with an error, the error is written in its place.

;;; Code:

(require 'org)
(require 'org-clock)

(defvar acts-moment (encode-time 0 30 10 28 2 2024) "The moment at which all acts are done.")

(setq org-log-done nil
      org-log-repeat nil
      org-log-reschedule nil
      org-log-redeadline nil
      org-log-into-drawer nil
      org-auto-align-tags nil
      org-priority-lowest ?Z
      org-clock-auto-clock-resolution nil
      org-clock-clocked-in-display nil
      org-clock-persist nil
      org-todo-keywords '((sequence "TODO" "|" "DONE"))
      require-final-newline nil
      mode-require-final-newline nil
      inhibit-message t)
;; A shift of many steps asks whether to go on.
(fset 'y-or-n-p #'always)
(advice-add 'current-time :override (lambda () acts-moment))
(advice-add 'format-time-string :filter-args (lambda (args) (list (car args) (or (cadr args) acts-moment) (nth 2 args))))
(advice-add 'org-today :override (lambda () (time-to-days acts-moment)))
(advice-add 'org-time-less-p :filter-args (lambda (times) (mapcar (lambda (time) (or time acts-moment)) times)))

(defun acts-take-up-the-clock ()
  "Take the running clock of the heading at point for the one that runs, as after a restart."
  (save-excursion
    (org-back-to-heading t)
    (let ((heading (point))
          (end (save-excursion (outline-next-heading) (point))))
      (while (not (and (re-search-forward "^[ \t]*CLOCK: \\(\\[[^]\n]*\\]\\)" end)
                       (not (looking-at-p "--"))
                       (eq (org-element-type (save-match-data (org-element-at-point))) 'clock))))
      (setq org-clock-start-time (org-time-string-to-time (match-string 1))
            org-clock-current-task "the task")
      (move-marker org-clock-marker (point) (current-buffer))
      (move-marker org-clock-hd-marker heading (current-buffer)))))

(defun acts-tag (words)
  "Take the tags of WORDS away that have a minus in front, and put those behind that have a plus."
  (dolist (word words) (when (eq (aref word 0) ?-) (org-toggle-tag (substring word 1) 'off)))
  (dolist (word words) (when (eq (aref word 0) ?+) (org-toggle-tag (substring word 1) 'on))))

(defun acts-do (act date)
  "Do ACT with DATE to the heading at point."
  (pcase act
    ("schedule" (if (equal date "none") (org-schedule '(4)) (org-schedule nil date)))
    ("deadline" (if (equal date "none") (org-deadline '(4)) (org-deadline nil date)))
    ("in" (org-clock-in nil acts-moment))
    ("out" (acts-take-up-the-clock) (org-clock-out nil nil acts-moment))
    ("cancel" (acts-take-up-the-clock) (org-clock-cancel))
    ("done" (ignore-errors (acts-take-up-the-clock)) (org-todo "DONE"))
    ("log-set" (ignore-errors (acts-take-up-the-clock)) (org-todo date))
    ("tag" (acts-tag (split-string date)))
    ("priority" (if (equal date "none") (when (looking-at-p org-priority-regexp) (org-priority 'remove)) (org-priority (aref date 0))))
    ("property" (string-match "=" date)
     (let ((name (substring date 0 (match-beginning 0))) (value (substring date (match-end 0))))
       (if (equal value "") (org-delete-property name) (org-set-property name value))))
    ("log-none" (org-todo 'none))
    ("log-note" (org-add-note))
    ("log-schedule" (acts-do "schedule" date))
    ("log-deadline" (acts-do "deadline" date))))

(defun acts-log (was state note)
  "Write what Org is about to log of a heading that was WAS and gets STATE, with NOTE, which is logged in any case."
  (when (and (org-string-nw-p note) (not org-log-setup))
    (save-excursion (org-back-to-heading t) (org-add-log-setup 'state state was 'note)))
  (when org-log-setup
    (when (org-string-nw-p note) (setq org-log-note-how 'note))
    (org-add-log-note)
    (when (eq org-log-note-how 'note)
      (with-current-buffer "*Org Note*"
        (goto-char (point-max))
        (insert (string-replace "\\n" "\n" (or note "")))
        (org-store-log-note)))))

(defun acts-write (folder case file line act date &optional note)
  "Write into FOLDER what is left of FILE for CASE, where ACT with DATE and NOTE is done to the heading on LINE."
  (let* ((org-log-repeat (and (string-prefix-p "log-" act) 'time))
         (buffer (find-file-noselect (expand-file-name (concat "files/" file) folder))))
    (with-current-buffer buffer
      (unwind-protect
          (let ((problem nil)
                (was nil))
            (goto-char (point-min))
            (forward-line (1- (string-to-number line)))
            (setq org-log-setup nil
                  was (org-get-todo-state))
            (condition-case err
                (progn (acts-do act date)
                       (cond ((equal act "log-note") (acts-log was date date))
                             ((string-prefix-p "log-" act) (acts-log was date note))))
              (error (setq problem err)))
            (move-marker org-clock-marker nil)
            (move-marker org-clock-hd-marker nil)
            (when problem
              (erase-buffer)
              (insert (format "error: %S\n" problem)))
            (let ((coding-system-for-write buffer-file-coding-system))
              (write-region (point-min) (point-max) (expand-file-name (concat "emacs/" case ".org") folder) nil 'quiet)))
        (set-buffer-modified-p nil)
        (kill-buffer buffer)))))

(let ((folder (expand-file-name (car command-line-args-left)))
      (cases nil))
  (setq command-line-args-left nil)
  (with-temp-buffer
    (insert-file-contents (expand-file-name "acts" folder))
    (dolist (row (split-string (buffer-string) "\n" t))
      (push (split-string row "\t") cases)))
  (make-directory (expand-file-name "emacs" folder) t)
  (dolist (row (nreverse cases))
    (apply #'acts-write folder row)))

;;; acts.el ends here
