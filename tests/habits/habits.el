;;; habits.el --- Org's own consistency graphs  -*- lexical-binding: t; -*-

;; SPDX-License-Identifier: Apache-2.0 OR MIT

;;; Commentary:

;; emacs -Q --batch -l habits.el YEAR-MONTH-DAY FILE
;; prints for each habit of FILE its line and its graph, from 27 days before that day to 6 after it: for each day a letter, c, r, a or
;; o, as the face says that it was clear, ready, to be done at the latest or overdue, and a capital where it was done.

;;; Code:

(require 'org)
(require 'org-habit)

(setq org-habit-preceding-days 27
      org-habit-following-days 7)

(defun habits-letter (graph index)
  "The letter of the day at INDEX of GRAPH."
  (let* ((face (symbol-name (get-text-property index 'face graph)))
         (letter (cond ((string-match-p "clear" face) ?c)
                       ((string-match-p "ready" face) ?r)
                       ((string-match-p "alert" face) ?a)
                       (t ?o))))
    (if (eq (aref graph index) org-habit-completed-glyph) (upcase letter) letter)))

(let* ((day (car command-line-args-left))
       (now (org-time-string-to-time (concat day " 12:00")))
       (file (cadr command-line-args-left)))
  (setq command-line-args-left nil)
  (with-current-buffer (find-file-noselect file)
    (goto-char (point-min))
    (while (re-search-forward org-heading-regexp nil t)
      (beginning-of-line)
      (when (org-is-habit-p)
        (let ((graph (org-habit-build-graph (org-habit-parse-todo)
                                            (time-subtract now (days-to-time org-habit-preceding-days))
                                            now
                                            (time-add now (days-to-time org-habit-following-days)))))
          (princ (format "%d\t%s\n" (line-number-at-pos)
                         (apply #'string (mapcar (lambda (index) (habits-letter graph index))
                                                 (number-sequence 0 33)))))))
      (end-of-line))))

;;; habits.el ends here
