;;; agenda.el --- Rows of Org's own batch agenda at a fixed moment  -*- lexical-binding: t; -*-

;; SPDX-License-Identifier: Apache-2.0 OR MIT

;;; Commentary:

;; emacs -Q --batch -l agenda.el DATE TIME FIRST DAYS FILE..
;; prints what `org-batch-agenda-csv' gives for DAYS days from FIRST on, asked at DATE TIME.

;;; Code:

(require 'org)
(require 'org-agenda)

(defvar agenda-moment nil "The moment at which the agenda is asked.")

(let* ((words command-line-args-left)
       (moment (encode-time (parse-time-string (concat (nth 0 words) " " (nth 1 words) ":00")))))
  (setq command-line-args-left nil
        agenda-moment moment
        org-agenda-files (mapcar #'expand-file-name (nthcdr 4 words)))
  (advice-add 'current-time :override (lambda () agenda-moment))
  (advice-add 'org-today :override (lambda () (time-to-days agenda-moment)))
  (eval `(org-batch-agenda-csv "a"
                               org-agenda-span ,(string-to-number (nth 3 words))
                               org-agenda-start-day ,(nth 2 words)
                               org-agenda-start-on-weekday nil
                               org-agenda-use-time-grid nil
                               org-agenda-include-diary nil)))

;;; agenda.el ends here
