;;; log.el --- What Org's log mode shows at a fixed moment  -*- lexical-binding: t; -*-

;; SPDX-License-Identifier: Apache-2.0 OR MIT

;;; Commentary:

;; emacs -Q --batch -l log.el DATE TIME FIRST DAYS FILE..
;; prints what `org-batch-agenda-csv' gives of log mode alone for DAYS days from FIRST on, asked at DATE TIME: when headings were
;; closed, clocked, and when their keywords changed.

;;; Code:

(require 'org)
(require 'org-agenda)

(defvar log-moment nil "The moment at which the log is asked.")

(let* ((words command-line-args-left)
       (moment (encode-time (parse-time-string (concat (nth 0 words) " " (nth 1 words) ":00")))))
  (setq command-line-args-left nil
        log-moment moment
        org-agenda-files (mapcar #'expand-file-name (nthcdr 4 words)))
  (advice-add 'current-time :override (lambda () log-moment))
  (advice-add 'org-today :override (lambda () (time-to-days log-moment)))
  (eval `(org-batch-agenda-csv "a"
                               org-agenda-span ,(string-to-number (nth 3 words))
                               org-agenda-start-day ,(nth 2 words)
                               org-agenda-start-on-weekday nil
                               org-agenda-use-time-grid nil
                               org-agenda-include-diary nil
                               org-agenda-start-with-log-mode 'only
                               org-agenda-log-mode-add-notes nil
                               org-agenda-log-mode-items '(closed clock state))))

;;; log.el ends here
