;;; todo.el --- Org's own list of open entries in several orders  -*- lexical-binding: t; -*-

;; SPDX-License-Identifier: Apache-2.0 OR MIT

;;; Commentary:

;; emacs -Q --batch -l todo.el FILE.. -- STRATEGY..
;; prints of each strategy, as deadline-up, its name behind `== ', and then what `org-batch-agenda-csv' gives for the list of
;; open entries in that order, where equal entries stand by priority and then by files.

;;; Code:

(require 'org)
(require 'org-agenda)

(let* ((words command-line-args-left)
       (strategies (cdr (member "--" words)))
       (files (butlast words (1+ (length strategies)))))
  (setq command-line-args-left nil
        org-agenda-files (mapcar #'expand-file-name files))
  (dolist (strategy strategies)
    (princ (format "== %s\n" strategy))
    (eval `(org-batch-agenda-csv "t"
                                 org-agenda-sorting-strategy
                                 '((todo ,(intern strategy) priority-down category-keep))))))

;;; todo.el ends here
