;;; search.el --- What Org's own search view finds  -*- lexical-binding: t; -*-

;; SPDX-License-Identifier: Apache-2.0 OR MIT

;;; Commentary:

;; emacs -Q --batch -l search.el QUERIES FILE..
;; prints for each line of QUERIES, up to its first tab, the number of the line and FILE:LINE of each heading that
;; `org-search-view' finds.

;;; Code:

(require 'org)
(require 'org-agenda)

(defun search-view-lines (number query)
  "Print where the headings stand that QUERY finds, each behind NUMBER."
  (org-search-view nil query)
  (with-current-buffer org-agenda-buffer-name
    (goto-char (point-min))
    (while (not (eobp))
      (let ((marker (get-text-property (point) 'org-marker)))
        (when marker
          (princ (format "%d\t%s:%d\n" number
                         (file-name-nondirectory (buffer-file-name (marker-buffer marker)))
                         (with-current-buffer (marker-buffer marker)
                           (org-with-wide-buffer (line-number-at-pos marker)))))))
      (forward-line 1))))

(let* ((words command-line-args-left)
       (queries (with-temp-buffer
                  (insert-file-contents (car words))
                  (split-string (buffer-string) "\n" t))))
  (setq command-line-args-left nil
        org-agenda-files (mapcar #'expand-file-name (cdr words)))
  (let ((number 0))
    (dolist (query queries)
      (setq number (1+ number))
      (search-view-lines number (car (split-string query "\t"))))))

;;; search.el ends here
