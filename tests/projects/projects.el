;;; projects.el --- Org's own stuck projects and blocked tasks  -*- lexical-binding: t; -*-

;; SPDX-License-Identifier: Apache-2.0 OR MIT

;;; Commentary:

;; emacs -Q --batch -l projects.el SETTINGS FILE..
;; prints for each line of SETTINGS, up to its first tab a value of `org-stuck-projects', the number of the line and FILE:LINE of
;; each heading that is stuck; and behind 0 those that are blocked.

;;; Code:

(require 'org)
(require 'org-agenda)

(setq org-enforce-todo-dependencies t)

(defun projects-place (marker)
  "FILE:LINE of MARKER."
  (with-current-buffer (marker-buffer marker)
    (format "%s:%d" (file-name-nondirectory (buffer-file-name))
            (org-with-wide-buffer (line-number-at-pos marker)))))

(defun projects-stuck (number setting)
  "Print which projects are stuck by SETTING, each behind NUMBER."
  (let ((org-stuck-projects setting))
    (org-agenda-list-stuck-projects)
    (with-current-buffer org-agenda-buffer-name
      (goto-char (point-min))
      (while (not (eobp))
        (let ((marker (get-text-property (point) 'org-hd-marker)))
          (when marker
            (princ (format "%d\t%s\n" number (projects-place marker)))))
        (forward-line 1)))))

(defun projects-blocked (file)
  "Print which headings of FILE are blocked."
  (with-current-buffer (find-file-noselect file)
    (org-with-wide-buffer
     (goto-char (point-min))
     (while (re-search-forward org-heading-regexp nil t)
       (beginning-of-line)
       (when (org-entry-blocked-p)
         (princ (format "0\t%s\n" (projects-place (point-marker)))))
       (end-of-line)))))

(let* ((words command-line-args-left)
       (settings (with-temp-buffer
                   (insert-file-contents (car words))
                   (split-string (buffer-string) "\n" t)))
       (files (mapcar #'expand-file-name (cdr words)))
       (number 0))
  (setq command-line-args-left nil
        org-agenda-files files)
  (dolist (setting settings)
    (setq number (1+ number))
    (projects-stuck number (car (read-from-string (car (split-string setting "\t"))))))
  (mapc #'projects-blocked files))

;;; projects.el ends here
