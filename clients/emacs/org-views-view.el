;;; org-views-view.el --- Views of your own  -*- lexical-binding: t; -*-

;; SPDX-License-Identifier: Apache-2.0 OR MIT

;;; Commentary:

;; Shows what the program `orgq' answers to the commands of a view, which
;; the file `views' of its configuration folder names: the rows of each
;; below its title.  RET on a row leads to its heading, where all commands
;; of Org are at hand; g asks again.

;;; Code:

(require 'json)
(require 'seq)
(require 'org-views-check)

(declare-function org-show-context "org" (&optional key))

(defvar-local org-views-view--name nil
  "The name of the view that the current buffer shows.")

(defun org-views-view--answer (&rest arguments)
  "The lines that `orgq' prints of ARGUMENTS; an error where it refuses them."
  (unless (executable-find (car org-views-check-program))
    (user-error "No program `%s': set `org-views-check-program'" (car org-views-check-program)))
  (let ((errors (make-temp-file "orgq")))
    (unwind-protect
        (with-temp-buffer
          (let* ((coding-system-for-read 'utf-8-unix)
                 (status (apply #'call-process (car org-views-check-program) nil (list t errors) nil
                                (append (cdr org-views-check-program) arguments))))
            ;; 1: there is no row; 3: a file was left out.
            (unless (memql status '(0 1 3))
              (user-error "%s" (with-temp-buffer
                                 (insert-file-contents errors)
                                 (string-trim (buffer-string)))))
            (split-string (buffer-string) "\n" t)))
      (delete-file errors))))

(defun org-views-view--names ()
  "The names of the views that there are."
  (mapcar (lambda (line) (car (split-string line " "))) (org-views-view--answer "views")))

(defun org-views-view--insert-row (row)
  "Insert ROW, which leads to its heading if it has one."
  (let-alist row
    (let ((begin (point)))
      (insert .text)
      (when (and .file .line)
        (add-text-properties begin (point) (list 'org-views-row row 'mouse-face 'highlight)))
      (insert "\n"))))

(defun org-views-view--insert (rows)
  "Insert ROWS, below the title of each command and the day of an agenda."
  (let (title day)
    (dolist (row rows)
      (let-alist row
        (unless (equal .block title)
          (unless (bobp) (insert "\n"))
          (insert (propertize .block 'face 'bold) "\n")
          (setq title .block day nil))
        (unless (equal .day day)
          (when .day (insert (propertize .day 'face 'bold) "\n"))
          (setq day .day)))
      (org-views-view--insert-row row))))

(defun org-views-view--revert (&rest _)
  "Ask for the rows of the current buffer's view again."
  (let ((rows (mapcar #'json-read-from-string
                      (org-views-view--answer "--json" "view" org-views-view--name)))
        (inhibit-read-only t)
        (line (line-number-at-pos)))
    (erase-buffer)
    (if rows (org-views-view--insert rows) (insert "No row\n"))
    (goto-char (point-min))
    (forward-line (1- line))))

(defun org-views-view-visit ()
  "Visit the heading of the row at point in another window."
  (interactive)
  (let ((row (get-text-property (line-beginning-position) 'org-views-row)))
    (unless row (user-error "This line leads to no heading"))
    (let-alist row
      (find-file-other-window .file)
      (widen)
      (goto-char (point-min))
      (forward-line (1- .line))
      (when (derived-mode-p 'org-mode) (org-show-context 'agenda)))))

(defvar org-views-view-mode-map
  (let ((map (make-sparse-keymap)))
    (define-key map (kbd "RET") #'org-views-view-visit)
    map)
  "The keys of a buffer that shows a view.")

(define-derived-mode org-views-view-mode special-mode "Org-View"
  "A mode for the rows of a view of `orgq'."
  (setq-local revert-buffer-function #'org-views-view--revert))

;;;###autoload
(defun org-views-view (name)
  "Show the rows of the view NAME of `orgq', below the titles of its commands."
  (interactive (list (completing-read "View: " (org-views-view--names) nil t)))
  (let ((folder default-directory)
        (buffer (get-buffer-create (format "*orgq view %s*" name))))
    (with-current-buffer buffer
      (org-views-view-mode)
      (setq default-directory folder
            org-views-view--name name)
      (org-views-view--revert))
    (pop-to-buffer buffer)))

(provide 'org-views-view)

;;; org-views-view.el ends here
