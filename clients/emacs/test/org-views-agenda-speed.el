;;; org-views-agenda-speed.el --- What Org's agenda costs with and without the mode  -*- lexical-binding: t; -*-

;; SPDX-License-Identifier: Apache-2.0 OR MIT

;;; Commentary:

;; Seconds of processor of this Emacs, and of the engine beside it, for
;; agendas over a large set of files, whose buffers are visited.  Org alone
;; is measured once for each view.  HEADINGS says how many headings there
;; are, 100000 without it; OWN=no leaves Org alone out, and VIEWS names those
;; views that are measured, with commas between.

;;; Code:

(require 'cl-lib)
(require 'org)
(require 'org-agenda)
(require 'org-views-agenda)
(require 'org-views-agenda-sets)

(defun org-views-agenda-speed--seconds (pid)
  "The seconds of processor that the process PID has had; 0 if there is none."
  (let ((it (and pid (process-attributes pid))))
    (if it (+ (float-time (alist-get 'utime it)) (float-time (alist-get 'stime it))) 0)))

(defun org-views-agenda-speed--engine ()
  "The engine's process id, or nil."
  (and org-views--process (process-id org-views--process)))

(defun org-views-agenda-speed--cost (make)
  "What the function MAKE costs: (SECONDS ENGINE) of processor."
  (garbage-collect)
  (let ((own (org-views-agenda-speed--seconds (emacs-pid)))
        (engine (org-views-agenda-speed--seconds (org-views-agenda-speed--engine))))
    (funcall make)
    (list (- (org-views-agenda-speed--seconds (emacs-pid)) own)
          (- (org-views-agenda-speed--seconds (org-views-agenda-speed--engine)) engine))))

(defun org-views-agenda-speed--rows ()
  "How many rows the agenda has, and a sum over its lines."
  (with-current-buffer org-agenda-buffer-name
    (goto-char (point-min))
    (list (cl-loop until (eobp)
                   count (get-text-property (point) 'org-hd-marker)
                   do (forward-line 1))
          (substring (sha1 (buffer-substring-no-properties (point-min) (point-max))) 0 8))))

(defun org-views-agenda-speed--edit (path)
  "Type a word in the midst of the file at PATH."
  (with-current-buffer (find-file-noselect path)
    (goto-char (/ (point-max) 2))
    (re-search-forward "^A second line")
    (insert " typed")))

(defun org-views-agenda-speed--tell (format &rest values)
  "Write VALUES by FORMAT at once, as a line."
  (princ (concat (apply #'format format values) "\n") #'external-debugging-output))

(defun org-views-agenda-speed--view (name make paths)
  "Measure the view NAME after MAKE, of the files at PATHS, and tell."
  (let (first again edited own ours alone)
    (org-views-agenda-mode 1)
    (setq first (org-views-agenda-speed--cost make)
          again (org-views-agenda-speed--cost make))
    (mapc #'org-views-agenda-speed--edit (seq-take paths 1))
    (setq edited (org-views-agenda-speed--cost make)
          ours (org-views-agenda-speed--rows))
    (org-views-agenda-mode -1)
    (org-views-agenda-speed--tell
     "%-6s %5d rows, first %.3f+%.3f, again %.3f+%.3f, edit %.3f+%.3f"
     name (car ours) (nth 0 first) (nth 1 first) (nth 0 again) (nth 1 again)
     (nth 0 edited) (nth 1 edited))
    (unless (equal (getenv "OWN") "no")
      (mapc #'org-views-agenda-speed--edit (seq-take paths 1))
      (setq own (org-views-agenda-speed--cost make)
            alone (org-views-agenda-speed--rows))
      (org-views-agenda-speed--tell
       "%-6s by Org alone %.2f, %.1f times as much as behind an edit; %s"
       "" (car own) (/ (car own) (car edited))
       (if (equal ours alone) "the same lines" (format "OTHER LINES %S" alone))))))

(defun org-views-agenda-speed ()
  "Measure views over a large set, and tell."
  (let* ((folder (make-temp-file "org views speed" t))
         (count (string-to-number (or (getenv "HEADINGS") "100000")))
         (inhibit-message t)
         (make-backup-files nil) (auto-save-default nil) (create-lockfiles nil)
         (vc-handled-backends nil)
         (org-agenda-show-current-time-in-grid nil)
         (org-views-program (list (or (getenv "ORG_VIEWS_PROGRAM") "orgviews")))
         (org-agenda-files (org-views-agenda-sets-large folder count)))
    (unwind-protect
        (progn
          (org-views-agenda-speed--tell
           "Org %s in Emacs %s, %d headings; seconds of processor, Emacs + engine"
           org-version emacs-version count)
          (pcase-dolist (`(,name . ,make)
                         `(("day" . ,(lambda () (org-agenda-list nil nil 'day)))
                           ("later" .
                            ,(lambda () (org-agenda-list nil (+ 40 (org-today)) 'day)))
                           ("week" . ,(lambda () (org-agenda-list nil nil 'week)))
                           ("todo" . ,(lambda () (org-todo-list "NEXT")))
                           ("match" . ,(lambda () (org-tags-view nil "travel+phone")))))
            (when (member name (split-string (or (getenv "VIEWS") name) ","))
              (org-views-agenda-speed--view name make org-agenda-files))))
      (org-views-stop)
      (delete-directory folder t))))

(provide 'org-views-agenda-speed)
;;; org-views-agenda-speed.el ends here
