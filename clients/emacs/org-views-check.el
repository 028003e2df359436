;;; org-views-check.el --- What looks planned and will not show  -*- lexical-binding: t; -*-

;; SPDX-License-Identifier: Apache-2.0 OR MIT

;;; Commentary:

;; Shows by flymake what the program `orgq' finds in an Org buffer: lines
;; that look planned and aren't read so, and what counts for something else.
;; The buffer is checked as it stands, saved or not.  In your init file:
;;
;;   (add-hook 'org-mode-hook #'org-views-check-setup)
;;
;; `org-views-write-config' lets `orgq' ask your agenda files and take your
;; keywords wherever it is run.

;;; Code:

(require 'cl-lib)
(require 'flymake)
(require 'json)
(require 'seq)
(require 'subr-x)
(require 'org-views-engine)
(require 'org-views-files)

(defvar org-agenda-files)
(defvar org-directory)
(declare-function org-read-agenda-file-list "org" (&optional pair-with-expansion))

(defcustom org-views-check-program '("orgq")
  "The program that checks Org buffers, and arguments for all its commands."
  :type '(repeat string)
  :group 'org-views)

(defcustom org-views-check-options nil
  "Options of `orgq check', as `--all', or `--not' and \"missing-keyword\"."
  :type '(repeat string)
  :group 'org-views)

(defvar-local org-views-check--process nil
  "The process that checks the current buffer, or that did so last.")

(defun org-views-check--keywords ()
  "The keywords of a text that names none, as one sequence with a bar."
  (let ((sequences (org-views--sequences)))
    (string-join
     (append (seq-mapcat (lambda (it) (seq-take-while (lambda (word) (not (equal word "|"))) it))
                         sequences)
             '("|")
             (seq-mapcat (lambda (it) (cdr (member "|" it))) sequences))
     " ")))

(defun org-views-check--command ()
  "The program with its arguments, for a text on standard input."
  (append org-views-check-program
          (list "--json" "--at" (org-views--now) "--keywords" (org-views-check--keywords))
          '("check") org-views-check-options '("/dev/stdin")))

(defun org-views-check--place (byte)
  "The place in the current buffer, which is widened, of BYTE of its text."
  (or (byte-to-position (1+ byte)) (point-max)))

(defun org-views-check--diagnostic (finding)
  "FINDING in the current buffer, which is widened, as flymake takes it."
  (let-alist finding
    (let ((beg (org-views-check--place .byte))
          (end (org-views-check--place (+ .byte .length))))
      (flymake-make-diagnostic
       (current-buffer) beg (max end (min (1+ beg) (point-max)))
       (pcase .severity ("error" :error) ("warning" :warning) (_ :note))
       (format "%s [%s]" .text .kind)))))

(defun org-views-check--lines (process)
  "The lines that PROCESS wrote."
  (with-current-buffer (process-buffer process)
    (split-string (buffer-string) "\n" t)))

(defun org-views-check--report (report process)
  "Tell REPORT what PROCESS found in the current buffer, or why nothing."
  (let* ((lines (org-views-check--lines process))
         (found (seq-filter (lambda (line) (string-prefix-p "{" line)) lines))
         (said (or (seq-find (lambda (line) (not (string-prefix-p "{" line))) lines) "")))
    (pcase (process-exit-status process)
      ((or 0 1)
       (org-views--with-whole-text
         (funcall report (mapcar (lambda (line)
                                   (org-views-check--diagnostic (json-read-from-string line)))
                                 found))))
      ;; The text can't be checked: over 64 MiB.
      (3 (funcall report nil)
         (flymake-log :warning "%s" said))
      (status
       (funcall report :panic
                :explanation (format "`%s' ended with status %d: %s"
                                     (car org-views-check-program) status said))))))

(defun org-views-check--sentinel (source report)
  "A sentinel for the process of the buffer SOURCE, for REPORT."
  (lambda (process _event)
    (unless (process-live-p process)
      (unwind-protect
          (when (and (buffer-live-p source)
                     (eq process (buffer-local-value 'org-views-check--process source)))
            (with-current-buffer source (org-views-check--report report process)))
        (kill-buffer (process-buffer process))))))

(defun org-views-check--start (report)
  "Start to check the current buffer for REPORT: the process."
  (make-process :name "orgq-check" :noquery t :connection-type 'pipe
                :coding '(utf-8-unix . no-conversion)
                :buffer (generate-new-buffer " *orgq check*" t)
                :command (org-views-check--command)
                :sentinel (org-views-check--sentinel (current-buffer) report)))

(defun org-views-check-flymake (report &rest _)
  "Check the current buffer as it stands, and tell flymake's REPORT what is found."
  (unless (executable-find (car org-views-check-program))
    (error "No program `%s': set `org-views-check-program'" (car org-views-check-program)))
  (let ((former org-views-check--process))
    ;; Its sentinel tells nothing any more.
    (setq org-views-check--process nil)
    (when (process-live-p former) (delete-process former)))
  (let ((text (org-views--with-whole-text (org-views--bytes (point-min) (point-max))))
        (process (org-views-check--start report)))
    (setq org-views-check--process process)
    ;; What it refuses it refuses before it reads: the sentinel says so.
    (ignore-errors
      (process-send-string process text)
      (process-send-eof process))))

;;;###autoload
(defun org-views-check-setup ()
  "Show by flymake what in the current buffer will not show.
For `org-mode-hook'; \\[flymake-mode] shows nothing any more."
  (interactive)
  (add-hook 'flymake-diagnostic-functions #'org-views-check-flymake nil t)
  (flymake-mode 1))

;;;; Settings

(defun org-views-check--config ()
  "The file of settings of `orgq'."
  (let ((folder (getenv "XDG_CONFIG_HOME")))
    (expand-file-name "orgq/config"
                      (if (member folder '(nil "")) "~/.config" folder))))

(defun org-views-check--file-lines ()
  "A setting for each of `org-agenda-files', which may be a folder.
A path that no line can hold is left out."
  (require 'org)
  (mapcan (lambda (path)
            (let ((path (abbreviate-file-name (expand-file-name path org-directory))))
              (if (string-match-p "[\n\r\0]\\|[ \t]\\'" path)
                  (progn (message "No line of settings can hold %S" path) nil)
                (list (concat "file " path)))))
          (if (stringp org-agenda-files) (org-read-agenda-file-list)
            (copy-sequence org-agenda-files))))

;;;###autoload
(defun org-views-write-config ()
  "Write your agenda files and keywords into the settings of `orgq'.
The lines that name files or keywords are replaced, all others stay; what
the file said before is kept beside it, under its name and a tilde."
  (interactive)
  (let ((config (org-views-check--config))
        (files (org-views-check--file-lines))
        (keywords (with-temp-buffer (org-views-check--keywords)))
        (coding-system-for-read 'utf-8-unix)
        (coding-system-for-write 'utf-8-unix))
    (with-temp-buffer
      (when (file-exists-p config)
        (copy-file config (concat config "~") t)
        (insert-file-contents config))
      (goto-char (point-min))
      (flush-lines "^[ \t]*\\(?:file\\|keywords\\)[ \t]")
      (goto-char (point-max))
      (unless (bolp) (insert "\n"))
      (dolist (line (append files (list (concat "keywords " keywords))))
        (insert line "\n"))
      (make-directory (file-name-directory config) t)
      (write-region nil nil config nil 'silent))
    (message "Wrote %d files and the keywords into %s" (length files)
             (abbreviate-file-name config))))

(provide 'org-views-check)

;;; org-views-check.el ends here
