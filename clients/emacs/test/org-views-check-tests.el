;;; org-views-check-tests.el --- Tests of what flymake shows  -*- lexical-binding: t; -*-

;; SPDX-License-Identifier: Apache-2.0 OR MIT

;;; Commentary:

;; Over the program that ORG_VIEWS_CHECK_PROGRAM names, `orgq' without it.

;;; Code:

(require 'org-views-tests)
(require 'org-views-check)

(setq org-views-check-program (list (or (getenv "ORG_VIEWS_CHECK_PROGRAM") "orgq")))

(defmacro org-views-check-tests-in (text &rest body)
  "Do BODY in an Org buffer with TEXT, at one moment."
  (declare (indent 1) (debug t))
  `(cl-letf (((symbol-function 'org-views--now) (lambda () "2024-02-28 10:30")))
     (let ((org-views-check-program org-views-check-program)
           (org-views-check-options nil)
           (org-todo-keywords '((sequence "TODO" "DONE"))))
       (with-temp-buffer
         (insert ,text)
         (org-mode)
         (unwind-protect (progn ,@body)
           (when (process-live-p org-views-check--process)
             (delete-process org-views-check--process)))))))

(defun org-views-check-tests-told ()
  "The arguments with which flymake is told of the current buffer."
  (let ((told 'nothing))
    (org-views-check-flymake (lambda (&rest words) (setq told words)))
    (with-timeout (20 (ert-fail "no answer"))
      (while (eq told 'nothing) (accept-process-output org-views-check--process 0.1)))
    told))

(defun org-views-check-tests-found ()
  "What is found in the current buffer: place, text, type and kind of each."
  (mapcar (lambda (it)
            (list (flymake-diagnostic-beg it)
                  (buffer-substring (flymake-diagnostic-beg it) (flymake-diagnostic-end it))
                  (flymake-diagnostic-type it)
                  (replace-regexp-in-string "\\`.*\\[\\|\\]\\'" "" (flymake-diagnostic-text it))))
          (car (org-views-check-tests-told))))

(ert-deftest org-views-check-nothing ()
  (org-views-check-tests-in "* TODO a\nDEADLINE: <2024-03-01 Fri>\n"
    (should (equal (org-views-check-tests-told) '(nil)))))

(ert-deftest org-views-check-places-and-types ()
  (org-views-check-tests-in "* TODO \u00e4\u20ac\U0001f600 a\nb\u00e9 <2024-02-30 Fri>\n\nDEADLINE: <2024-03-01 Thu>\n"
    (should (equal (org-views-check-tests-found)
                   '((17 "<2024-02-30 Fri>" :error "no-such-date")
                     (35 "DEADLINE: <2024-03-01 Thu>" :error "stray-planning")
                     (45 "<2024-03-01 Thu>" :warning "wrong-day-name"))))))

(ert-deftest org-views-check-a-sentence ()
  (org-views-check-tests-in "* a\n\nDEADLINE: <2024-03-01 Fri>\n"
    (should (string-match-p "directly under its heading; line 2 is blank \\[stray-planning\\]\\'"
                            (flymake-diagnostic-text (caar (org-views-check-tests-told)))))))

(ert-deftest org-views-check-a-note ()
  (org-views-check-tests-in "* DONE a\nSCHEDULED: <2024-03-01 Fri +1w>\n"
    (should (equal (org-views-check-tests-found)
                   '((21 "<2024-03-01 Fri +1w>" :note "repeater-on-done"))))))

(ert-deftest org-views-check-as-it-stands ()
  (org-views-tests-with ((a "* TODO a\n"))
    (with-current-buffer (find-file-noselect a)
      (goto-char (point-max))
      (insert "<2024-02-30>")
      (should (equal (org-views-check-tests-found)
                     '((10 "<2024-02-30>" :error "no-such-date"))))
      (should (buffer-modified-p)))))

(ert-deftest org-views-check-all-of-a-narrowed-buffer ()
  (org-views-check-tests-in "* a\n<2024-02-30>\n* b\n"
    (narrow-to-region 18 (point-max))
    (should (equal (mapcar #'flymake-diagnostic-beg (car (org-views-check-tests-told))) '(5)))
    (should (= (point-min) 18))))

(ert-deftest org-views-check-bytes-that-are-no-characters ()
  (org-views-check-tests-in (concat "* a \x3fffff\n" (string #x3fff80) "<2024-02-30>\n")
    (should (equal (org-views-check-tests-found)
                   '((8 "<2024-02-30>" :error "no-such-date"))))))

(ert-deftest org-views-check-keywords-of-emacs ()
  (org-views-check-tests-in ""
    (setq org-todo-keywords '((sequence "TODO" "WAIT(w@)" "|" "DONE") (type "NEXT" "CANCELED")))
    (org-mode)
    (insert "* WAIT a\n* NEXT b\n* CANCELED c\n* SOMEDAY d\n* CANCELED e\nSCHEDULED: <2024-03-01 Fri +1w>\n")
    (should (equal (mapcar (lambda (it) (list (nth 1 it) (nth 3 it))) (org-views-check-tests-found))
                   '(("SOMEDAY" "missing-keyword")
                     ("<2024-03-01 Fri +1w>" "repeater-on-done"))))))

(ert-deftest org-views-check-keywords-of-the-file ()
  (org-views-check-tests-in "#+TODO: TODO NEXT | DONE\n* NEXT a\n* WAIT b\n"
    (should (equal (mapcar (lambda (it) (nth 1 it)) (org-views-check-tests-found)) '("WAIT")))))

(ert-deftest org-views-check-options ()
  (org-views-check-tests-in "* WAIT a\n# <2024-03-01 Fri>\n"
    (setq org-views-check-options '("--all" "--not" "missing-keyword"))
    (should (equal (mapcar (lambda (it) (nth 3 it)) (org-views-check-tests-found))
                   '("stamp-in-comment")))))

(ert-deftest org-views-check-refused-options ()
  (org-views-check-tests-in (make-string 1000000 ?a)
    (setq org-views-check-options '("--only" "bad"))
    (let ((told (org-views-check-tests-told)))
      (should (eq (car told) :panic))
      (should (string-match-p "status 2: orgq: no such kind: bad; there are no-such-date, "
                              (plist-get (cdr told) :explanation))))))

(ert-deftest org-views-check-no-program ()
  (org-views-check-tests-in "* a\n"
    (setq org-views-check-program '("no-such-orgq"))
    (should (string-match-p "no-such-orgq"
                            (cadr (should-error (org-views-check-flymake #'ignore)))))))

(ert-deftest org-views-check-the-later-check-counts ()
  (org-views-check-tests-in "* a\n<2024-02-30>\n"
    (let ((told 0))
      (org-views-check-flymake (lambda (&rest _) (setq told (1+ told))))
      (should (equal (length (org-views-check-tests-found)) 1))
      (should (= told 0)))))

(ert-deftest org-views-check-a-killed-buffer ()
  (let (process)
    (org-views-check-tests-in "* a\n<2024-02-30>\n"
      (org-views-check-flymake (lambda (&rest _) (ert-fail "told of a killed buffer")))
      (setq process org-views-check--process
            org-views-check--process nil))
    (with-timeout (20 (ert-fail "it didn't end"))
      (while (process-live-p process) (accept-process-output process 0.1)))
    (should-not (buffer-live-p (process-buffer process)))))

(ert-deftest org-views-check-by-flymake ()
  (org-views-tests-with ((a "* TODO a\n<2024-02-30>\n"))
    (save-window-excursion
      (switch-to-buffer (find-file-noselect a))
      (let ((flymake-start-on-flymake-mode nil))
        (org-views-check-setup))
      (should flymake-mode)
      (flymake-start)
      (with-timeout (20 (ert-fail "flymake shows nothing"))
        (while (not (flymake-diagnostics)) (accept-process-output nil 0.1)))
      (should (equal (mapcar #'flymake-diagnostic-beg (flymake-diagnostics)) '(10))))))

(defmacro org-views-check-tests-config (files keywords &rest body)
  "Do BODY in a folder of settings, with agenda FILES and KEYWORDS.
There `config' is the path of the settings."
  (declare (indent 2) (debug t))
  `(let* ((folder (file-name-as-directory (make-temp-file "orgq" t)))
          (config (concat folder "orgq/config"))
          (process-environment (cons (concat "XDG_CONFIG_HOME=" (directory-file-name folder))
                                    process-environment))
          (org-directory folder)
          (org-agenda-files ,files)
          (org-todo-keywords ,keywords))
     (unwind-protect (progn ,@body)
       (delete-directory folder t))))

(defun org-views-check-tests-text (path)
  "The text of the file at PATH."
  (with-temp-buffer
    (insert-file-contents path)
    (buffer-string)))

(ert-deftest org-views-check-writes-settings ()
  (org-views-check-tests-config '("/org/work.org" "/org/b\u00e4r") '((sequence "TODO" "NEXT(n)" "|" "DONE(d!)"))
    (org-views-write-config)
    (should (equal (org-views-check-tests-text config)
                   "file /org/work.org\nfile /org/b\u00e4r\nkeywords TODO NEXT | DONE\n"))))

(ert-deftest org-views-check-keeps-other-settings ()
  (org-views-check-tests-config '("/org/work.org") '((sequence "TODO" "DONE"))
    (make-directory (concat folder "orgq"))
    (write-region "# mine\nfile /old.org\ncolor never\n keywords A | B\nfilex" nil config nil 'silent)
    (org-views-write-config)
    (should (equal (org-views-check-tests-text config)
                   "# mine\ncolor never\nfilex\nfile /org/work.org\nkeywords TODO | DONE\n"))))

(ert-deftest org-views-check-settings-count ()
  (org-views-check-tests-config '("/org/work.org" "/org/with a space.org") '((sequence "TODO" "DONE"))
    (org-views-write-config)
    (with-temp-buffer
      (should (equal (apply #'call-process (car org-views-check-program) nil t nil
                            (append (cdr org-views-check-program) '("config")))
                     0))
      (should (equal (buffer-string)
                     (format "%s:1: file /org/work.org\n%s:2: file /org/with a space.org\n%s:3: keywords TODO | DONE\n"
                             config config config))))))

(provide 'org-views-check-tests)

;;; org-views-check-tests.el ends here
