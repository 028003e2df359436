;;; org-views-defects-tests.el --- Tests of defects that were found  -*- lexical-binding: t; -*-

;; SPDX-License-Identifier: Apache-2.0 OR MIT

;;; Commentary:

;; What people met and what must not come again, seen by commands alone: each
;; of these failed over the client that guessed headings by their words.

;;; Code:

(require 'org-views-tests)

(defun org-views-tests-visit-row (row)
  "The file's name and the line where RET on ROW of the current view leads."
  (goto-char (point-min))
  (forward-line (1- row))
  (save-window-excursion
    (switch-to-buffer (current-buffer))
    (org-views-visit)
    (list (file-name-nondirectory buffer-file-name)
          (buffer-substring (line-beginning-position) (line-end-position)))))

(ert-deftest org-views-category-and-title-run-together ()
  (org-views-tests-with ((work "* Budget\n") (other "#+CATEGORY: work\n* Meeting: Budget\n"))
    (with-current-buffer (org-views-match "LEVEL>0")
      (should (equal (org-views-tests-visit-row 2) '("other.org" "* Meeting: Budget")))
      (should (equal (org-views-tests-visit-row 1) '("work.org" "* Budget"))))))

(ert-deftest org-views-equal-headings ()
  (org-views-tests-with ((a "* TODO call\n* TODO call\n"))
    (with-current-buffer (org-views-todo)
      (goto-char (point-min))
      (forward-line 1)
      (save-window-excursion
        (switch-to-buffer (current-buffer))
        (org-views-visit)
        (should (= (point) 13))))))

(ert-deftest org-views-a-link-to-itself ()
  (org-views-tests-with ((a "* TODO a\n"))
    (let ((link (org-views-tests-path "loop.org")))
      (make-symbolic-link link link)
      (setq org-views-files (list link a))
      (with-current-buffer (org-views-todo)
        (should (equal (buffer-string) "  a:          TODO a\n"))
        (should (string-match-p "loop.org" org-views--headline)))
      ;; In a folder too.
      (setq org-views-files (list org-views-tests-folder))
      (with-current-buffer (org-views-todo)
        (should (equal (buffer-string) "  a:          TODO a\n"))))))

(ert-deftest org-views-a-folder-that-cannot-be-read ()
  (org-views-tests-with ((a "* TODO a\n"))
    (let ((folder (org-views-tests-path "shut")) (list (symbol-function 'directory-files)))
      (make-directory folder)
      (setq org-views-files (list folder a))
      (cl-letf (((symbol-function 'directory-files)
                 (lambda (path &rest rest)
                   (if (equal path folder)
                       (signal 'file-error (list "Opening directory" "Permission denied" path))
                     (apply list path rest)))))
        (with-current-buffer (org-views-todo)
          (should (equal (buffer-string) "  a:          TODO a\n"))
          (should (string-match-p "shut" org-views--headline)))
        ;; The same by way of Org's own list of files.
        (let ((org-agenda-files (list folder a)))
          (setq org-views-files #'org-views-agenda-files)
          (with-current-buffer (org-views-todo)
            (should (equal (buffer-string) "  a:          TODO a\n"))))))))

(ert-deftest org-views-a-line-with-very-many-bars ()
  (org-views-tests-with ((a "* TODO a\n")
                         (b (concat "#+TODO:" (mapconcat #'identity (make-list 300000 " |") "")
                                    "\n* TODO b\n")))
    (with-current-buffer (org-views-todo)
      (should (equal (buffer-string) "  a:          TODO a\n  b:          TODO b\n"))
      (should-not (string-match-p "left out" org-views--headline)))))

(ert-deftest org-views-a-very-long-title ()
  (org-views-tests-with ((a (concat "* TODO " (make-string 1000000 ?x) "\n* TODO b\n"
                                    "CLOCK: [2024-02-28 Wed 09:00]--[2024-02-28 Wed 09:30]\n")))
    (with-current-buffer (org-views-clock "block=today maxlevel=1")
      (should (equal (org-views-tests-visit-row 4) '("a.org" "* TODO b"))))
    (with-current-buffer (org-views-todo)
      (should (equal (org-views-tests-visit-row 2) '("a.org" "* TODO b"))))))

(ert-deftest org-views-very-long-rows-have-faces ()
  (org-views-tests-with ((a (concat "* TODO " (make-string 1000000 ?x) "\n* TODO y "
                                    (mapconcat #'identity (make-list 300000 ":a") "") ":\n")))
    (with-current-buffer (org-views-todo)
      (font-lock-ensure)
      (jit-lock-fontify-now)
      (goto-char (point-min))
      (search-forward "TODO")
      (should (get-text-property (1- (point)) 'face)))))

(ert-deftest org-views-a-file-that-fails ()
  (org-views-tests-with ((a "* TODO a\n") (b "* TODO b\n"))
    (let ((stamp (symbol-function 'org-views--disk-stamp)))
      (cl-letf (((symbol-function 'org-views--disk-stamp)
                 (lambda (path) (if (equal path a) (error "Odd disk") (funcall stamp path)))))
        (with-current-buffer (org-views-todo)
          (should (equal (buffer-string) "  b:          TODO b\n"))
          (should (string-match-p "Odd disk" org-views--headline)))))))

(ert-deftest org-views-no-files-at-all ()
  (org-views-tests-with ((a "* TODO a\n"))
    (setq org-views-files #'org-views-agenda-files)
    (let ((org-agenda-files nil))
      (with-current-buffer (org-views-agenda)
        (should (string-match-p "No files: set `org-agenda-files'" org-views--headline))))
    (setq org-views-files nil)
    (with-current-buffer (org-views-agenda)
      (should (string-match-p "No files: set `org-views-files'" org-views--headline)))))

(defun org-views-tests-stub (reply)
  "A program that answers each command by `ok 0', but a list of tasks by REPLY."
  (list "sh" "-c"
        (concat "n=0; while IFS= read -r line; do case $line in"
                " todo) printf '" reply "' ;;"
                " version) printf 'view 17\\norgviews 0.4.0 2\\n' ;;"
                " add*) set -- $line; head -c $3 > /dev/null; n=$((n+1)); echo ok $n ;;"
                " edit*) set -- $line; head -c $7 > /dev/null; n=$((n+1)); echo ok $n ;;"
                " *) echo ok $n ;; esac; done")))

(ert-deftest org-views-a-huge-view ()
  (org-views-tests-with ((a ""))
    (dolist (reply '("view 99999999999999999999999999\\n" "view 999999999999\\n"))
      (let ((org-views-program (org-views-tests-stub reply)) (fault nil))
        (with-timeout (10 (ert-fail "Emacs is held"))
          (setq fault (cadr (should-error (org-views-todo) :type 'user-error))))
        (should (string-match-p "more than Emacs takes" fault))))))

(ert-deftest org-views-a-view-that-breaks-off ()
  (org-views-tests-with ((a ""))
    (let ((org-views-program (org-views-tests-stub "view 1000\\nx")) (org-views--patience 0.3))
      (with-timeout (10 (ert-fail "Emacs is held"))
        (should (string-match-p "doesn't answer"
                                (cadr (should-error (org-views-todo) :type 'user-error))))))))

(ert-deftest org-views-new-rows-keep-the-day-in-sight ()
  (org-views-tests-with ((a "* TODO a\nSCHEDULED: <2024-02-28 Wed 9:00>\n"))
    (save-window-excursion
      (delete-other-windows)
      (let ((view (org-views-agenda)))
        (switch-to-buffer view)
        (goto-char (point-min))
        (forward-line 1)
        (set-window-point nil (point))
        (set-window-start nil (point-min))
        (with-current-buffer (find-file-noselect a)
          (insert "* TODO b\nSCHEDULED: <2024-02-28 Wed 8:00>\n"))
        (revert-buffer)
        (should (equal (org-views--row) "  a:          09:00       Scheduled: TODO a"))
        (should (= (window-start) (point-min)))
        ;; Where the row would be out of sight the window moves with it.
        (with-current-buffer (find-file-noselect a)
          (dotimes (_ 100) (insert "* TODO b\nSCHEDULED: <2024-02-28 Wed 8:00>\n")))
        (revert-buffer)
        (should (equal (org-views--row) "  a:          09:00       Scheduled: TODO a"))
        (should (> (window-start) (point-min)))))))

(provide 'org-views-defects-tests)
;;; org-views-defects-tests.el ends here
