;;; org-views-view-tests.el --- Tests of views of one's own  -*- lexical-binding: t; -*-

;; SPDX-License-Identifier: Apache-2.0 OR MIT

;;; Commentary:

;; Over the program that ORG_VIEWS_CHECK_PROGRAM names, `orgq' without it.

;;; Code:

(require 'org-views-check-tests)
(require 'org-views-view)

(defmacro org-views-view-tests-with (views &rest body)
  "Do BODY in a folder with one Org file, and with VIEWS as the file of views."
  (declare (indent 1) (debug t))
  `(let* ((folder (file-name-as-directory (make-temp-file "views" t)))
          (default-directory folder)
          (process-environment (cons (concat "XDG_CONFIG_HOME=" folder "config") process-environment))
          (org-views-check-program
           (append org-views-check-program (list "--at" "2024-02-28 10:30" "-f" (concat folder "a.org")))))
     (make-directory "config/orgq" t)
     (write-region ,views nil "config/orgq/views" nil 'silent)
     (write-region "* a\n* TODO call :x:\n* NEXT write\nSCHEDULED: <2024-02-28 Wed>\n#+TODO: TODO NEXT | DONE\n"
                   nil "a.org" nil 'silent)
     (unwind-protect (save-window-excursion ,@body)
       (dolist (buffer (buffer-list))
         (when (string-match-p "\\`\\*orgq view\\|\\`a\\.org" (buffer-name buffer)) (kill-buffer buffer)))
       (delete-directory folder t))))

(ert-deftest org-views-view-titles-and-rows ()
  (org-views-view-tests-with "[day]\nshow = agenda today\nshow = todo NEXT --title Next\n"
    (org-views-view "day")
    (should (equal (buffer-substring-no-properties (point-min) (point-max))
                   (concat "agenda today\n2024-02-28\n  a:                      Scheduled: NEXT write\n"
                           "\nNext\n  a:          NEXT write\n")))))

(ert-deftest org-views-view-leads-to-its-heading ()
  (org-views-view-tests-with "[open]\nshow = todo\n"
    (org-views-view "open")
    (should-error (org-views-view-visit) :type 'user-error)
    (search-forward "call")
    (org-views-view-visit)
    (should (looking-at-p "\\* TODO call"))))

(ert-deftest org-views-view-again ()
  (org-views-view-tests-with "[open]\nshow = todo TODO\n"
    (org-views-view "open")
    (write-region "* TODO other\n" nil "a.org" nil 'silent)
    (revert-buffer)
    (should (equal (buffer-substring-no-properties (point-min) (point-max))
                   "todo TODO\n  a:          TODO other\n"))))

(ert-deftest org-views-view-without-rows ()
  (org-views-view-tests-with "[none]\nshow = todo WAIT\n"
    (org-views-view "none")
    (should (equal (buffer-string) "No row\n"))))

(ert-deftest org-views-view-names ()
  (org-views-view-tests-with "[a]\nshow = todo\n[b]\nabout = more\nshow = todo\n"
    (should (equal (org-views-view--names) '("a" "b")))
    (should (string-match-p "no view has this name; there are a, b"
                            (cadr (should-error (org-views-view "c") :type 'user-error))))))

(provide 'org-views-view-tests)

;;; org-views-view-tests.el ends here
