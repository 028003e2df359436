;;; org-views-agenda-odd-tests.el --- Odd headings in Org's agenda  -*- lexical-binding: t; -*-

;; SPDX-License-Identifier: Apache-2.0 OR MIT

;;; Commentary:

;; Stamps of any writing in any place, and headings and settings that can be
;; read in more than one way.  In `org-views-agenda-mode' no row of theirs is
;; lost, and none comes that Org alone doesn't show.

;;; Code:

(require 'cl-lib)
(require 'ert)
(require 'org-views-agenda-tests)

(defun org-views-agenda-odd-tests--fill (template)
  "TEMPLATE with a date for each `{N}', the day N from today, with its day's name.
For `{N!}' it is the date alone, for `{N/}' with spaces, as in an expression."
  (replace-regexp-in-string
   "{\\(-?[0-9]+\\)\\([!/]?\\)}"
   (lambda (it)
     (let ((day (org-views-agenda-sets-day (string-to-number (match-string 1 it)))))
       (pcase (match-string 2 it)
         ("!" (substring day 0 10))
         ("/" (string-replace "-" " " (substring day 0 10)))
         (_ day))))
   template t t))

(defconst org-views-agenda-odd-tests--stamps
  '("<{0}>" "<{0} 24:00>" "<{0} 9:00>" "<{0} 09:00>" "<{0} 25:00>" "<{0} 10:61>" "<{-3} +1d>"
    "<{-3} +1w -2d>" "<{-6} +2d -1d>" "<{-3} ++1w>" "<{-4} .+2d/4d>" "<{-2}>--<{2}>"
    "<{-2}>-<{2}>" "<{-2}>---<{2}>" "<{-2}>----<{2}>" "<{0}>--<{0}>" "<{2}>--<{-2}>"
    "<{-2} 10:00>--<{2} 11:00>" "<{-2} 24:00>--<{2}>" "<{-2}>--<{2} 24:00>"
    "<{-2} +1w>--<{1} +1w>" "<{-2}>--<{2} +1d>" "<{0!}>" "<{0!} Mi.>" "<{0} foo bar>"
    "<{0!}Sun>" "<{0!}  Sun>" "<{0} 10:00 >" "< {0}>" "<{0} 10:00-24:00>" "<{0} 10:00-9:00>"
    "<{0!} 10:00>" "<{0} 1:00>" "<{0} 10.00>" "<{0} 10:00AM>" "<{-3} +1h>" "<{-3} +36h>"
    "<{-40} +1m>" "<2020-01-31 Fri +1m>" "<2020-01-30 Thu +1m>" "<{-366} +1y>"
    "<2020-02-29 Sat +1y>" "<{0} -3d>" "<{5} -1m>" "<{20} -1m>" "<{3} -2d>" "<{3} --2d>"
    "<{-3} -2d>" "<{-3} --5d>" "<{-3} -5d>" "<{-3} +1d --2d>" "<{-8} +4d -2d>" "<{30} -5w>"
    "<{40} -1y>" "<2026-02-30 Mon>" "<2026-11-31>" "[{0}]" "[{0} 10:00]--[{0} 11:00]"
    "<%%(org-date {0/})>" "<%%(diary-cyclic 2 1 1 2024)>" "<{0} +1d +1w>" "<{-7} +7d>"
    "<{0} +0d>" "<{-1} +1d -1d>" "<{0} 10:00 +1d>" "<{-2} 10:00-11:00 +1d -1d>" "<{-3} +1d/3d>"
    "<{0} +1D>" "<26-11-29>" "<{0}>--" "<{0}>--[{2}]" "<{0}>--<{1}>--<{2}>" "<{0}> <{1}>"
    "<{0}> and <{-2}>--<{1}>" "<{0}\n>" "<<{0}>>" "<{1} -0d>" "<{0} -1h>" "due <{0}>"
    "<due {0}>" "<{-2} +2>" "<{-5} +1w/2w -1d>" "<{13}>" "<{15}>" "<{-30}>" "<{14} 24:00>"
    "<{-1} 24:00 +1d>" "<{-3}\t+1d>" "<{0}\t10:00>" "<{-1} 9:00-10:00 +1d>" "<{-10} +1w-2d>")
  "Stamps.")

(defconst org-views-agenda-odd-tests--places
  '("TODO odd @ #\n" "TODO odd @\n# here\n" "TODO odd @\nSCHEDULED: #\n" "TODO odd @\nDEADLINE: #\n"
    "TODO odd @\n:PROPERTIES:\n:WHEN: #\n:END:\n" "TODO odd @\n#+begin_quote\n#\n#+end_quote\n"
    "DONE odd @\nSCHEDULED: #\n" "DONE odd @\nDEADLINE: #\n" "DONE odd @\nOn #.\n"
    "odd @\nDEADLINE: # SCHEDULED: #\n")
  "Sections in which each stamp stands for each number sign, behind a star.")

(defconst org-views-agenda-odd-tests--other-places
  '("odd @\n  - item #\n" "odd @\n| # | x |\n" "odd @\n:LOGBOOK:\n- Note #\n:END:\n"
    "odd @\n:NOTES:\n#\n:END:\n" "odd @\n:NOTES:\n#\n" "odd @\n:PROPERTIES:\nnone\n:A: #\n:END:\n"
    "odd @\n:properties:\n:a: #\n:end:\n" "odd @\n\n:PROPERTIES:\n:A: #\n:END:\n"
    "odd @\n:PROPERTIES:\n:A: 1\n:END:\n#\n" "odd @\n:PROPERTIES:\n:A: 1\n:END:\n:B:\n#\n:END:\n"
    "odd @\n#+begin_center\n#\n#+end_center\n" "odd @\n#+begin_verse\n#\n#+end_verse\n"
    "odd @\n#+BEGIN_SPECIAL\n#\n#+END_SPECIAL\n" "odd @\n#+begin_example\n#\n#+end_example\n"
    "odd @\n#+begin_src c\n#\n#+end_src\n" "odd @\n#+begin_comment\n#\n#+end_comment\n"
    "odd @\n#+begin_export html\n#\n#+end_export\n" "odd @\n#+begin_quote\n#\n"
    "odd @\n#+begin_quote\na\n#+end_quote\n#\n#+begin_quote\nb\n#+end_quote\n"
    "odd @\n  #+begin_quote\n  #\n  #+end_quote\n" "odd @\n#+begin: clocktable\n#\n#+end:\n"
    "odd @\n: #\n" "odd @\n# #\n" "odd @\n#+DATE: #\n" "odd @\n#+CAPTION: #\n"
    "odd @\nCLOCK: #\n" "odd @\nCLOCK: #--#\n" "odd @\n  CLOCK: #\n" "odd @\n=#= and ~#~\n"
    "odd @\n[[file:a.org][#]]\n" "odd @\n[[file:#][a]]\n" "odd @\n[fn:1] #\n" "odd @\n- #:: a\n"
    "odd @\n$#$\n" "odd @\n\\begin{a}\n#\n\\end{a}\n" "odd @\n-----#\n"
    "odd @\nSCHEDULED:#\n" "odd @\nSCHEDULED:    #\n" "odd @\nfoo SCHEDULED: #\n"
    "odd @\nSCHEDULED: # foo\n" "odd @\nSCHEDULED: # SCHEDULED: <{1}>\n"
    "odd @\nDEADLINE: <{2}> DEADLINE: #\n" "odd @\n\nSCHEDULED: #\n"
    "odd @\n:PROPERTIES:\n:A: 1\n:END:\nDEADLINE: #\n" "odd @\nscheduled: #\n" "odd @\ndeadline: #\n"
    "odd @\nSCHEDULED: #\nDEADLINE: #\n" "odd @\nCLOSED: # SCHEDULED: #\n" "odd @\nCLOSED: #\n"
    "odd @\n  DEADLINE: #\n" "odd @\n\tSCHEDULED: #\n" "odd @\nDEADLINE: #--<{2}>\n"
    "odd @\nSCHEDULED: <{-3}>--#\n" "odd @\n* not one\nSCHEDULED: #\n" "odd @\nDEADLINES: #\n"
    "odd @\nXDEADLINE: #\n" "odd @\nSCHEDULED: [{0}] #\n" "odd @\nSCHEDULED:\n#\n"
    "odd @\nDEADLINE: <{0} #>\n" "odd @ DEADLINE: #\n" "odd @\nCLOSED: [{0} 10:00]\nSCHEDULED: #\n"
    "odd @\n#+begin_src a\n#\n" "odd @\n:END:\n#\n" "odd @\n- State \"DONE\" from \"TODO\" #\n")
  "More sections, behind a star and a keyword.")

(defconst org-views-agenda-odd-tests--main-stamps
  '("<{0}>" "<{-3} +1d>" "<{-2}>--<{2}>" "<{0} 10:00>" "<{0} 24:00>" "<{-8} +4d -2d>" "<{3} -5d>")
  "Stamps for all places.")

(defconst org-views-agenda-odd-tests--headings
  '("TODO\todd @ <{0}>" "TODO \todd @ <{0}>" "DONE\todd @\nDEADLINE: <{-2}>" "todo odd @ <{0}>"
    "TODO odd @\t:tag:\nSCHEDULED: <{0}>" "TODO COMMENT odd @ <{0}>" "COMMENT odd @ <{0}>"
    "COMMENT: odd @ <{0}>" "COMMENTS odd @ <{0}>" "TODO [#A] COMMENT odd @ <{0}>"
    "[#A] TODO odd @ <{0}>" "TODO [#a] odd @ <{0}>" "TODO [#12] odd @ <{0}>" "TODO [#AA] odd @ <{0}>"
    "TODO[#A] odd @ <{0}>" "TODO: odd @ <{0}>" "TODO odd @ <{0}> :ARCHIVE:"
    "TODO odd @ :ARCHIVE: more <{0}>" "TODO odd @ <{0}> :archive:" "TODO odd @ <{0}> :a:ARCHIVE:b:"
    "TODO odd @ <{0}>:ARCHIVE:" "TODO odd @ <{0}>  :a-b:" "TODO odd @ <{0}> :a: :b:" "TODO"
    "TODO " "" " " ":tag:" "TODO :tag:" "TODO [#A] :tag:\nSCHEDULED: <{0}>" "TODO odd @ 10:00\n<{0}>"
    "TODO 8:15-9:20 odd @\nSCHEDULED: <{0}>" "TODO odd @ 24:00\nSCHEDULED: <{0}>"
    "NEXT odd @\nDEADLINE: <{-2}>" "WAIT odd @\nDEADLINE: <{-2}>" "CANCELLED odd @\nDEADLINE: <{-2}>"
    "TODO odd @ [1/2] <{0}>" "TODO odd @ [0/0] <{0}>" "TODO odd @ [/] <{0}>" "TODO odd @ [%]\n<{0}>"
    "TODO odd @\n:PROPERTIES:\n:CATEGORY: cat\n:CATEGORY: dog\n:END:\n<{0}>"
    "TODO odd @\n:PROPERTIES:\n:CATEGORY+: cat\n:END:\n<{0}>"
    "TODO odd @\n:PROPERTIES:\n:category: low\n:END:\n<{0}>"
    "TODO odd @\n:PROPERTIES:\n:CATEGORY:\n:END:\n<{0}>"
    "TODO odd @\nDEADLINE: <{1}>\n:PROPERTIES:\n:Effort: 1:00\n:Effort: 2:00\n:END:"
    "TODO odd @\nDEADLINE: <{1}>\n:PROPERTIES:\n:EFFORT: 0:45\n:END:"
    "TODO odd @ \\alpha <{0}> *bold* [[a][b]]" "TODO odd @ ümlaut \u2028 <{0}>" "DONE odd @ <{-3} +1d>"
    "DONE odd @\nSCHEDULED: <{-3} +1d>\n:PROPERTIES:\n:STYLE: habit\n:END:"
    "TODO odd @\nSCHEDULED: <{-3} .+1d>\n:PROPERTIES:\n:STYLE: habit\n:END:"
    "TODO odd @\nSCHEDULED: <{9} .+1d>\n:PROPERTIES:\n:STYLE: habit\n:END:"
    "TODO odd @\n%%(org-date {0/}) sexp %%d" "TODO odd @\n&%%(diary-cyclic 2 1 1 2024) other"
    "TODO odd @\n %%(diary-cyclic 2 1 1 2024) indented" "odd @\nCLOSED: [{0} 10:00]\n"
    "DONE odd @\nCLOSED: [{-1!} 10:00] SCHEDULED: <{0}>" "odd @\nCLOCK: [{0} 10:00]--[{0} 11:00] =>  1:00"
    "odd @\n- State \"DONE\" from \"TODO\" [{0} 10:00]" "odd @\n  CLOCK: [{0} 10:00]"
    "TODO odd @\r\nDEADLINE: <{1}>" "TODO odd @ <{0}> :ARCHIVE:\r"
    "TODO odd @\n** below @ :x:\nDEADLINE: <{0}>\n**** deep @ <{0}> :y:"
    "odd @ :ARCHIVE:\n** TODO below @\nDEADLINE: <{0}>" "COMMENT odd @\n** TODO below @ <{0}>"
    "COMMENT\todd @\n** TODO below @ <{0}>" "[#12] COMMENT\todd @ <{0}>"
    "odd @\nclosed: [{0} 10:00]" "DONE odd @\nCLOSED: [{0} 10:00 foo]" "odd @\nClosed: not <{0}>"
    "TODO COMMENT odd @\n*** TODO below @ <{0}>")
  "Odd headings, behind a star.")

(defun org-views-agenda-odd-tests--make (sections first)
  "SECTIONS as a text; the at sign of the first one becomes the number FIRST."
  (let ((number (1- first)))
    (org-views-agenda-odd-tests--fill
     (mapconcat (lambda (section)
                  (setq number (1+ number))
                  (concat "* " (string-replace "@" (format "%d" number) section)
                          (if (string-suffix-p "\n" section) "" "\n")))
                sections ""))))

(defun org-views-agenda-odd-tests--cross (places stamps)
  "Each of PLACES with each of STAMPS for its number signs."
  (seq-mapcat (lambda (place)
                (mapcar (lambda (stamp)
                          ;; Blocks, settings and comments have signs of their own.
                          (replace-regexp-in-string
                           "#\\(?:\\(?:\\+\\| #\\)\\|\\[?\\)"
                           (lambda (it)
                             (cond ((equal it "#+") it)
                                   ((equal it "# #") (concat "# " stamp))
                                   (t (concat stamp (substring it 1)))))
                           place t t))
                      stamps))
              places))

(defconst org-views-agenda-odd-tests--files
  `(("stamps.org" "" ,(org-views-agenda-odd-tests--cross org-views-agenda-odd-tests--places
                                                         org-views-agenda-odd-tests--stamps))
    ("places.org" "#+TODO: TODO | DONE\n"
     ,(org-views-agenda-odd-tests--cross
       (mapcar (lambda (it) (concat "TODO " it)) org-views-agenda-odd-tests--other-places)
       org-views-agenda-odd-tests--main-stamps))
    ("headings.org" "#+TODO: TODO NEXT WAIT | DONE CANCELLED\n"
     ,(seq-remove (lambda (it) (string-match-p "\r\\|COMMENT\t" it))
                  org-views-agenda-odd-tests--headings))
    ("returns.org" "" ,(seq-remove (lambda (it) (string-match-p "COMMENT\t" it))
                                   org-views-agenda-odd-tests--headings))
    ("tabs.org" "" ,(seq-remove (lambda (it) (string-match-p "\r" it))
                                org-views-agenda-odd-tests--headings))
    ("settings.org" "#+SEQ_TODO: A(a) B | C\n#+TYP_TODO: Fred Sara | D E\n#+TODO: |\n#+todo: X Y\n\
#+FILETAGS: :f1:f2:\n#+FILETAGS: f3\n#+CATEGORY: one\n#+CATEGORY: two\n#+PRIORITIES: 1 9 5\n\
#+PROPERTY: CATEGORY three\n"
     ("A odd @ <{0}>" "B odd @ <{0}>" "C odd @\nDEADLINE: <{-2}>" "Fred odd @\nDEADLINE: <{-2}>"
      "D odd @\nDEADLINE: <{-2}>" "X odd @ <{0}>" "Y odd @\nDEADLINE: <{-2}>" "TODO odd @ <{0}>"
      "A odd @\n#+TODO: LATE | OVER" "LATE odd @ <{0}>" "OVER odd @\nDEADLINE: <{-2}>"))
    ("setup.org" "#+SETUPFILE: of-setup\n"
     ("SOON odd @ <{0}>" "OLD odd @\nDEADLINE: <{-2}>" "TODO odd @ <{0}> :s:"))
    ("drawer.org" ":PROPERTIES:\n:CATEGORY: front\n:END:\n<{0}> before the first heading\n"
     ("TODO odd @ <{0}>" "odd @\n** NEXT below\nSCHEDULED: <{0}>" "odd @ last")))
  "Files, each with its name, its first lines, and sections.")

(defun org-views-agenda-odd-tests-make (folder)
  "Write files of odd headings into FOLDER: their paths."
  (org-views-agenda-sets-write folder "of-setup"
                               "#+TODO: SOON | OLD\n#+FILETAGS: :setup:\n#+CATEGORY: setup\n")
  (let ((first 1))
    (mapcar (lambda (it)
              (pcase-let ((`(,name ,front ,sections) it))
                (prog1 (org-views-agenda-sets-write
                        folder name (org-views-agenda-odd-tests--fill front)
                        (org-views-agenda-odd-tests--make sections first))
                  (setq first (+ first (length sections))))))
            org-views-agenda-odd-tests--files)))

(defconst org-views-agenda-odd-tests--views
  `(("days" ,(lambda () (org-agenda-list nil (- (org-today) 3) 8)) "tabs.org\\|returns.org")
    ("today alone" ,(org-views-agenda-tests-list 'day) "tabs.org\\|returns.org")
    ("log" ,(org-views-agenda-tests-let ((org-agenda-show-log t)) (org-agenda-list nil nil 'day))
     "tabs.org\\|returns.org")
    ("inactive" ,(org-views-agenda-tests-let ((org-agenda-include-inactive-timestamps t))
                   (org-agenda-list nil nil 'day))
     "tabs.org\\|returns.org")
    ("habits all today" ,(org-views-agenda-tests-let ((org-habit-show-all-today t))
                           (org-agenda-list nil nil 'day))
     "tabs.org\\|returns.org")
    ("delays" ,(org-views-agenda-tests-let ((org-agenda-skip-scheduled-delay-if-deadline t)
                                            (org-scheduled-delay-days -1))
                 (org-agenda-list nil nil 'day))
     "tabs.org\\|returns.org")
    ("warning 40" ,(org-views-agenda-tests-let ((org-deadline-warning-days 40))
                     (org-agenda-list nil nil 'day))
     "tabs.org\\|returns.org")
    ("warning -7" ,(org-views-agenda-tests-let ((org-deadline-warning-days -7))
                     (org-agenda-list nil nil 'day))
     "tabs.org\\|returns.org")
    ("todo" ,(lambda () (org-todo-list nil)) "tabs.org\\|returns.org")
    ("todo *" ,(lambda () (org-todo-list "*")) "tabs.org\\|returns.org")
    ,@(mapcar (lambda (match)
                (list (concat "tags " match) (lambda () (org-tags-view nil match)) "setup"))
              '("f1" "tag" "TODO=\"TODO\"" "a|b" "PRIORITY=\"A\"" "CATEGORY=\"cat\"" "x" "{TAG}"
                "SCHEDULED=\"<today>\"" "DEADLINE<\"<today>\"" "-SCHEDULED<\"<+5d>\"+LEVEL=1"
                "CLOSED>=\"<today>\"")))
  "Views of odd headings.")

(ert-deftest org-views-agenda-odd-headings ()
  "No row of odd headings is lost, and none is one too many."
  (should (> (seq-reduce (lambda (sum it) (+ sum (length (nth 2 it))))
                         org-views-agenda-odd-tests--files 0)
             300))
  (org-views-agenda-tests-with #'org-views-agenda-odd-tests-make
    (should-not (org-views-agenda-tests-wrong org-views-agenda-odd-tests--views))))

(provide 'org-views-agenda-odd-tests)
;;; org-views-agenda-odd-tests.el ends here
