;;; org-views-agenda-sets.el --- Sets of Org files for tests  -*- lexical-binding: t; -*-

;; SPDX-License-Identifier: Apache-2.0 OR MIT

;;; Commentary:

;; Makes sets of Org files around today: a realistic one of some 250
;; headings in six files, one of odd headings, and large ones for
;; measurements.  The same day gives the same files.

;;; Code:

(require 'cl-lib)

(defvar org-views-agenda-sets--state 1 "The state of the numbers drawn.")

(defun org-views-agenda-sets--draw (below)
  "A number from 0 on below BELOW, the next of a fixed row."
  (setq org-views-agenda-sets--state
        (% (+ (* org-views-agenda-sets--state 48271) 11) 2147483647))
  (% (/ org-views-agenda-sets--state 7) below))

(defun org-views-agenda-sets--pick (&rest things)
  "One of THINGS."
  (nth (org-views-agenda-sets--draw (length things)) things))

(defun org-views-agenda-sets-day (days &optional rest)
  "The date DAYS from today with its day's name, and REST behind a space."
  (concat (format-time-string "%F %a" (time-add nil (* 86400 days)))
          (and rest (concat " " rest))))

(defun org-views-agenda-sets--stamp (days &optional rest)
  "An active stamp of the day DAYS from today, with REST."
  (format "<%s>" (org-views-agenda-sets-day days rest)))

(defun org-views-agenda-sets--inactive (days &optional rest)
  "An inactive stamp of the day DAYS from today, with REST."
  (format "[%s]" (org-views-agenda-sets-day days rest)))

(defun org-views-agenda-sets--near ()
  "A number of days, mostly a small one."
  (- (org-views-agenda-sets--draw 60) (org-views-agenda-sets--pick 10 30 50)))

(defun org-views-agenda-sets--time ()
  "A time, a range of times, or nothing, for behind a date."
  (let ((hour (+ 7 (org-views-agenda-sets--draw 12))))
    (org-views-agenda-sets--pick
     nil nil nil (format "%02d:30" hour) (format "%02d:00-%02d:45" hour (1+ hour)))))

(defun org-views-agenda-sets--planning ()
  "A planning line, or nothing."
  (let ((day (org-views-agenda-sets--near)) (time (org-views-agenda-sets--time)))
    (org-views-agenda-sets--pick
     "" "" "" ""
     (format "SCHEDULED: %s\n" (org-views-agenda-sets--stamp day time))
     (format "SCHEDULED: %s\n" (org-views-agenda-sets--stamp day "+1w"))
     (format "SCHEDULED: %s\n" (org-views-agenda-sets--stamp day ".+3d"))
     (format "DEADLINE: %s\n" (org-views-agenda-sets--stamp day time))
     (format "DEADLINE: %s\n" (org-views-agenda-sets--stamp day "-3d"))
     (format "DEADLINE: %s\n" (org-views-agenda-sets--stamp day "+1m -5d"))
     (format "DEADLINE: %s SCHEDULED: %s\n"
             (org-views-agenda-sets--stamp (+ day 4)) (org-views-agenda-sets--stamp day))
     (format "CLOSED: %s SCHEDULED: %s\n"
             (org-views-agenda-sets--inactive day "10:12")
             (org-views-agenda-sets--stamp (- day 1))))))

(defun org-views-agenda-sets--body ()
  "The text below a heading and its planning line."
  (let ((day (org-views-agenda-sets--near)))
    (org-views-agenda-sets--pick
     "" "" "" "Some words, and a [[https://example.org][link]].\n"
     (format "Seen %s, no date.\n" (org-views-agenda-sets--inactive day))
     (format "Meet %s there.\n" (org-views-agenda-sets--stamp day (org-views-agenda-sets--time)))
     (format "%s--%s\n" (org-views-agenda-sets--stamp day)
             (org-views-agenda-sets--stamp (+ day 3)))
     (format "- [ ] first %s\n- [X] second\n" (org-views-agenda-sets--stamp day))
     (format ":LOGBOOK:\nCLOCK: %s--%s =>  1:15\n- State \"DONE\" from \"TODO\" %s\n:END:\n"
             (org-views-agenda-sets--inactive (- (mod day 9)) "09:00")
             (org-views-agenda-sets--inactive (- (mod day 9)) "10:15")
             (org-views-agenda-sets--inactive (- (mod day 9)) "10:15"))
     (format "Each week: %s\n" (org-views-agenda-sets--stamp day "17:00 +1w")))))

(defun org-views-agenda-sets--drawer ()
  "A property drawer, or nothing."
  (org-views-agenda-sets--pick
   "" "" "" ""
   (format ":PROPERTIES:\n:Effort:   %s\n:END:\n"
           (org-views-agenda-sets--pick "0:30" "1:15" "2:00"))
   ":PROPERTIES:\n:CATEGORY: billing\n:END:\n"
   ":PROPERTIES:\n:APPT_WARNTIME: 15\n:Effort: 0:10\n:ORDERED: t\n:END:\n"))

(defun org-views-agenda-sets--heading (number level words tags)
  "The heading NUMBER at LEVEL with one of the keywords WORDS and of TAGS."
  (concat (make-string level ?*) " "
          (let ((word (apply #'org-views-agenda-sets--pick words)))
            (if (equal word "") "" (concat word " ")))
          (org-views-agenda-sets--pick "" "" "" "[#A] " "[#C] ")
          (org-views-agenda-sets--pick "" "" "" "" "" "" "" "" "" "COMMENT ")
          (format "%s %d" (org-views-agenda-sets--pick
                           "Write the report" "Buy" "Call =them=" "Answer" "Plan *it*" "h: read")
                  number)
          (org-views-agenda-sets--pick "" "" "" "" " [1/2]" " [50%]" " at 9:40")
          (let ((tag (apply #'org-views-agenda-sets--pick tags)))
            (if (equal tag "") "" (concat " :" tag ":")))
          "\n"))

(defun org-views-agenda-sets--entries (count words tags)
  "COUNT headings with keywords of WORDS and tags of TAGS, in trees."
  (let ((level 1))
    (mapconcat
     (lambda (number)
       (setq level (max 1 (min 4 (+ level (org-views-agenda-sets--pick -1 -1 0 0 1)))))
       (concat (org-views-agenda-sets--heading number level words tags)
               (org-views-agenda-sets--planning)
               (org-views-agenda-sets--drawer)
               (org-views-agenda-sets--body)))
     (number-sequence 1 count) "")))

(defun org-views-agenda-sets-write (folder name &rest text)
  "Write the pieces of TEXT into the file NAME of FOLDER: its path."
  (let ((coding-system-for-write 'utf-8-unix) (path (expand-file-name name folder)))
    (make-directory (file-name-directory path) t)
    (write-region (apply #'concat text) nil path nil 0)
    path))

(defun org-views-agenda-sets--habit (title day every &rest done)
  "A habit TITLE of DAY with the repeater EVERY, DONE some days ago."
  (concat "* TODO " title "\nSCHEDULED: " (org-views-agenda-sets--stamp day every)
          "\n:PROPERTIES:\n:STYLE: habit\n:LAST_REPEAT: "
          (org-views-agenda-sets--inactive (- (car done)) "08:00") "\n:END:\n:LOGBOOK:\n"
          (mapconcat (lambda (it)
                       (format "- State \"DONE\"       from \"TODO\"       %s\n"
                               (org-views-agenda-sets--inactive (- it) "08:00")))
                     done "")
          ":END:\n"))

(defun org-views-agenda-sets--work ()
  "The text of a file of work: keywords, projects, tags of the file."
  (concat
   "#+TITLE: Work\n#+TODO: TODO(t) NEXT(n) WAIT(w@/!) PROJ | DONE(d!) CANCELLED(c@)\n"
   "#+FILETAGS: :work:\n#+CATEGORY: work\n\n"
   "* PROJ The importer [0/3] :deep:\n** NEXT [#A] Write the importer\nDEADLINE: "
   (org-views-agenda-sets--stamp 2) "\n:PROPERTIES:\n:Effort: 3:00\n:END:\n"
   "** TODO Read the 14 pages\nSCHEDULED: " (org-views-agenda-sets--stamp -4) "\nDEADLINE: "
   (org-views-agenda-sets--stamp 9 "-2w") "\n** WAIT Answers from the agency :phone:\nSCHEDULED: "
   (org-views-agenda-sets--stamp 0 "09:30") "\n"
   "* TODO Water the office plants\nSCHEDULED: " (org-views-agenda-sets--stamp -1 ".+2d") "\n"
   "* Standup " (org-views-agenda-sets--stamp -100 "09:15-09:30 +1d") "\n"
   "* Old things :ARCHIVE:\n** TODO Hidden there\nSCHEDULED: " (org-views-agenda-sets--stamp 0)
   "\n* COMMENT Drafts\n** TODO Hidden as well\nDEADLINE: " (org-views-agenda-sets--stamp 1) "\n"
   (org-views-agenda-sets--entries
    80 '("" "TODO" "TODO" "NEXT" "WAIT" "DONE" "CANCELLED") '("" "" "" "deep" "phone" "money"))))

(defun org-views-agenda-sets--home ()
  "The text of a file of home: two rows of keywords, a tree with a category."
  (concat
   "#+TODO: TODO(t) NEXT(n) | DONE(d)\n#+TODO: BUY(b) | BOUGHT(B)\n#+STARTUP: overview\n\n"
   "* Money :money:\n:PROPERTIES:\n:CATEGORY: billing\n:END:\n"
   "** TODO Tax letter\nSCHEDULED: " (org-views-agenda-sets--stamp -2) "\n** TODO Compare totals\n"
   "DEADLINE: " (org-views-agenda-sets--stamp 0 "18:00 +1m") "\n** DONE Rent\nCLOSED: "
   (org-views-agenda-sets--inactive -1 "11:00") " DEADLINE: " (org-views-agenda-sets--stamp -1)
   "\n* BUY Bread :errand:\n* Garden\n** TODO Back up the laptop\nSCHEDULED: "
   (org-views-agenda-sets--stamp -3 "++1w")
   "\n:PROPERTIES:\n:Effort: 0:20\n:END:\n** Guests\n"
   (org-views-agenda-sets--stamp -1) "--" (org-views-agenda-sets--stamp 2) "\n"
   (org-views-agenda-sets--entries
    70 '("" "" "TODO" "NEXT" "DONE" "BUY" "BOUGHT") '("" "" "home" "errand" "garden:money"))))

(defun org-views-agenda-sets--journal ()
  "The text of a journal: a tree of dates, with stamps of any kind."
  (concat
   "* Log\n"
   (mapconcat
    (lambda (ago)
      (format "** %s\n*** Walked %s\n%s*** DONE Letter\nCLOSED: %s\n"
              (format-time-string "%F %A" (time-add nil (* -86400 ago)))
              (org-views-agenda-sets--stamp (- ago) "18:10")
              (org-views-agenda-sets--body)
              (org-views-agenda-sets--inactive (- ago) "12:00")))
    (number-sequence 0 14) "")))

(defun org-views-agenda-sets--holidays ()
  "The text of a file with diary expressions."
  (let ((today (decode-time)))
    (concat
     "#+CATEGORY: Holiday\n* Birthdays\n"
     (format "%%%%(org-anniversary 1970 %d %d) Ada is %%d\n" (nth 4 today) (nth 3 today))
     (format "%%%%(diary-anniversary %d %d 1980) Bob is %%d years old\n"
             (nth 4 today) (max 1 (1- (nth 3 today))))
     "* TODO Bins <%%(diary-float t 4 2)>\n* Lesson\n<%%(memq (calendar-day-of-week date) '(1 3 5))>"
     "\n* TODO Every third day\nSCHEDULED: <%%(diary-cyclic 3 1 1 2024)>\n"
     "* Moon\n%%(diary-block 1 1 2020 1 1 2040) always so\n")))

(defun org-views-agenda-sets-real (folder)
  "Write the realistic set into FOLDER: the paths of its files."
  (setq org-views-agenda-sets--state 20240228)
  (list
   (org-views-agenda-sets-write folder "work.org" (org-views-agenda-sets--work))
   (org-views-agenda-sets-write folder "home.org" (org-views-agenda-sets--home))
   (org-views-agenda-sets-write folder "journal.org" (org-views-agenda-sets--journal))
   (org-views-agenda-sets-write
    folder "habits.org" "#+CATEGORY: habits\n"
    (org-views-agenda-sets--habit "Run" 0 ".+2d/4d" 2 4 7 9)
    (org-views-agenda-sets--habit "Stretch" -1 "+1d" 1 2 3 5)
    (org-views-agenda-sets--habit "Inbox zero" 1 "++1w" 6 13)
    (org-views-agenda-sets--habit "Review" 12 ".+2w" 2 16))
   (org-views-agenda-sets-write folder "holidays.org" (org-views-agenda-sets--holidays))
   (org-views-agenda-sets-write
    folder "inbox.org" "Words before the first heading <1999-01-01 Fri>.\n"
    (org-views-agenda-sets--entries 12 '("" "TODO") '("" "inbox")))))

;;;; Large ones

(defun org-views-agenda-sets--bulk (number)
  "The text of the plain heading NUMBER of a large file, with a small tree's level."
  (let* ((draw (org-views-agenda-sets--draw 100))
         (day (- (org-views-agenda-sets--draw 1100) 750))
         (open (or (> day 1) (zerop (% number 150)))))
    (concat
     (make-string (1+ (% number 3)) ?*)
     (cond ((< draw 4) " NEXT ") ((< draw 45) " TODO ") ((< draw 75) " DONE ") (t " "))
     (format "Entry number %d of the file" number)
     (cond ((< draw 1) " :travel:phone:") ((< draw 20) " :work:") ((= draw 50) " :home:") (t ""))
     "\n"
     (cond ((and open (< draw 12)) (format "SCHEDULED: %s\n" (org-views-agenda-sets--stamp day)))
           ((and open (< draw 20)) (format "DEADLINE: %s\n" (org-views-agenda-sets--stamp day)))
           ((< 45 draw 75)
            (format "CLOSED: %s SCHEDULED: %s\n"
                    (org-views-agenda-sets--inactive (- (abs day)) "10:00")
                    (org-views-agenda-sets--stamp (- (abs day)))))
           (t ""))
     (if (< draw 30) ":PROPERTIES:\n:ID: 5d1c\n:Effort: 0:30\n:END:\n" "")
     (cond ((= draw 80) (format "At %s.\n" (org-views-agenda-sets--stamp day "10:00")))
           ((= draw 81) (format "Of %s.\n" (org-views-agenda-sets--inactive day)))
           (t "Some lines of text follow the heading, as they do.\nA second line.\n")))))

(defun org-views-agenda-sets-large (folder count)
  "Write a set of COUNT headings in three files into FOLDER: their paths."
  (setq org-views-agenda-sets--state 7)
  (mapcar (lambda (name)
            (org-views-agenda-sets-write
             folder name "#+TODO: TODO NEXT | DONE\n"
             (mapconcat #'org-views-agenda-sets--bulk (number-sequence 1 (/ count 3)) "")))
          '("one.org" "two.org" "three.org")))

(provide 'org-views-agenda-sets)
;;; org-views-agenda-sets.el ends here
