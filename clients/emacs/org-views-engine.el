;;; org-views-engine.el --- The process behind org-views  -*- lexical-binding: t; -*-

;; SPDX-License-Identifier: Apache-2.0 OR MIT

;;; Commentary:

;; Starts the program `orgviews', sends it commands, and hands on each reply
;; to the function that waits for it.  Replies come in the order of the
;; commands; a wait that was quit loses none, since its function stays in
;; the queue.

;;; Code:

(require 'cl-lib)
(require 'subr-x)

(defgroup org-views nil
  "Agendas of Org files by the orgviews engine."
  :group 'org
  :prefix "org-views-")

(defcustom org-views-program '("orgviews")
  "The program and its arguments; its protocol and the moment are added.
A new value counts once the engine is started again, by `org-views-stop'
and a question."
  :type '(repeat string)
  :group 'org-views)

(defconst org-views--most-view 268435456
  "How many bytes a reply may have; the engine is ended where it has more.")

(defvar org-views--patience 20
  "Seconds that an engine has for its first answer.
As long it has for each next part of a reply that it has begun.")

(defvar org-views--process nil
  "The engine's process, or nil.")

(defvar org-views--stderr nil
  "The process that takes what the engine writes to standard error.")

(defvar org-views--queue nil
  "Functions to be called with the replies that are to come, in order.")

(defvar org-views--answered nil
  "Whether the engine has answered a command.")

(defvar org-views--version nil
  "The engine's name and version, as it told them.")

(defvar org-views--heard 0
  "When the engine wrote last, or a wait for it began, in seconds.")

(defvar org-views--end-functions nil
  "Functions that are called where the engine ends, with one line on why.
That line is nil where it is started anew.")

(defun org-views--now ()
  "The moment as `--at' takes it."
  (format-time-string "%F %R"))

(defun org-views--live-p ()
  "Whether there is an engine."
  (process-live-p org-views--process))

;;;; Its end

(defun org-views--error-line ()
  "The first line that the engine wrote to standard error, or nil."
  (when (process-live-p org-views--stderr)
    (cl-loop repeat 10
             while (accept-process-output org-views--stderr 0.1 nil 1)))
  (let ((buffer (and org-views--stderr (process-buffer org-views--stderr))))
    (when (buffer-live-p buffer)
      (with-current-buffer buffer
        (goto-char (point-min))
        (skip-chars-forward " \t\n")
        (and (not (eobp))
             (buffer-substring (point) (line-end-position)))))))

(defun org-views--how-ended (process)
  "One line on how PROCESS has ended, and what to do."
  (let* ((said (org-views--error-line))
         (status (process-exit-status process))
         (how (concat (cond ((eq (process-status process) 'signal)
                             (format "signal %d" status))
                            ;; As Emacs has it where a pipe is closed.
                            ((= status 256) "it reads no more")
                            (t (format "status %d" status)))
                      (and said (concat ", " said)))))
    (cond
     (org-views--answered
      (format "The engine has ended (%s); ask again to start another" how))
     ((and said (string-search "--protocol" said))
      (format "`%s' doesn't know `--protocol 2': a later orgviews is needed"
              (car org-views-program)))
     (t
      (format "`%s' doesn't answer, it has ended (%s): %s"
              (car org-views-program) how
              "set `org-views-program' to an orgviews")))))

(defun org-views--end (why)
  "End the engine, and tell all that wait for it WHY."
  (let ((queue org-views--queue)
        (processes (list org-views--process org-views--stderr)))
    (setq org-views--queue nil
          org-views--process nil
          org-views--stderr nil
          org-views--answered nil)
    (dolist (process processes)
      (when process
        (let ((buffer (process-buffer process)))
          (delete-process process)
          (when (buffer-live-p buffer) (kill-buffer buffer)))))
    (run-hook-with-args 'org-views--end-functions why)
    (dolist (then queue) (funcall then (list 'gone why)))))

;;;###autoload
(defun org-views-stop ()
  "End the engine; another one is started by the next question."
  (interactive)
  (org-views--end "The engine was ended by `org-views-stop'"))

(defun org-views--sentinel (process _event)
  "Note that PROCESS has ended by itself."
  (when (and (eq process org-views--process)
             (not (process-live-p process)))
    (let ((why (org-views--how-ended process)))
      (org-views--end why)
      (message "%s" why))))

;;;; Replies

(defun org-views--take-view (digits)
  "Take a view of so many bytes as DIGITS say; nil if it isn't whole.
Point stands after the reply's first line."
  (let* ((size (string-to-number digits))
         (end (+ (point) size)))
    (cond
     ((or (> (length digits) 18) (> size org-views--most-view))
      (list 'large digits))
     ((<= end (point-max))
      (prog1 (list 'view (buffer-substring (point) end))
        (delete-region (point-min) end))))))

(defun org-views--take-reply ()
  "Take a reply off the front of the current buffer; nil if none is whole.
It is (ok SERIAL), (view BYTES), (err NUMBER NAME WORD..), (large DIGITS)
where a view is too large, or (odd LINE)."
  (goto-char (point-min))
  (if (not (search-forward "\n" (min (point-max) 4096) t))
      (and (> (buffer-size) 4096) (list 'odd (buffer-substring 1 40)))
    (let ((line (buffer-substring (point-min) (1- (point)))))
      (cond
       ((string-match "\\`view \\([0-9]+\\)\\'" line)
        (org-views--take-view (match-string 1 line)))
       ((string-match "\\`ok \\([0-9]+\\)\\'" line)
        (delete-region (point-min) (point))
        (list 'ok (string-to-number (match-string 1 line))))
       ((string-match "\\`err \\([0-9]+\\) [a-z0-9]+\\(?: [a-z0-9]+\\)*\\'" line)
        (delete-region (point-min) (point))
        (let ((words (split-string line " ")))
          (cons 'err (cons (string-to-number (nth 1 words)) (nthcdr 2 words)))))
       (t (list 'odd line))))))

(defun org-views--hand-on (reply)
  "Give REPLY to the function that waits for it, or end the engine."
  (pcase reply
    (`(large ,digits)
     (org-views--end
      (format "A view of %s bytes is more than Emacs takes: %s"
              (truncate-string-to-width digits 20 nil nil t)
              "ask for fewer days or headings")))
    ((or `(odd . ,_) (guard (null org-views--queue)))
     (org-views--end
      (format "`%s' doesn't answer as orgviews does (%s): %s"
              (car org-views-program)
              (truncate-string-to-width (format "%s" (cadr reply)) 40)
              "set `org-views-program' to an orgviews")))
    (_
     (setq org-views--answered t)
     (funcall (pop org-views--queue) reply))))

(defun org-views--receive (process bytes)
  "Take BYTES of PROCESS, and hand on each reply that is whole."
  (let ((buffer (process-buffer process)) reply)
    (setq org-views--heard (float-time))
    (when (buffer-live-p buffer)
      (with-current-buffer buffer
        (goto-char (point-max))
        (insert bytes))
      (while (and (eq process org-views--process)
                  (setq reply (with-current-buffer buffer
                                (and (> (buffer-size) 0)
                                     (org-views--take-reply)))))
        (org-views--hand-on reply)))))

;;;; Commands

(defun org-views--send (line payload then)
  "Send the command LINE with PAYLOAD; its reply will be given to THEN.
PAYLOAD is a unibyte string or nil."
  (when (string-search "\n" line)
    (user-error "A question to the engine is one line"))
  ;; A command that was sent in part would be sent on after the next one.
  (let ((inhibit-quit t))
    (setq org-views--queue (nconc org-views--queue (list then)))
    (condition-case nil
        (process-send-string
         org-views--process
         (concat (encode-coding-string line 'utf-8-unix) "\n" payload))
      ;; That it has ended is told to all that wait.
      (error nil))))

(defun org-views--send-all (lines then)
  "Send the commands LINES; call THEN with all their replies once they are here."
  (let ((left (length lines)) replies)
    (dolist (line lines)
      (org-views--send line nil
                       (lambda (reply)
                         (push reply replies)
                         (when (zerop (cl-decf left))
                           (funcall then (nreverse replies))))))))

(defun org-views--stalled-p (process)
  "Whether PROCESS has been silent too long in the midst of a reply.
Before its first answer it is so as well."
  (and (> (- (float-time) org-views--heard) org-views--patience)
       (or (not org-views--answered)
           (> (buffer-size (process-buffer process)) 0))))

(defun org-views--listen ()
  "Take what the engine writes within a second; end an engine that stalls."
  (let ((process org-views--process))
    (unless (accept-process-output process 1 nil 1)
      (cond
       ((not (eq process org-views--process)))
       ((org-views--stalled-p process)
        (org-views--end (format "`%s' doesn't answer: %s"
                                (car org-views-program)
                                "set `org-views-program' to an orgviews")))
       ((not noninteractive)
        (message "Waiting for the engine (%s stops waiting)"
                 (substitute-command-keys "\\[keyboard-quit]")))))))

(defun org-views--last-words (done)
  "Take what the engine wrote before its end, until DONE gives non-nil."
  (let ((process org-views--process))
    (while (and process (accept-process-output process 0.05 nil 1)))
    (unless (funcall done)
      (org-views--end (if (and process (eq process org-views--process))
                          (org-views--how-ended process)
                        "The engine has ended; ask again to start another")))
    ;; Nothing can come any more.
    (unless (funcall done)
      (user-error "The engine has ended; ask again to start another"))))

(defun org-views--wait (done)
  "Take replies until the function DONE gives non-nil."
  (let ((read-process-output-max (max read-process-output-max 1048576)))
    (setq org-views--heard (float-time))
    (while (not (funcall done))
      (if (org-views--live-p)
          (org-views--listen)
        (org-views--last-words done)))))

(defun org-views--ask (line &optional payload then)
  "Send the command LINE with PAYLOAD, and wait for the reply.
THEN is called with the reply, also where the wait was quit."
  (let (reply)
    (org-views--send line payload
                     (lambda (it)
                       (setq reply it)
                       (when then (funcall then it))))
    (org-views--wait (lambda () reply))
    (when (eq (car reply) 'gone) (user-error "%s" (cadr reply)))
    reply))

(defun org-views--ask-all (lines)
  "Send the commands LINES, and wait for their replies."
  (let (replies)
    (org-views--send-all lines (lambda (them) (setq replies them)))
    (org-views--wait (lambda () replies))
    replies))

(defun org-views--too-old (line reply)
  "End the engine, which answered the command LINE by REPLY, and say so."
  (let ((why (format "`%s' refuses `%s' (%s): a later orgviews is needed"
                     (car org-views-program) line
                     (string-trim
                      (mapconcat (lambda (it) (format "%s" it)) reply " ")))))
    (org-views--end why)
    (user-error "%s" why)))

(defun org-views--ask-serial (line)
  "Send the command LINE, which is always answered by a serial: that serial."
  (pcase (org-views--ask line)
    (`(ok ,serial) serial)
    (reply (org-views--too-old line reply))))

(defun org-views--ask-version ()
  "Ask the engine who it is, and keep that; an error where it is too old."
  (pcase (org-views--ask "version")
    ((and `(view ,line)
          (guard (string-match "\\`\\([^ \n]+ [^ \n]+\\) \\([0-9]+\\)\n\\'" line))
          (guard (>= (string-to-number (match-string 2 line)) 2)))
     (setq org-views--version (match-string 1 line)))
    (reply (org-views--too-old "version" reply))))

(defun org-views--lines (bytes)
  "The lines of the unibyte string BYTES, each of which ends in a line feed."
  (butlast (split-string (decode-coding-string bytes 'utf-8-unix) "\n")))

(defun org-views--start ()
  "Start the engine, without files."
  (org-views--end nil)
  (let ((program (car org-views-program)))
    (unless (and program (executable-find program))
      (user-error "No program `%s': install orgviews, or set `org-views-program'"
                  program)))
  (let ((default-directory (expand-file-name "~/"))
        (process-adaptive-read-buffering nil))
    (setq org-views--stderr
          (make-pipe-process :name "org-views-stderr"
                             :buffer (generate-new-buffer " *org-views-stderr*" t)
                             :noquery t :sentinel #'ignore)
          org-views--process
          (make-process :name "org-views"
                        :buffer (generate-new-buffer " *org-views*" t)
                        :command (append org-views-program
                                         (list "--protocol" "2"
                                               "--at" (org-views--now)))
                        :connection-type 'pipe :coding 'binary :noquery t
                        :stderr org-views--stderr
                        :filter #'org-views--receive
                        :sentinel #'org-views--sentinel)))
  (with-current-buffer (process-buffer org-views--process)
    (set-buffer-multibyte nil)
    (buffer-disable-undo)))

(provide 'org-views-engine)
;;; org-views-engine.el ends here
