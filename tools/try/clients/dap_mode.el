;; A bug is found backwards in Emacs, by dap-mode, with `tbc dap` as its adapter; then a line is typed. TBC names the
;; program, and the sources are pages.bas and asks.bas. Each movement is made by its command, and what Emacs has of the
;; run is compared.
(require 'tinybasic-dap)
(setq tinybasic-program (getenv "TBC")
      dap-breakpoints-file (expand-file-name "breakpoints")
      dap-auto-configure-features nil
      dap-auto-show-output nil
      text-quoting-style 'straight)
(defvar stops 0 "How often the run came to rest.")
(add-hook 'dap-stack-frame-changed-hook (lambda (_) (setq stops (1+ stops))))

(defun need (what is wanted)
  "Fails unless WHAT IS as WANTED."
  (unless (equal is wanted) (error "Emacs has %s %S, not %S" what is wanted)))

(defun waits-for (what holds)
  "Waits until HOLDS gives something, for ten seconds at most."
  (let ((tries 0))
    (while (and (< tries 200) (not (funcall holds)))
      (setq tries (1+ tries))
      (accept-process-output nil 0.05))
    (unless (funcall holds) (error "Emacs waits for %s" what))))

(defun session () "The session that is debugged." (dap--cur-session))

(defun asks (command &rest arguments)
  "What is answered to a request."
  (apply #'dap-request (session) command arguments))

(defun reason () "Why the run stopped." (gethash 1 (dap--debug-session-thread-states (session))))

(defun variable (name)
  "The value of a variable, as its scope shows it."
  (gethash "value" (seq-find (lambda (it) (equal (gethash "name" it) name))
                             (gethash "variables" (asks "variables" :variablesReference 1)))))

(defun comes-to-rest (does)
  "After DOES is called the run comes to rest."
  (let ((before stops))
    (funcall does)
    (waits-for "a stop" (lambda () (and (< before stops) (not (member (reason) '(nil "running"))))))))

(defun starts ()
  "The buffer's program is launched, and comes to rest."
  (comes-to-rest (lambda () (dap-debug (copy-tree (cdr (assoc "Tiny BASIC" dap-debug-template-configurations)))))))

(defun ends ()
  "The adapter is disconnected, and ends well."
  (dap-disconnect (session))
  (waits-for "the end" (lambda () (not (process-live-p (dap--debug-session-proc (session))))))
  (need "the status" (process-exit-status (dap--debug-session-proc (session))) 0))

(defun moves (command lines line &rest variables)
  "A COMMAND leads to a stack of these LINES; LINE is shown, and VARIABLES have values."
  (comes-to-rest (lambda () (call-interactively command)))
  (let* ((thread (dap--debug-session-thread-id (session)))
         (frames (gethash thread (dap--debug-session-thread-stack-frames (session)))))
    (need "frames" (mapcar (lambda (it) (gethash "line" it)) frames) lines))
  (need "the line" (buffer-substring (line-beginning-position) (line-end-position)) line)
  (while variables
    (need (car variables) (variable (car variables)) (cadr variables))
    (setq variables (cddr variables))))

(defun told () "What was told of output." (with-current-buffer (dap--debug-session-output-buffer (session)) (buffer-string)))

(with-current-buffer (find-file-noselect "pages.bas")
  (switch-to-buffer (current-buffer))
  (need "the mode" major-mode 'tinybasic-mode)
  (goto-char (point-min))
  (search-forward "GOSUB")
  (dap-breakpoint-toggle)
  (starts)
  (need "the reason" (reason) "breakpoint")
  (need "the breakpoint"
        (mapcar (lambda (it) (list (gethash "line" it) (gethash "verified" it)))
                (gethash buffer-file-name (dap--debug-session-breakpoints (session))))
        '((4 t)))
  (moves 'dap-step-in '(7 4) "100 REM TAKE WEEKENDS OUT" "D" "12")
  (moves 'dap-step-out '(5) "50 PRINT \"PAGES A DAY\",P/D" "D" "0" "W" "6")
  (moves 'dap-continue '(5) "50 PRINT \"PAGES A DAY\",P/D")
  (need "the reason" (reason) "end")
  (need "the output" (and (string-match-p "!2 AT 50" (told)) t) t)
  (moves 'tinybasic-dap-step-back '(5) "50 PRINT \"PAGES A DAY\",P/D" "D" "0")
  (tinybasic-dap-watch "d" (session))
  (moves 'tinybasic-dap-reverse-continue '(9 4) "120 D=D-W*2" "D" "12" "W" "6")
  (need "the reason" (reason) "data breakpoint")
  (moves 'tinybasic-dap-step-back '(8 4) "110 W=D/2" "D" "12" "W" "0")
  (moves 'dap-next '(9 4) "120 D=D-W*2" "W" "6")
  (need "a value" (gethash "result" (asks "evaluate" :expression "D-W*2" :context "hover")) "0")
  (need "a refusal" (condition-case it (asks "setVariable" :variablesReference 1 :name "D" :value "1") (error (cadr it)))
        "a run can't be changed: type other keys, or launch with another seed")
  (dap-breakpoint-delete-all)
  (tinybasic-dap-watch "" (session))
  (moves 'tinybasic-dap-reverse-continue '(1) "10 REM PAGES, WEEKENDS FREE")
  (need "the reason" (reason) "entry")
  (ends))

(with-current-buffer (find-file-noselect "asks.bas")
  (switch-to-buffer (current-buffer))
  (starts)
  (need "the reason" (reason) "input")
  (comes-to-rest (lambda () (tinybasic-dap-type "41" (session))))
  (need "the reason" (reason) "end")
  (need "the output" (and (string-match-p "^42$" (told)) t) t)
  (ends))
