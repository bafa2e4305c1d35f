;;; tinybasic-dap.el --- Debugging Tiny BASIC forth and back, by dap-mode  -*- lexical-binding: t -*-

;;; Commentary:

;; `tbc dap' as a debug adapter for dap-mode.  Put this file on the load path:
;;
;;   (require 'tinybasic-dap)
;;
;; In a buffer of Tiny BASIC, `M-x dap-debug' offers "Tiny BASIC".  dap-mode has
;; no commands for going back, for watches and for a program's input: they are
;; here.

;;; Code:

(require 'dap-mode)
(require 'tinybasic-mode)

(defun tinybasic-dap--arguments (settings)
  "SETTINGS with the adapter, and the buffer's file as the program."
  (plist-put settings :dap-server-path (list tinybasic-program "dap"))
  (unless (plist-get settings :program)
    (setq settings (plist-put settings :program buffer-file-name)))
  settings)

(dap-register-debug-provider "tbc" #'tinybasic-dap--arguments)
(dap-register-debug-template "Tiny BASIC" '(:type "tbc" :request "launch" :name "Tiny BASIC"))

(defun tinybasic-dap--tell (session command &rest arguments)
  "Ask SESSION for COMMAND with ARGUMENTS.  A refusal is an error."
  (dap--send-message (dap--make-request command arguments) (dap--resp-handler) session))

(defun tinybasic-dap-step-back (session)
  "Take SESSION back to the beginning of the line, or of the line before."
  (interactive (list (dap--cur-active-session-or-die)))
  (dap--step "stepBack" session))

(defun tinybasic-dap-reverse-continue (session)
  "Take SESSION back to a breakpoint, a change of a watched variable, or the start."
  (interactive (list (dap--cur-active-session-or-die)))
  (dap--step "reverseContinue" session))

(defun tinybasic-dap-watch (letters session)
  "Have SESSION stop where a variable of LETTERS changes, and at no others."
  (interactive (list (read-string "Watch (as AB, or nothing): ") (dap--cur-active-session-or-die)))
  (tinybasic-dap--tell
   session "setDataBreakpoints" :breakpoints
   (vconcat (mapcar (lambda (letter) (list :dataId (string letter) :accessType "write")) (upcase letters)))))

(defun tinybasic-dap-type (line session)
  "Type LINE for the program of SESSION, which goes on if it waits for a line."
  (interactive (list (read-string "Type: ") (dap--cur-active-session-or-die)))
  (tinybasic-dap--tell session "evaluate" :expression (concat "> " line) :context "repl"))

(provide 'tinybasic-dap)
;;; tinybasic-dap.el ends here
