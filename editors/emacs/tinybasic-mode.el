;;; tinybasic-mode.el --- Tiny BASIC, as tbc reads it  -*- lexical-binding: t -*-

;;; Commentary:

;; Colours for Tiny BASIC, what `tbc check' says while one types (flymake), and
;; `tbc lsp' as eglot's server.  Put this file on the load path:
;;
;;   (require 'tinybasic-mode)
;;
;; A file *.tbas is Tiny BASIC, and so is a *.bas whose first line that isn't
;; empty begins with a number.

;;; Code:

(require 'flymake)

(defgroup tinybasic nil "Tiny BASIC." :group 'languages)

(defcustom tinybasic-program "tbc"
  "The compiler."
  :type 'string)

;; Words may be written together, so one expression reads a line from the left.
(defconst tinybasic-font-lock
  `((,(concat "\\(^[ \t]*[0-9]+\\)"
              "\\|\\(REM.*\\)"
              "\\|\\(\"[^\"\n]*\"?\\)"
              "\\|\\(LET\\|PRINT\\|PR\\|INPUT\\|IF\\|THEN\\|GO *TO\\|GO *SUB\\|RETURN\\|END\\)"
              "\\|\\(RND\\)"
              "\\|\\([0-9]+\\)"
              "\\|\\([A-Z]\\)")
     (1 font-lock-function-name-face nil t)
     (2 font-lock-comment-face nil t)
     (3 font-lock-string-face nil t)
     (4 font-lock-keyword-face nil t)
     (5 font-lock-builtin-face nil t)
     (6 font-lock-constant-face nil t)
     (7 font-lock-variable-name-face nil t)))
  "What gets which face.")

(defvar-local tinybasic--process nil "The check that runs.")

(defun tinybasic--findings (source output)
  "What the buffer OUTPUT of a check says of the lines of the buffer SOURCE."
  (with-current-buffer output
    (goto-char (point-min))
    (let (found)
      (while (re-search-forward "^-:\\([0-9]+\\):\\(?:\\([0-9]+\\):\\)? \\(error\\|warning\\): \\(.*\\)$" nil t)
        (let* ((line (string-to-number (match-string 1)))
               (column (and (match-string 2) (string-to-number (match-string 2))))
               (type (if (equal (match-string 3) "error") :error :warning))
               (text (match-string 4))
               (region (flymake-diag-region source line column)))
          (push (flymake-make-diagnostic source (car region) (cdr region) type text) found)))
      (nreverse found))))

(defun tinybasic-flymake (report &rest _)
  "Tells REPORT what `tbc check' says of the buffer."
  (when (process-live-p tinybasic--process)
    (kill-process tinybasic--process))
  (let ((source (current-buffer)))
    (setq tinybasic--process
          (make-process
           :name "tbc check" :noquery t :connection-type 'pipe
           :buffer (generate-new-buffer " *tbc check*")
           :command (list tinybasic-program "check" "-")
           :sentinel
           (lambda (process _)
             (when (memq (process-status process) '(exit signal))
               (unwind-protect
                   (when (and (buffer-live-p source)
                              (eq process (buffer-local-value 'tinybasic--process source)))
                     (funcall report (tinybasic--findings source (process-buffer process))))
                 (kill-buffer (process-buffer process)))))))
    (process-send-region tinybasic--process (point-min) (point-max))
    (process-send-eof tinybasic--process)))

;;;###autoload
(define-derived-mode tinybasic-mode prog-mode "Tiny BASIC"
  "Major mode for Tiny BASIC."
  (setq-local comment-start "REM ")
  (setq-local font-lock-defaults '(tinybasic-font-lock t t))
  (when buffer-file-name
    (setq-local compile-command
                (concat tinybasic-program " check " (shell-quote-argument (file-name-nondirectory buffer-file-name)))))
  (add-hook 'flymake-diagnostic-functions #'tinybasic-flymake nil t))

;;;###autoload
(add-to-list 'auto-mode-alist '("\\.tbas\\'" . tinybasic-mode))

;; A program that is set later is the one that is started.
(defvar eglot-server-programs)
(with-eval-after-load 'eglot
  (add-to-list 'eglot-server-programs
               `(tinybasic-mode . ,(lambda (&rest _) (list tinybasic-program "lsp")))))

(defun tinybasic-file-p ()
  "Whether the buffer visits Tiny BASIC, by its name and first line.
Its name ends in .bas, and its first line that isn't empty begins with a
number."
  (and buffer-file-name
       (string-match-p "\\.bas\\'" buffer-file-name)
       (save-excursion
         (goto-char (point-min))
         (looking-at-p "[ \t\r\n]*[0-9]"))))

;;;###autoload
(add-to-list 'magic-mode-alist '(tinybasic-file-p . tinybasic-mode))

(provide 'tinybasic-mode)
;;; tinybasic-mode.el ends here
